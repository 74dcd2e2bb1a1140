// Used by: programs, Counted, Outcome.
package mondlexi;

/**
 * Why a change wasn't made: the word at this address had this value, not the one expected. If several differ it is any.
 *
 * @param address the word's
 * @param value the value that it had
 */
public record Miss(int address, long value) {
}
