// Used by: programs, Client, Counted, Protocol. It keeps the limits of docs/PROTOCOL.md, as Protocol looks.
package mondlexi;

/**
 * A part of a change.
 *
 * @param address the word's, from 0 to the tenant's words - 1
 * @param expected the value that the word must have, from 0 to {@link Client#MAX_VALUE}
 * @param value the new one, in the same range; it may be equal to the one expected, to compare only
 */
public record Entry(int address, long expected, long value) {
}
