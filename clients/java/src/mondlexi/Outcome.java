// Used by: programs, Client, Counted, Protocol.
package mondlexi;

import java.util.Optional;

/**
 * How a change ended.
 *
 * @param made whether all words had their expected values, and the new ones are written, durably; otherwise nothing was changed
 * @param miss of a change that wasn't made, why; a {@link Counted} doesn't know it if a reply was lost, and perhaps no word differs
 */
public record Outcome(boolean made, Optional<Miss> miss) {
    static final Outcome MADE = new Outcome(true, Optional.empty());
    static final Outcome NOT_MADE = new Outcome(false, Optional.empty());

    static Outcome missed(int address, long value) {
        return new Outcome(false, Optional.of(new Miss(address, value)));
    }
}
