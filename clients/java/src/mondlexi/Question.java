// Used by: Link, Protocol, Session. Protocol makes one for each command.
package mondlexi;

import java.util.List;
import java.util.function.Function;

/**
 * Lines that are sent together, and what their replies mean.
 *
 * @param isChange whether something may have been changed if the connection ends before the last reply
 * @param isReport whether a reply has several lines
 * @param meaning takes the replies, each of one line or more; null if no server says so
 */
record Question<T>(List<String> lines, boolean isChange, boolean isReport, Function<List<List<String>>, T> meaning) {
    /** A question of one line, whose reply is one line. */
    static <T> Question<T> line(String line, boolean isChange, Function<String, T> meaning) {
        return new Question<>(List.of(line), isChange, false, replies -> meaning.apply(replies.get(0).get(0)));
    }
}
