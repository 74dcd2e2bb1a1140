// Used by: Administrator, Client, Counted, Link, Session. A command or limit that docs/PROTOCOL.md gains is added here, in the file of this name
// of each other client, and has cases in clients/cases.
package mondlexi;

import java.util.ArrayList;
import java.util.Arrays;
import java.util.Comparator;
import java.util.List;
import java.util.Optional;
import java.util.OptionalLong;
import java.util.regex.Pattern;
import java.util.stream.Collectors;
import java.util.stream.IntStream;

/**
 * The protocol without a connection: which arguments are allowed, the line of each question, and what its reply means.
 * docs/PROTOCOL.md has the grammar.
 */
final class Protocol {
    /** Bytes of a line from the server, without its line feed. */
    static final int MAX_REPLY = 35;
    /** Lines sent before their replies are read: each socket has room for so many lines of GET. */
    static final int LINES_AT_ONCE = 512;
    static final int MAX_TENANTS = 16;
    /** The last line of a report alone has at most so many bytes. */
    private static final int REPORT_END = 8;
    private static final long MOST_FREE = 1L << 32;
    private static final Pattern TENANT = Pattern.compile("[a-z][a-z0-9-]{0,15}");
    private static final Pattern NUMBER = Pattern.compile("0|[1-9][0-9]{0,14}");

    private Protocol() {
    }

    static void checkAddress(int address, int words) {
        if (address < 0 || address >= words) {
            throw new IllegalArgumentException("the tenant has the addresses 0 to " + (words - 1) + ", not " + address);
        }
    }

    private static void checkValue(long value) {
        if (value < 0 || value > Client.MAX_VALUE) {
            throw new IllegalArgumentException("a value is from 0 to " + Client.MAX_VALUE + ", not " + value);
        }
    }

    /** These entries, sorted by address, if a tenant of so many words can be asked for them in one change. */
    static List<Entry> checkedEntries(List<Entry> entries, int words) {
        if (entries.isEmpty() || entries.size() > Client.MAX_ENTRIES) {
            throw new IllegalArgumentException("a change has one to " + Client.MAX_ENTRIES + " entries");
        }
        for (Entry it : entries) {
            checkAddress(it.address(), words);
            checkValue(it.expected());
            checkValue(it.value());
        }
        if (entries.stream().map(Entry::address).distinct().count() < entries.size()) {
            throw new IllegalArgumentException("two entries have one address");
        }
        return entries.stream().sorted(Comparator.comparingInt(Entry::address)).toList();
    }

    static Question<Integer> tenantGreeting(String name) {
        if (!TENANT.matcher(name).matches()) {
            throw new IllegalArgumentException("a tenant has a name of a to z, then up to 15 of a to z, 0 to 9 and \"-\"");
        }
        return Question.line("TENANT " + name, false, reply -> {
            long words = numberAfter("OK ", reply, Client.MAX_WORDS).orElse(0);
            return words == 0 ? null : (int) words;
        });
    }

    static Question<Integer> administratorGreeting() {
        return Question.line("ADMIN", false, reply -> reply.equals("OK ADMIN") ? 0 : null);
    }

    static Question<long[]> get(int... addresses) {
        List<String> lines = Arrays.stream(addresses).mapToObj(it -> "GET " + it).toList();
        return new Question<>(lines, false, false, replies -> {
            long[] values = replies.stream().mapToLong(it -> numberAfter("VAL ", it.get(0), Client.MAX_VALUE).orElse(-1)).toArray();
            return Arrays.stream(values).anyMatch(it -> it < 0) ? null : values;
        });
    }

    /** isChange: false if the entries can't change anything. */
    static Question<Outcome> cas(List<Entry> entries, boolean isChange) {
        String parts = entries.stream().map(it -> it.address() + ":" + it.expected() + ":" + it.value()).collect(Collectors.joining(" "));
        return Question.line("CAS " + parts, isChange, reply -> outcomeOf(reply, entries));
    }

    static Question<Report> report() {
        return new Question<>(List.of("REPORT"), false, true, replies -> reportOf(replies.get(0)));
    }

    static boolean isLast(String line, boolean isReport) {
        return !isReport || line.length() <= REPORT_END;
    }

    /** What any line may be answered; nothing if this is none of it. */
    static Optional<MondlexiException> failureOf(String line, String reply) {
        String text = line + ": " + reply;
        return switch (reply) {
            case "BUSY" -> Optional.of(new MondlexiException.Busy(text));
            case "FAULT" -> Optional.of(new MondlexiException.Fault(text));
            case "WORN" -> Optional.of(new MondlexiException.Worn(text));
            default -> {
                long number = numberAfter("ERR ", reply, 99).orElse(0);
                yield number == 0 ? Optional.empty() : Optional.of(new MondlexiException.Refused(text, (int) number));
            }
        };
    }

    private static OptionalLong numberOf(String text, long most) {
        if (!NUMBER.matcher(text).matches() || Long.parseLong(text) > most) {
            return OptionalLong.empty();
        }
        return OptionalLong.of(Long.parseLong(text));
    }

    private static OptionalLong numberAfter(String word, String text, long most) {
        return text.startsWith(word) ? numberOf(text.substring(word.length()), most) : OptionalLong.empty();
    }

    private static Outcome outcomeOf(String reply, List<Entry> entries) {
        if (reply.equals("YES")) {
            return Outcome.MADE;
        }
        String[] parts = reply.split(" ", -1);
        if (parts.length != 3 || !parts[0].equals("NO")) {
            return null;
        }
        long address = numberOf(parts[1], Client.MAX_WORDS).orElse(-1);
        long value = numberOf(parts[2], Client.MAX_VALUE).orElse(-1);
        boolean isKnown = value >= 0 && entries.stream().anyMatch(it -> it.address() == address && it.expected() != value);
        return isKnown ? Outcome.missed((int) address, value) : null;
    }

    private static Report reportOf(List<String> lines) {
        List<TenantReport> tenants = new ArrayList<>();
        for (String line : lines.subList(0, lines.size() - 1)) {
            tenants.add(tenantOf(line));
        }
        OptionalLong free = numberAfter("free ", lines.get(lines.size() - 1), MOST_FREE);
        boolean isReport = !tenants.isEmpty() && !tenants.contains(null) && free.isPresent();
        return isReport ? new Report(List.copyOf(tenants), free.getAsLong()) : null;
    }

    /** A tenant's line of a report, in its columns; null if it is none. */
    private static TenantReport tenantOf(String line) {
        String[] parts = line.strip().split(" +");
        if (parts.length != 6 || !TENANT.matcher(parts[0]).matches()) {
            return null;
        }
        int[] numbers = IntStream.rangeClosed(1, 4).map(k -> (int) numberOf(parts[k], 9999).orElse(-1)).toArray();
        TenantReport it = new TenantReport(parts[0], numbers[0], numbers[1], numbers[2], numbers[3], parts[5].equals("up"));
        String state = it.up() ? "up" : "down";
        String again = String.format("%-16s %4d %2d %2d %2d %s", it.name(), it.words(), it.quota(), it.places(), it.underWay(), state);
        return again.equals(line) ? it : null;
    }
}
