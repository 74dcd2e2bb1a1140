import java.io.BufferedReader;
import java.io.IOException;
import java.io.InputStreamReader;
import java.time.Duration;
import java.util.Arrays;
import java.util.Locale;
import java.util.stream.Collectors;
import java.util.stream.LongStream;
import java.util.stream.Stream;
import mondlexi.Administrator;
import mondlexi.Client;
import mondlexi.Counted;
import mondlexi.Entry;
import mondlexi.MondlexiException;
import mondlexi.Options;
import mondlexi.Outcome;
import mondlexi.Report;

/**
 * The client in Java, as the program of clients/cases/README.md: it reads calls, one a line, and tells what each tells.
 *
 * <p>Used by: scripts/check-clients. A further call of that page is a case here, and in play of each language. A failure is told by the name
 * of its class: a further kind of MondlexiException needs no case. Status 0.
 */
final class Play {
    private Client client;
    private Administrator administrator;
    private Counted counted;

    private static Duration milliseconds(String text) {
        return Duration.ofMillis(Long.parseLong(text));
    }

    private static Options with(Options options, String word) {
        String value = word.substring(word.indexOf('=') + 1);
        return switch (word.substring(0, word.indexOf('='))) {
            case "timeout" -> options.withTimeout(milliseconds(value));
            case "patience" -> options.withPatience(milliseconds(value));
            case "within" -> options.withWithin(milliseconds(value));
            default -> options.withReconnects(Integer.parseInt(value));
        };
    }

    private static Options optionsOf(Stream<String> words) {
        return words.reduce(Options.DEFAULTS, Play::with, (one, other) -> other);
    }

    private static Entry entryOf(String word) {
        String[] parts = word.split(":");
        return new Entry(Integer.parseInt(parts[0]), Long.parseLong(parts[1]), Long.parseLong(parts[2]));
    }

    private static Entry[] entriesOf(String[] words) {
        return Arrays.stream(words).skip(1).map(Play::entryOf).toArray(Entry[]::new);
    }

    private static int[] addressesOf(String[] words) {
        return Arrays.stream(words).skip(1).mapToInt(Integer::parseInt).toArray();
    }

    private static String told(long... values) {
        return "values" + LongStream.of(values).mapToObj(it -> " " + it).collect(Collectors.joining());
    }

    private static String told(Outcome outcome) {
        return outcome.made() ? "made" : outcome.miss().map(it -> "not " + it.address() + " " + it.value()).orElse("not");
    }

    private static String told(Report report) {
        Stream<String> tenants = report.tenants().stream().map(it -> String.format("tenant %s %d %d %d %d %s; ", it.name(), it.words(),
            it.quota(), it.places(), it.underWay(), it.up() ? "up" : "down"));
        return tenants.collect(Collectors.joining()) + "free " + report.free();
    }

    private static String told(Throwable failure) {
        if (failure instanceof MondlexiException.Refused refused) {
            return "refused " + refused.number();
        }
        if (failure instanceof MondlexiException.Unknown && failure.getCause() instanceof MondlexiException cause) {
            return "unknown from " + told(cause);
        }
        return failure.getClass().getSimpleName().toLowerCase(Locale.ROOT);
    }

    private String connect(String[] words) throws MondlexiException {
        client = Client.connect(words[1], words[2], optionsOf(Arrays.stream(words).skip(3)));
        return "words " + client.words();
    }

    private String administer(String[] words) throws MondlexiException {
        administrator = Administrator.connect(words[1], optionsOf(Arrays.stream(words).skip(2)));
        return "connected";
    }

    private String count(String[] words) throws MondlexiException {
        String wait = words.length > 2 ? words[2].substring("wait=".length()) : "30000";
        counted = Counted.begin(client, Integer.parseInt(words[1]), milliseconds(wait));
        return "counted";
    }

    private String reconnect(String within) throws MondlexiException {
        if (administrator == null) {
            client.reconnect(milliseconds(within));
        } else {
            administrator.reconnect(milliseconds(within));
        }
        return "connected";
    }

    private String close() {
        if (client != null) {
            client.close();
        }
        if (administrator != null) {
            administrator.close();
        }
        return "closed";
    }

    private String call(String[] words) throws MondlexiException {
        return switch (words[0]) {
            case "client" -> connect(words);
            case "administrator" -> administer(words);
            case "get" -> told(client.get(Integer.parseInt(words[1])));
            case "get_many" -> told(client.getMany(addressesOf(words)));
            case "read" -> told(client.read(addressesOf(words)));
            case "stable" -> told(client.stable(addressesOf(words)));
            case "cas" -> told(client.cas(entriesOf(words)));
            case "counted" -> count(words);
            case "counted_cas" -> told(counted.cas(entriesOf(words)));
            case "settle" -> counted.settle() ? "made" : "not";
            case "report" -> told(administrator.report());
            case "reconnect" -> reconnect(words[1]);
            case "close" -> close();
            default -> throw new UnsupportedOperationException(words[0]);
        };
    }

    private String toldOf(String line) {
        try {
            return call(line.split(" "));
        } catch (MondlexiException failure) {
            return told(failure);
        } catch (IllegalArgumentException failure) {
            return "invalid";
        } catch (IllegalStateException failure) {
            return "moved";
        }
    }

    public static void main(String[] arguments) throws IOException {
        Play play = new Play();
        BufferedReader lines = new BufferedReader(new InputStreamReader(System.in));
        for (String line = lines.readLine(); line != null; line = lines.readLine()) {
            System.out.println(play.toldOf(line.strip()));
        }
    }
}
