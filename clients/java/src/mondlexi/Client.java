// Used by: programs, Counted, Protocol. A further call is one of each client, has a case in play/Play.java, and cases in clients/cases.
// VERSION is that of the programs (crates/mw_main/src/lib.rt), the limits are those of docs/PROTOCOL.md.
package mondlexi;

import java.time.Duration;
import java.util.Arrays;
import java.util.List;
import java.util.stream.IntStream;

/** A session for one tenant, whose words it reads and changes. */
public final class Client implements AutoCloseable {
    /** The version of the server's programs with which this client was released. */
    public static final String VERSION = "0.2.0+unreleased";
    /** The greatest value of a word. */
    public static final long MAX_VALUE = (1L << 48) - 1;
    /** The most words that a tenant can have; the greatest address is one less. */
    public static final int MAX_WORDS = 4096;
    /** The most words of one change, or of one read. */
    public static final int MAX_ENTRIES = 16;

    private final Session session;

    private Client(Session session) {
        this.session = session;
    }

    /**
     * As the other connect, with {@link Options#DEFAULTS}.
     *
     * @param server where it listens
     * @param tenant the tenant's name
     * @return the client
     * @throws MondlexiException Lost, Full or Refused
     */
    public static Client connect(String server, String tenant) throws MondlexiException {
        return connect(server, tenant, Options.DEFAULTS);
    }

    /**
     * Connects to a server, and speaks for a tenant from then on.
     *
     * @param server where it listens. HOST:PORT: a name, or an address (of IPv6 in brackets), and a port from 1 to 65535; or unix:PATH:
     *     the path of a local socket, 1 to 106 bytes
     * @param tenant a letter a to z, then up to 15 of a to z, 0 to 9 and "-"
     * @param options how long to wait, and how often to ask
     * @return the client
     * @throws MondlexiException Lost; Full; Refused, with number 5, if no tenant has the name
     * @throws IllegalArgumentException if an argument is out of its range; then nothing was sent
     */
    public static Client connect(String server, String tenant, Options options) throws MondlexiException {
        return new Client(Session.begin(server, Protocol.tenantGreeting(tenant), options));
    }

    /**
     * How many words the tenant has, as the server said when it was connected. It asks nobody.
     *
     * @return 1 to {@link #MAX_WORDS}
     */
    public int words() {
        return session.words();
    }

    /**
     * Ends the session and closes the connection. It waits for a call of another thread to end, and then for the server's goodbye, a
     * second at most. Each further call ends as Lost, until reconnect.
     */
    @Override
    public void close() {
        session.close();
    }

    /**
     * Connects anew, after Lost, Unknown or close. A connection that there is, is closed first.
     *
     * @param within for how long to try again, with growing pauses, if that fails
     * @throws MondlexiException Lost or Full; Refused at once
     */
    public void reconnect(Duration within) throws MondlexiException {
        session.reconnect(within);
    }

    /**
     * The value of a word: durable, and no older than what this connection was told before. It costs no disk access. If the connection
     * has broken, it connects anew and asks again, as often as the options say.
     *
     * @param address the word's
     * @return its value
     * @throws MondlexiException Lost; Fault; and, when it connects anew, Full or Refused
     */
    public long get(int address) throws MondlexiException {
        return getMany(address)[0];
    }

    /**
     * The values of any number of words, each of its own moment, by one round trip for up to 512.
     *
     * @param addresses the words'
     * @return their values
     * @throws MondlexiException as of get
     */
    public long[] getMany(int... addresses) throws MondlexiException {
        check(addresses);
        return addresses.length == 0 ? new long[0] : session.ask(Protocol.get(addresses));
    }

    /**
     * The values of any number of words, all of one moment, without the disk: it reads them until two readings are equal. This is right
     * only if no word that is read ever returns to an earlier value; put a word that only grows beside those that may.
     *
     * @param addresses the words'
     * @return their values
     * @throws MondlexiException as of get, and Busy if the words changed for as long as the client has patience
     */
    public long[] stable(int... addresses) throws MondlexiException {
        long end = Pause.after(session.options().patience());
        int count = addresses.length;
        // The server answers a line before it looks at the next one, so two readings may be sent together.
        long[] both = getMany(IntStream.concat(Arrays.stream(addresses), Arrays.stream(addresses)).toArray());
        long[] before = Arrays.copyOf(both, count);
        long[] values = Arrays.copyOfRange(both, count, 2 * count);
        while (!Arrays.equals(values, before)) {
            checkPatience(end);
            before = values;
            values = getMany(addresses);
        }
        return values;
    }

    /**
     * The values of one to sixteen different words, all of one moment; one may come again. A single word is read by get. Several are
     * guessed, then confirmed by a change that writes to each the value that it has. So it costs the disk as much as a change, and beside
     * many writers it may end as Busy. It changes no word.
     *
     * @param addresses the words'
     * @return their values
     * @throws MondlexiException as of get, Busy and Worn
     */
    public long[] read(int... addresses) throws MondlexiException {
        check(addresses);
        int[] different = Arrays.stream(addresses).sorted().distinct().toArray();
        if (different.length < 1 || different.length > MAX_ENTRIES) {
            throw new IllegalArgumentException("one to " + MAX_ENTRIES + " different words are read at a time");
        }
        long end = Pause.after(session.options().patience());
        long[] values = getMany(different);
        if (different.length > 1) {
            confirm(different, values, end);
        }
        return Arrays.stream(addresses).mapToLong(it -> values[Arrays.binarySearch(different, it)]).toArray();
    }

    /** Asks for the change that writes to each word its guessed value, and mends guesses that have gone stale, up to the end. */
    private void confirm(int[] addresses, long[] values, long end) throws MondlexiException {
        for (;;) {
            List<Entry> entries = IntStream.range(0, values.length).mapToObj(k -> new Entry(addresses[k], values[k], values[k])).toList();
            Outcome outcome = session.askPatiently(Protocol.cas(entries, false), end);
            if (outcome.made()) {
                return;
            }
            checkPatience(end);
            outcome.miss().ifPresent(it -> values[Arrays.binarySearch(addresses, it.address())] = it.value());
        }
    }

    private void checkPatience(long end) throws MondlexiException {
        if (Pause.isOver(end)) {
            throw new MondlexiException.Busy("the words changed for " + session.options().patience());
        }
    }

    private void check(int... addresses) {
        int words = words();
        Arrays.stream(addresses).forEach(it -> Protocol.checkAddress(it, words));
    }

    /**
     * Compares and swaps: writes each entry's new value if all the words have the values expected, else nothing. While the server is busy
     * it asks again. It never connects anew.
     *
     * @param entries one to sixteen in any order, each of another word
     * @return whether it was made, or why not
     * @throws MondlexiException Lost, Busy, Refused: not made. Unknown, Fault, Worn: undecided
     * @throws IllegalArgumentException if an entry is out of its range; then nothing was sent
     */
    public Outcome cas(Entry... entries) throws MondlexiException {
        List<Entry> checked = Protocol.checkedEntries(List.of(entries), words());
        return session.askPatiently(Protocol.cas(checked, true), Pause.after(session.options().patience()));
    }
}
