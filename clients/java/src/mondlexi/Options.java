// Used by: programs, Administrator, Client, Counted, Link, Session, SocketLink. The defaults and limits are those of each client. A further
// option of clients/cases/README.md is read by play/Play.java.
package mondlexi;

import java.time.Duration;
import javax.net.ssl.SSLSocketFactory;

/**
 * How long a client waits, and how often it asks. Begin with {@link #DEFAULTS}. Times are up to {@link #MAX_TIME}.
 *
 * @param timeout how long to wait for a connection, and then for each reply, above 0. A name is looked up without this limit, and a
 *     greeting of TLS has it for each of its steps
 * @param patience for how long cas, read and stable ask again, with growing pauses, while the server is busy; 0 for not at all
 * @param within for how long to try again if connecting fails, also when a call connects anew; 0 for one try
 * @param reconnects how often one call of get, getMany, read, stable or report connects anew and asks again if the connection has
 *     broken, 0 to {@link #MAX_RECONNECTS}. A reply that doesn't come in time isn't asked for again
 * @param tls if it isn't null: speaks TLS over TCP by it. The server itself has no TLS: a proxy in front of it has
 * @param tlsName the name in the proxy's certificate; null for the host
 */
public record Options(Duration timeout, Duration patience, Duration within, int reconnects, SSLSocketFactory tls, String tlsName) {
    /** The longest time of an option. */
    public static final Duration MAX_TIME = Duration.ofSeconds(1_000_000);
    /** The most times that one call may connect anew. */
    public static final int MAX_RECONNECTS = 1000;
    /** 10 seconds for a reply, 5 seconds of patience, one try to connect, one connection anew in a call, and no TLS. */
    public static final Options DEFAULTS = new Options(Duration.ofSeconds(10), Duration.ofSeconds(5), Duration.ZERO, 1, null, null);

    /**
     * These options.
     *
     * @param timeout above 0
     * @param patience 0 or more
     * @param within 0 or more
     * @param reconnects 0 to {@link #MAX_RECONNECTS}
     * @param tls may be null
     * @param tlsName may be null
     * @throws IllegalArgumentException if one is out of its range
     */
    public Options {
        checkTime("timeout", timeout);
        checkTime("patience", patience);
        checkTime("within", within);
        if (timeout.isZero()) {
            throw new IllegalArgumentException("timeout has to be above 0");
        }
        if (reconnects < 0 || reconnects > MAX_RECONNECTS) {
            throw new IllegalArgumentException("reconnects has to be from 0 to " + MAX_RECONNECTS);
        }
    }

    static void checkTime(String name, Duration time) {
        if (time.isNegative() || time.compareTo(MAX_TIME) > 0) {
            throw new IllegalArgumentException(name + " has to be from 0 to " + MAX_TIME.toSeconds() + " seconds");
        }
    }

    /**
     * These options with another timeout.
     *
     * @param other the timeout
     * @return the new options
     */
    public Options withTimeout(Duration other) {
        return new Options(other, patience, within, reconnects, tls, tlsName);
    }

    /**
     * These options with other patience.
     *
     * @param other the patience
     * @return the new options
     */
    public Options withPatience(Duration other) {
        return new Options(timeout, other, within, reconnects, tls, tlsName);
    }

    /**
     * These options with another time to connect within.
     *
     * @param other the time
     * @return the new options
     */
    public Options withWithin(Duration other) {
        return new Options(timeout, patience, other, reconnects, tls, tlsName);
    }

    /**
     * These options with another number of reconnects.
     *
     * @param other the number
     * @return the new options
     */
    public Options withReconnects(int other) {
        return new Options(timeout, patience, within, other, tls, tlsName);
    }

    /**
     * These options with TLS.
     *
     * @param factory what makes its sockets
     * @return the new options
     */
    public Options withTls(SSLSocketFactory factory) {
        return new Options(timeout, patience, within, reconnects, factory, tlsName);
    }

    /**
     * These options with a name that the proxy's certificate has in place of the host's.
     *
     * @param name the name
     * @return the new options
     */
    public Options withTlsName(String name) {
        return new Options(timeout, patience, within, reconnects, tls, name);
    }
}
