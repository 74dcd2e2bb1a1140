// Used by: Link, Session, SocketLink. Each client takes the same places, which clients/cases/connect.txt tries.
package mondlexi;

import java.nio.charset.StandardCharsets;
import java.util.regex.Matcher;
import java.util.regex.Pattern;

/** Where a server listens: at a host and a port, or, if the host is null, at a path. */
record Place(String host, int port, String path) {
    /** Java takes no longer ones; others take 107. */
    private static final int MAX_PATH = 106;
    private static final Pattern PORT = Pattern.compile("(?:([^\\[\\]:\\s\\x00]+)|\\[([^\\[\\]\\s\\x00]+)]):([0-9]{1,5})");

    static Place of(String server) {
        if (server.startsWith("unix:")) {
            String path = server.substring("unix:".length());
            int size = path.getBytes(StandardCharsets.UTF_8).length;
            if (size < 1 || size > MAX_PATH || path.indexOf(0) >= 0) {
                throw new IllegalArgumentException("the path of a local socket has 1 to " + MAX_PATH + " bytes, and none is 0");
            }
            return new Place(null, 0, path);
        }
        Matcher found = PORT.matcher(server);
        int port = found.matches() ? Integer.parseInt(found.group(3)) : 0;
        if (port < 1 || port > 65535) {
            throw new IllegalArgumentException(
                "a server listens at HOST:PORT, with a port from 1 to 65535, at [HOST]:PORT for IPv6, or at unix:PATH");
        }
        return new Place(found.group(1) != null ? found.group(1) : found.group(2), port, null);
    }

    boolean isLocal() {
        return host == null;
    }
}
