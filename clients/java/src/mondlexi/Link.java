// Used by: Session; ChannelLink and SocketLink, which are its two kinds. Limits of time are the same in each client: change them together, with
// a case in clients/cases.
package mondlexi;

import java.io.EOFException;
import java.io.IOException;
import java.net.ProtocolException;
import java.nio.charset.StandardCharsets;
import java.time.Duration;
import java.util.ArrayList;
import java.util.List;

/** A connection, and what came over it and was not taken yet. A SocketTimeoutException says that a time is over. */
abstract class Link implements AutoCloseable {
    private static final int PIECE = 4096;
    private static final String QUIT = "QUIT\n";

    private final byte[] piece = new byte[PIECE];
    private final StringBuilder rest = new StringBuilder();
    private boolean isSilent = true;

    /** Connects to a server. */
    static Link connect(Place place, Options options) throws IOException {
        long end = Pause.after(options.timeout());
        return place.isLocal() ? ChannelLink.connect(place.path(), end) : SocketLink.connect(place, options, end);
    }

    abstract void write(byte[] bytes, long end) throws IOException;

    /** How many bytes have come, 1 or more; -1 at the end. */
    abstract int read(byte[] to, long end) throws IOException;

    /** Ends the writing side alone, if the connection can. Whether it did. */
    abstract boolean endWriting() throws IOException;

    @Override
    public abstract void close();

    static IOException strange(String text) {
        return new ProtocolException("not a reply of the protocol: " + text);
    }

    /** Whether no byte has come yet. */
    boolean isSilent() {
        return isSilent;
    }

    /** The replies to these lines, each within the timeout. */
    List<List<String>> exchange(Question<?> question, Duration timeout) throws IOException {
        List<String> lines = question.lines();
        List<List<String>> replies = new ArrayList<>(lines.size());
        while (replies.size() < lines.size()) {
            int stop = Math.min(lines.size(), replies.size() + Protocol.LINES_AT_ONCE);
            send(String.join("\n", lines.subList(replies.size(), stop)) + "\n", Pause.after(timeout));
            addReplies(replies, stop, question.isReport(), timeout);
        }
        if (!rest.isEmpty()) {
            throw strange(rest.toString());
        }
        return replies;
    }

    private void send(String text, long end) throws IOException {
        write(text.getBytes(StandardCharsets.ISO_8859_1), end);
    }

    private void addReplies(List<List<String>> replies, int count, boolean isReport, Duration timeout) throws IOException {
        while (replies.size() < count) {
            replies.add(reply(isReport, Pause.after(timeout)));
        }
    }

    private List<String> reply(boolean isReport, long end) throws IOException {
        List<String> lines = new ArrayList<>(1);
        do {
            if (lines.size() > Protocol.MAX_TENANTS) {
                throw strange(String.join("; ", lines));
            }
            lines.add(line(end));
        } while (!Protocol.isLast(lines.get(lines.size() - 1), isReport));
        return lines;
    }

    /** The next line, without its line feed. */
    private String line(long end) throws IOException {
        for (;;) {
            int stop = rest.indexOf("\n");
            if ((stop < 0 ? rest.length() : stop) > Protocol.MAX_REPLY) {
                throw strange(rest.substring(0, Protocol.MAX_REPLY));
            }
            if (stop >= 0) {
                String line = rest.substring(0, stop);
                rest.delete(0, stop + 1);
                return line;
            }
            receive(end);
        }
    }

    private void receive(long end) throws IOException {
        int count = read(piece, end);
        if (count < 0) {
            throw new EOFException("the server closed the connection");
        }
        isSilent = false;
        rest.append(new String(piece, 0, count, StandardCharsets.ISO_8859_1));
    }

    /** Says QUIT, ends the writing side, and reads to the end; a line if the writing side doesn't end alone. */
    void finish(long end) {
        try {
            send(QUIT, end);
            if (!endWriting()) {
                line(end);
                return;
            }
            for (;;) {
                rest.setLength(0);
                receive(end);
            }
        } catch (IOException ended) {
            // It ends so in any case, if only because the server has closed the connection.
        }
    }
}
