// Used by: Link. SocketLink is the same for TCP: change both.
package mondlexi;

import java.io.IOException;
import java.net.ConnectException;
import java.net.SocketException;
import java.net.SocketTimeoutException;
import java.net.StandardProtocolFamily;
import java.net.UnixDomainSocketAddress;
import java.nio.ByteBuffer;
import java.nio.channels.SelectionKey;
import java.nio.channels.Selector;
import java.nio.channels.SocketChannel;
import java.nio.file.Files;
import java.nio.file.Path;

/** A connection to a local socket. */
final class ChannelLink extends Link {
    private final SocketChannel channel;
    private final Selector selector;
    private final SelectionKey key;

    private ChannelLink(SocketChannel channel) throws IOException {
        this.channel = channel;
        this.selector = Selector.open();
        this.key = channel.register(selector, 0);
    }

    /** While as many connections wait there as the system lets wait, it tries again. */
    static ChannelLink connect(String path, long end) throws IOException {
        Pause pause = new Pause(end);
        for (;;) {
            SocketChannel channel = connected(path);
            if (channel != null) {
                return new ChannelLink(channel);
            }
            if (!pause.await()) {
                throw new SocketTimeoutException("the local socket is full");
            }
        }
    }

    /** A connection, or null if the socket is full: one is neither made nor refused then. */
    private static SocketChannel connected(String path) throws IOException {
        SocketChannel channel = SocketChannel.open(StandardProtocolFamily.UNIX);
        boolean isMade = false;
        try {
            channel.configureBlocking(false);
            isMade = channel.connect(UnixDomainSocketAddress.of(path));
        } catch (ConnectException refused) {
            throw refused;
        } catch (SocketException failed) {
            // It tells so that the socket is full, and also that there is none, or that it may not be written.
            if (!Files.isWritable(Path.of(path))) {
                throw failed;
            }
        } finally {
            if (!isMade) {
                channel.close();
            }
        }
        return isMade ? channel : null;
    }

    /** Waits until the channel can do this. An interrupt doesn't end the wait, and stays. */
    private void await(int operation, long end) throws IOException {
        key.interestOps(operation);
        boolean isInterrupted = Thread.interrupted();
        try {
            selector.select(Pause.left(end));
            selector.selectedKeys().clear();
        } finally {
            if (isInterrupted) {
                Thread.currentThread().interrupt();
            }
        }
    }

    @Override
    void write(byte[] bytes, long end) throws IOException {
        ByteBuffer from = ByteBuffer.wrap(bytes);
        while (from.hasRemaining()) {
            if (channel.write(from) == 0) {
                await(SelectionKey.OP_WRITE, end);
            }
        }
    }

    @Override
    int read(byte[] to, long end) throws IOException {
        for (;;) {
            int count = channel.read(ByteBuffer.wrap(to));
            if (count != 0) {
                return count;
            }
            await(SelectionKey.OP_READ, end);
        }
    }

    @Override
    boolean endWriting() throws IOException {
        channel.shutdownOutput();
        return true;
    }

    @Override
    public void close() {
        try (channel; selector) {
            key.cancel();
        } catch (IOException ignored) {
            // Nobody reads or writes it any more.
        }
    }
}
