// Used by: Link. ChannelLink is the same for a local socket: change both.
package mondlexi;

import java.io.IOException;
import java.net.ConnectException;
import java.net.InetAddress;
import java.net.InetSocketAddress;
import java.net.Socket;
import java.net.SocketAddress;
import java.util.Arrays;
import java.util.Iterator;
import javax.net.ssl.SSLParameters;
import javax.net.ssl.SSLSocket;
import javax.net.ssl.SSLSocketFactory;

/** A connection over TCP, with TLS if that is wanted. */
final class SocketLink extends Link {
    private final Socket socket;
    private final boolean isTls;

    private SocketLink(Socket socket, boolean isTls) {
        this.socket = socket;
        this.isTls = isTls;
    }

    static SocketLink connect(Place place, Options options, long end) throws IOException {
        Socket socket = connected(place, end);
        if (options.tls() == null) {
            return new SocketLink(socket, false);
        }
        String name = options.tlsName() == null ? place.host() : options.tlsName();
        return new SocketLink(greeted(socket, name, options.tls(), end), true);
    }

    /** A connection to the first address of a host that takes one. */
    private static Socket connected(Place place, long end) throws IOException {
        Iterator<InetAddress> addresses = Arrays.asList(InetAddress.getAllByName(place.host())).iterator();
        for (;;) {
            try {
                return connected(new InetSocketAddress(addresses.next(), place.port()), end);
            } catch (IOException failure) {
                if (!addresses.hasNext()) {
                    throw failure;
                }
            }
        }
    }

    /** A connection whose two ends differ. The system may connect a socket to itself if nobody listens at a port of this machine. */
    private static Socket connected(SocketAddress address, long end) throws IOException {
        Socket socket = new Socket();
        try {
            socket.connect(address, Pause.left(end));
            if (socket.getLocalSocketAddress().equals(socket.getRemoteSocketAddress())) {
                throw new ConnectException("nobody listens");
            }
            socket.setTcpNoDelay(true);
            return socket;
        } catch (IOException failure) {
            close(socket);
            throw failure;
        }
    }

    /** What speaks TLS over a socket, after its greeting. The certificate must have this name. */
    private static Socket greeted(Socket socket, String name, SSLSocketFactory factory, long end) throws IOException {
        try {
            SSLSocket spoken = (SSLSocket) factory.createSocket(socket, name, socket.getPort(), true);
            SSLParameters parameters = spoken.getSSLParameters();
            parameters.setEndpointIdentificationAlgorithm("HTTPS");
            spoken.setSSLParameters(parameters);
            spoken.setSoTimeout(Pause.left(end));
            spoken.startHandshake();
            return spoken;
        } catch (IOException failure) {
            close(socket);
            throw failure;
        }
    }

    /** What is sent at once fits into the socket's room, because all before it was answered: this doesn't wait. */
    @Override
    void write(byte[] bytes, long end) throws IOException {
        socket.getOutputStream().write(bytes);
    }

    @Override
    int read(byte[] to, long end) throws IOException {
        socket.setSoTimeout(Pause.left(end));
        return socket.getInputStream().read(to);
    }

    @Override
    boolean endWriting() throws IOException {
        if (!isTls) {
            socket.shutdownOutput();
        }
        return !isTls;
    }

    @Override
    public void close() {
        close(socket);
    }

    private static void close(Socket socket) {
        try {
            socket.close();
        } catch (IOException ignored) {
            // Nobody reads or writes it any more.
        }
    }
}
