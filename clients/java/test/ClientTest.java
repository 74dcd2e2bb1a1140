import java.io.BufferedReader;
import java.io.IOException;
import java.io.InputStreamReader;
import java.io.OutputStream;
import java.net.InetAddress;
import java.net.InetSocketAddress;
import java.net.ServerSocket;
import java.net.Socket;
import java.nio.charset.StandardCharsets;
import java.nio.file.Files;
import java.nio.file.Path;
import java.security.KeyStore;
import java.time.Duration;
import java.util.ArrayList;
import java.util.Collections;
import java.util.List;
import java.util.concurrent.Callable;
import java.util.concurrent.ExecutorService;
import java.util.concurrent.Executors;
import java.util.concurrent.Future;
import java.util.function.UnaryOperator;
import javax.net.ssl.KeyManagerFactory;
import javax.net.ssl.SSLContext;
import javax.net.ssl.TrustManagerFactory;
import mondlexi.Client;
import mondlexi.Entry;
import mondlexi.MondlexiException;
import mondlexi.Options;

/**
 * What clients/cases doesn't have: the texts of late replies; and threads that share a client, interrupts, and TLS.
 *
 * <p>usage: java -cp OUT ClientTest [KEYS]. KEYS is a file of keytool with a key for 127.0.0.1, by the password "changeit". Used by:
 * scripts/check-clients. Status 0 if all is well.
 */
final class ClientTest {
    private static final char[] PASSWORD = "changeit".toCharArray();

    private ClientTest() {
    }

    /** A server that answers each line by the function; no answer if that gives nothing. */
    private record Server(ServerSocket listener, List<String> sent) implements AutoCloseable {
        static Server begin(ServerSocket listener, UnaryOperator<String> answer) {
            Server server = new Server(listener, Collections.synchronizedList(new ArrayList<>()));
            daemon(() -> server.acceptAll(answer));
            return server;
        }

        static Server begin(UnaryOperator<String> answer) throws IOException {
            return begin(new ServerSocket(0, 50, InetAddress.getLoopbackAddress()), answer);
        }

        private static void daemon(Runnable work) {
            Thread thread = new Thread(work);
            thread.setDaemon(true);
            thread.start();
        }

        private void acceptAll(UnaryOperator<String> answer) {
            try {
                for (;;) {
                    Socket socket = listener.accept();
                    daemon(() -> serve(socket, answer));
                }
            } catch (IOException ended) {
                // The trial is over.
            }
        }

        private void serve(Socket socket, UnaryOperator<String> answer) {
            try (socket; BufferedReader lines = new BufferedReader(new InputStreamReader(socket.getInputStream()))) {
                OutputStream out = socket.getOutputStream();
                for (String line = lines.readLine(); line != null; line = lines.readLine()) {
                    sent.add(line);
                    out.write(answer.apply(line).getBytes(StandardCharsets.ISO_8859_1));
                }
            } catch (IOException ended) {
                // The client has closed its connection.
            }
        }

        String at() {
            return "127.0.0.1:" + listener.getLocalPort();
        }

        @Override
        public void close() throws IOException {
            listener.close();
        }
    }

    private static String usual(String line) {
        return switch (line) {
            case "TENANT t" -> "OK 9\n";
            case "GET 7" -> "VAL 5\n";
            case "QUIT" -> "BYE\n";
            default -> "";
        };
    }

    private static void check(boolean isSo, String what) {
        if (!isSo) {
            throw new IllegalStateException(what);
        }
    }

    private static <T extends Throwable> T thrown(Class<T> kind, Callable<?> call) {
        try {
            call.call();
        } catch (Exception failure) {
            check(kind.isInstance(failure), failure + " in place of " + kind);
            return kind.cast(failure);
        }
        throw new IllegalStateException("nothing in place of " + kind);
    }

    private static void threadsShareAClient() throws Exception {
        ExecutorService threads = Executors.newFixedThreadPool(8);
        try (Server server = Server.begin(ClientTest::usual); Client client = Client.connect(server.at(), "t")) {
            List<Future<Long>> all = threads.invokeAll(Collections.nCopies(200, () -> client.get(7)));
            for (Future<Long> it : all) {
                check(it.get() == 5, "a get");
            }
        } finally {
            threads.shutdown();
        }
    }

    private static void anInterruptEndsAPause() throws Exception {
        UnaryOperator<String> busy = line -> line.startsWith("CAS") ? "BUSY\n" : usual(line);
        Options options = Options.DEFAULTS.withPatience(Duration.ofMinutes(10));
        try (Server server = Server.begin(busy); Client client = Client.connect(server.at(), "t", options)) {
            Thread.currentThread().interrupt();
            thrown(MondlexiException.Busy.class, () -> client.cas(new Entry(0, 0, 1)));
            check(Thread.interrupted(), "the interrupt stays");
            check(client.get(7) == 5, "a get after it");
        }
    }

    private static void aClientIsClosedAtTheEndOfItsBlock() throws Exception {
        try (Server server = Server.begin(ClientTest::usual)) {
            Client client = Client.connect(server.at(), "t");
            try (client) {
                thrown(IllegalArgumentException.class, () -> client.get(-1));
                thrown(IllegalArgumentException.class, () -> client.cas(new Entry(0, -1, 1)));
                thrown(IllegalArgumentException.class, () -> client.cas(new Entry(0, 1, -1)));
            }
            thrown(MondlexiException.Lost.class, () -> client.get(7));
            check(server.sent().equals(List.of("TENANT t", "QUIT")), server.sent().toString());
        }
    }

    private static void aReplyIsLate() throws Exception {
        Options options = Options.DEFAULTS.withTimeout(Duration.ofMillis(300));
        String text = ": connected, but no reply in 300 ms";
        try (Server server = Server.begin(ClientTest::usual); Client client = Client.connect(server.at(), "t", options)) {
            String told = thrown(MondlexiException.Lost.class, () -> client.get(3)).getMessage();
            check(told.equals("GET 3" + text), told);
        }
        try (Server silent = Server.begin(line -> "")) {
            String told = thrown(MondlexiException.Lost.class, () -> Client.connect(silent.at(), "t", options)).getMessage();
            check(told.equals("TENANT t" + text + "; perhaps all sessions are taken (mwserve --clients)"), told);
        }
    }

    private static void tls(Path keys) throws Exception {
        KeyStore store = KeyStore.getInstance(keys.toFile(), PASSWORD);
        KeyManagerFactory own = KeyManagerFactory.getInstance(KeyManagerFactory.getDefaultAlgorithm());
        own.init(store, PASSWORD);
        TrustManagerFactory trusted = TrustManagerFactory.getInstance(TrustManagerFactory.getDefaultAlgorithm());
        trusted.init(store);
        SSLContext context = SSLContext.getInstance("TLS");
        context.init(own.getKeyManagers(), trusted.getTrustManagers(), null);
        ServerSocket listener = context.getServerSocketFactory().createServerSocket();
        listener.bind(new InetSocketAddress("127.0.0.1", 0));
        Options options = Options.DEFAULTS.withTls(context.getSocketFactory());
        try (Server server = Server.begin(listener, ClientTest::usual)) {
            try (Client client = Client.connect(server.at(), "t", options)) {
                check(client.get(7) == 5, "a get");
            }
            Options untrusting = Options.DEFAULTS.withTls(SSLContext.getDefault().getSocketFactory());
            MondlexiException.Lost lost = thrown(MondlexiException.Lost.class, () -> Client.connect(server.at(), "t", untrusting));
            check(!(lost instanceof MondlexiException.Full), "a certificate that nobody trusts");
            thrown(MondlexiException.Lost.class, () -> Client.connect(server.at(), "t", options.withTlsName("other.example")));
            thrown(IllegalArgumentException.class, () -> Client.connect("unix:s", "t", options));
        }
    }

    public static void main(String[] arguments) throws Exception {
        threadsShareAClient();
        anInterruptEndsAPause();
        aClientIsClosedAtTheEndOfItsBlock();
        aReplyIsLate();
        if (arguments.length > 0 && Files.exists(Path.of(arguments[0]))) {
            tls(Path.of(arguments[0]));
        }
    }
}
