// Used by: programs. A further call is one of each client, has a case in play/Play.java, and cases in clients/cases.
package mondlexi;

import java.time.Duration;

/** A session of the administrator, who asks how the tenants are and sees no words. */
public final class Administrator implements AutoCloseable {
    private final Session session;

    private Administrator(Session session) {
        this.session = session;
    }

    /**
     * As the other connect, with {@link Options#DEFAULTS}.
     *
     * @param server where it listens
     * @return the administrator
     * @throws MondlexiException Lost, Full or Refused
     */
    public static Administrator connect(String server) throws MondlexiException {
        return connect(server, Options.DEFAULTS);
    }

    /**
     * Connects to a server, perhaps at a place for the administrator alone. Otherwise as {@link Client#connect(String, String, Options)}.
     *
     * @param server where it listens
     * @param options how long to wait, and how often to ask
     * @return the administrator
     * @throws MondlexiException Lost, Full or Refused
     */
    public static Administrator connect(String server, Options options) throws MondlexiException {
        return new Administrator(Session.begin(server, Protocol.administratorGreeting(), options));
    }

    /**
     * How each tenant is, and the room of the server. It connects anew as get of a client does.
     *
     * @return the report
     * @throws MondlexiException Lost, Full or Refused
     */
    public Report report() throws MondlexiException {
        return session.ask(Protocol.report());
    }

    /**
     * As that of a client.
     *
     * @param within for how long to try again
     * @throws MondlexiException Lost or Full; Refused at once
     */
    public void reconnect(Duration within) throws MondlexiException {
        session.reconnect(within);
    }

    /** As that of a client. */
    @Override
    public void close() {
        session.close();
    }
}
