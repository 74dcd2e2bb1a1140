// Used by: Administrator, Client. When it asks again is the same in each client: change them together, with a case in clients/cases.
package mondlexi;

import java.io.IOException;
import java.net.SocketException;
import java.net.SocketTimeoutException;
import java.time.Duration;
import java.util.List;
import java.util.Optional;
import java.util.concurrent.locks.ReentrantLock;
import mondlexi.MondlexiException.Busy;
import mondlexi.MondlexiException.Full;
import mondlexi.MondlexiException.Lost;
import mondlexi.MondlexiException.Unknown;

/** A session, over one connection after the other. Whatever uses the connection has the turn. */
final class Session {
    private static final Duration GOODBYE = Duration.ofSeconds(1);

    private enum State { CLOSED, BROKEN, OPEN }

    /** What came of a question: a value, or a failure and whether a new connection may help. */
    private record Answer<T>(T value, MondlexiException failure, boolean canAskAgain) {
        static <T> Answer<T> failed(MondlexiException failure, boolean canAskAgain) {
            return new Answer<>(null, failure, canAskAgain);
        }
    }

    private final Place place;
    private final Question<Integer> greeting;
    private final Options options;
    private final ReentrantLock turn = new ReentrantLock(true);
    private State state = State.CLOSED;
    private Link link;
    private volatile int words;

    private Session(Place place, Question<Integer> greeting, Options options) {
        this.place = place;
        this.greeting = greeting;
        this.options = options;
    }

    /** Connects, and tries again for as long as the options say. */
    static Session begin(String server, Question<Integer> greeting, Options options) throws MondlexiException {
        Place place = Place.of(server);
        if (options.tls() != null && place.isLocal()) {
            throw new IllegalArgumentException("TLS is for TCP, not for a local socket");
        }
        Session session = new Session(place, greeting, options);
        session.beginUntil(Pause.after(options.within()), false);
        return session;
    }

    Options options() {
        return options;
    }

    /** What the last greeting told: how many words the tenant has, 0 of the administrator. */
    int words() {
        return words;
    }

    /** Ends a session that there is, and begins anew. */
    void reconnect(Duration within) throws MondlexiException {
        Options.checkTime("within", within);
        long end = Pause.after(within);
        close();
        beginUntil(end, false);
    }

    /** Ends the session, and waits for the server's goodbye, a second at most. */
    void close() {
        turn.lock();
        try {
            if (state == State.OPEN) {
                link.finish(Pause.after(options.timeout().compareTo(GOODBYE) < 0 ? options.timeout() : GOODBYE));
            }
            drop();
            state = State.CLOSED;
        } finally {
            turn.unlock();
        }
    }

    private void drop() {
        if (link != null) {
            link.close();
        }
        link = null;
        state = State.BROKEN;
    }

    /**
     * Begins; if there is no connection it tries again, with growing pauses, up to the end. A repair leaves a session alone that another
     * thread has repaired or closed.
     */
    private void beginUntil(long end, boolean isRepair) throws MondlexiException {
        Pause pause = new Pause(end);
        for (;;) {
            try {
                beginTurn(isRepair);
                return;
            } catch (Lost failure) {
                if (!pause.await()) {
                    throw failure;
                }
            }
        }
    }

    private void beginTurn(boolean isRepair) throws MondlexiException {
        turn.lock();
        try {
            if (!isRepair || state == State.BROKEN) {
                beginOnce();
            }
        } finally {
            turn.unlock();
        }
    }

    /** Makes a new connection and its greeting, in place of what there was. */
    private void beginOnce() throws MondlexiException {
        drop();
        try {
            link = Link.connect(place, options);
        } catch (IOException failure) {
            String text = "connecting: " + failure.getMessage();
            throw isReset(failure) && options.tls() == null ? new Full(text, failure) : new Lost(text, failure);
        }
        Answer<Integer> answer = answer(greeting);
        if (answer.failure() != null) {
            drop();
            throw answer.failure();
        }
        words = answer.value();
        state = State.OPEN;
    }

    private static boolean isReset(IOException failure) {
        return failure instanceof SocketException && String.valueOf(failure.getMessage()).contains("reset");
    }

    /**
     * Asks a question. If it can change nothing and the connection has broken, it is asked again over a new one, as often as the options
     * say. A reply that is late isn't waited for again.
     */
    <T> T ask(Question<T> question) throws MondlexiException {
        for (int left = question.isChange() ? 0 : options.reconnects();; left--) {
            Answer<T> answer = askTurn(question);
            if (answer.failure() == null) {
                return answer.value();
            }
            if (!(answer.failure() instanceof Lost) || left == 0 || !answer.canAskAgain()) {
                throw answer.failure();
            }
            beginUntil(Pause.after(options.within()), true);
        }
    }

    /** Asks again while the server is busy, up to the end. */
    <T> T askPatiently(Question<T> question, long end) throws MondlexiException {
        Pause pause = new Pause(end);
        for (;;) {
            try {
                return ask(question);
            } catch (Busy failure) {
                if (!pause.await()) {
                    throw failure;
                }
            }
        }
    }

    /** Asks over the connection that there is. */
    private <T> Answer<T> askTurn(Question<T> question) {
        turn.lock();
        try {
            return switch (state) {
                case OPEN -> answer(question);
                case CLOSED -> Answer.failed(new Lost(question.lines().get(0) + ": not sent, the client is closed", null), false);
                case BROKEN -> Answer.failed(new Lost(question.lines().get(0) + ": not sent, there is no connection", null), true);
            };
        } finally {
            turn.unlock();
        }
    }

    /**
     * The answer. Whatever ends the exchange before its last reply closes the connection, because a late reply would be taken for that of
     * the next line.
     */
    private <T> Answer<T> answer(Question<T> question) {
        try {
            List<List<String>> replies = link.exchange(question, options.timeout());
            Optional<MondlexiException> failure = firstFailure(question.lines(), replies);
            if (failure.isPresent()) {
                return Answer.failed(failure.get(), false);
            }
            T value = question.meaning().apply(replies);
            if (value == null) {
                throw Link.strange(String.join("; ", replies.get(0)));
            }
            return new Answer<>(value, null, false);
        } catch (IOException failure) {
            return gone(question, failure);
        }
    }

    /** The first failure that a reply tells. */
    private static Optional<MondlexiException> firstFailure(List<String> lines, List<List<String>> replies) {
        for (int k = 0; k < replies.size(); k++) {
            List<String> reply = replies.get(k);
            Optional<MondlexiException> failure = Protocol.failureOf(lines.get(k), reply.get(reply.size() - 1));
            if (failure.isPresent()) {
                return failure;
            }
        }
        return Optional.empty();
    }

    /** What is told of a reply that did not come in time. */
    private String noReply() {
        String why = link.isSilent() ? "; perhaps all sessions are taken (mwserve --clients)" : "";
        return "connected, but no reply in " + options.timeout().toMillis() + " ms" + why;
    }

    /** Closes the connection, and tells what that means. */
    private <T> Answer<T> gone(Question<T> question, IOException failure) {
        boolean isLate = failure instanceof SocketTimeoutException;
        String text = question.lines().get(0) + ": " + (isLate ? noReply() : failure.getMessage());
        boolean isFull = link.isSilent() && !isLate;
        drop();
        if (isFull) {
            return Answer.failed(new Full(text, failure), true);
        }
        return Answer.failed(question.isChange() ? new Unknown(text, failure) : new Lost(text, failure), !isLate);
    }
}
