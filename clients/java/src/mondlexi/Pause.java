// Used by: ChannelLink, Client, Counted, Link, Session, SocketLink. The pauses are the same in each client: change them together.
package mondlexi;

import java.net.SocketTimeoutException;
import java.time.Duration;
import java.util.concurrent.ThreadLocalRandom;

/** Pauses that grow, and are partly random, up to an end. Moments are those of System.nanoTime. */
final class Pause {
    private static final long FIRST = 1_000_000;
    private static final long LONGEST = 250_000_000;
    private static final long MILLISECOND = 1_000_000;

    private final long end;
    private long next = FIRST;

    Pause(long end) {
        this.end = end;
    }

    /** The moment so long after now. */
    static long after(Duration time) {
        return System.nanoTime() + time.toNanos();
    }

    static boolean isOver(long end) {
        return end - System.nanoTime() <= 0;
    }

    /** What is left up to a moment, in milliseconds, 1 or more; an exception if nothing is. */
    static int left(long end) throws SocketTimeoutException {
        long left = end - System.nanoTime();
        if (left <= 0) {
            throw new SocketTimeoutException("timed out");
        }
        return (int) ((left + MILLISECOND - 1) / MILLISECOND);
    }

    /** Lets some time pass. false, at once, if the end has come or the thread is interrupted. */
    boolean await() {
        long left = end - System.nanoTime();
        if (left <= 0) {
            return false;
        }
        long length = Math.min(left, ThreadLocalRandom.current().nextLong(next / 2, next + 1));
        next = Math.min(LONGEST, 2 * next);
        try {
            Thread.sleep(length / MILLISECOND, (int) (length % MILLISECOND));
        } catch (InterruptedException interrupted) {
            Thread.currentThread().interrupt();
            return false;
        }
        return true;
    }
}
