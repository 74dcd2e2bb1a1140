// Used by: programs. What it tells is the same in each client: change them together, with a case in clients/cases/counted.txt.
package mondlexi;

import java.time.Duration;
import java.util.ArrayList;
import java.util.Arrays;
import java.util.List;
import mondlexi.MondlexiException.Busy;
import mondlexi.MondlexiException.Fault;
import mondlexi.MondlexiException.Lost;
import mondlexi.MondlexiException.Unknown;
import mondlexi.MondlexiException.Worn;

/**
 * Makes changes of which it is found out whether they were made, if replies are lost and servers end.
 *
 * <p>Each also moves a count by 2: a word, of any value at first, that nothing else writes. While a change is undecided, one of the count
 * alone, by 1, is asked for until that is answered: either it is made, and the other never can be, or the count tells that the other was.
 * One process at a time has a count, and one Counted of it; several of these may share a client, each with a count of its own. If
 * something else writes the count, a call ends as an {@link IllegalStateException}: then it isn't known whether the change was made.
 */
public final class Counted {
    private final Client client;
    private final int address;
    private final Duration wait;
    private long count;
    /** A change is noted as undecided before it is sent. */
    private boolean isUndecided;
    /** Whether the last change was made, or, if it is undecided, may have been. */
    private boolean isMade;

    private Counted(Client client, int address, Duration wait) {
        this.client = client;
        this.address = address;
        this.wait = wait;
    }

    /**
     * Begins. It moves the count: from then on no change of an earlier Counted of it is made any more.
     *
     * @param client what makes the changes
     * @param address the count's
     * @param wait for how long to connect the client anew and ask again, while that fails or the server is busy
     * @return what makes counted changes
     * @throws MondlexiException as of {@link Client#cas}
     */
    public static Counted begin(Client client, int address, Duration wait) throws MondlexiException {
        Options.checkTime("wait", wait);
        Counted counted = new Counted(client, address, wait);
        Outcome moved = Outcome.NOT_MADE;
        while (!moved.made()) {
            moved = counted.move();
            counted.count = counted.valueAfter(moved);
        }
        return counted;
    }

    /**
     * As {@link Client#cas}, of up to fifteen entries; but after Lost or Unknown it connects the client anew and finds out. It first does
     * so for the change before, if that is undecided, and forgets its outcome: call settle first. What it tells as not made never will
     * be.
     *
     * @param entries one to fifteen
     * @return whether it was made; if a reply was lost, not why not: perhaps no word differs, so read again, or send it again
     * @throws MondlexiException Unknown, with its cause, if the change stays undecided: then settle tells. After any other it was not
     *     made, and never will be
     */
    public synchronized Outcome cas(Entry... entries) throws MondlexiException {
        isMade = false;
        makeReady();
        List<Entry> all = new ArrayList<>(Arrays.asList(entries));
        all.add(new Entry(address, count, count + 2));
        Protocol.checkedEntries(all, client.words());
        isUndecided = true;
        isMade = true;
        try {
            return decided(client.cas(all.toArray(Entry[]::new)));
        } catch (Lost | Unknown gone) {
            return settle() ? Outcome.MADE : Outcome.NOT_MADE;
        } catch (Fault | Worn failure) {
            throw undecided(failure);
        } catch (MondlexiException failure) {
            isUndecided = false;
            isMade = false;
            throw failure;
        }
    }

    /**
     * Whether the last change was made, whatever its cas told; if not, it never will be. It is false before the first one.
     *
     * @return whether it was made
     * @throws MondlexiException Unknown, with its cause, as long as it can't tell: after the wait, or at once from Fault, Worn, Refused
     */
    public synchronized boolean settle() throws MondlexiException {
        try {
            findOut();
        } catch (MondlexiException cause) {
            throw undecided(cause);
        }
        return isMade;
    }

    /** Notes what an answer says of the change. */
    private Outcome decided(Outcome outcome) {
        isUndecided = false;
        isMade = outcome.made();
        if (isMade) {
            count += 2;
        } else if (outcome.miss().stream().anyMatch(it -> it.address() == address)) {
            throw movedByAnother();
        }
        return outcome;
    }

    private IllegalStateException movedByAnother() {
        return new IllegalStateException("something else has moved the count at " + address);
    }

    /** What is told if this leaves the last change undecided. */
    private Unknown undecided(MondlexiException cause) {
        return new Unknown("the last change with the count at " + address + ": " + cause.getMessage(), cause);
    }

    /** Settles the change before. A new one that waits for this was not sent, so it isn't Unknown. */
    private void makeReady() throws MondlexiException {
        try {
            findOut();
        } catch (Unknown failure) {
            throw new Lost("not sent: " + failure.getMessage(), failure);
        }
    }

    /** Finds out whether the last change was made, if it is undecided. */
    private void findOut() throws MondlexiException {
        if (!isUndecided) {
            return;
        }
        long value = valueAfter(move());
        if (value <= count || value > count + 2) {
            throw movedByAnother();
        }
        isMade = isMade && value == count + 2;
        count = value;
        isUndecided = false;
    }

    /** The count's value after a change of it by 1. */
    private long valueAfter(Outcome moved) {
        return moved.miss().map(Miss::value).orElse(count + 1);
    }

    /** Moves the count by 1. While the server is busy or there is no connection it asks again, for the wait. */
    private Outcome move() throws MondlexiException {
        long end = Pause.after(wait);
        Pause pause = new Pause(end);
        for (;;) {
            try {
                return client.cas(new Entry(address, count, count + 1));
            } catch (Lost | Unknown gone) {
                awaitAfter(gone, pause);
                client.reconnect(Duration.ofNanos(Math.max(0, end - System.nanoTime())));
            } catch (Busy busy) {
                awaitAfter(busy, pause);
            }
        }
    }

    private static void awaitAfter(MondlexiException failure, Pause pause) throws MondlexiException {
        if (!pause.await()) {
            throw failure;
        }
    }
}
