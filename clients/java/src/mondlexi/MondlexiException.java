// What goes wrong. Used by: programs, Administrator, Client, Counted, Protocol, Session. The names of its kinds in small letters are those of
// clients/cases/README.md: play/Play.java tells a failure by the simple name of its class. So a further kind, or another name, is one of that
// page and of each client.
package mondlexi;

import java.io.IOException;

/**
 * Any failure of a call. Undecided: a change was made, or it was not, or it will still be made.
 *
 * <table>
 * <caption>What each says of a change</caption>
 * <tr><th>failure</th><th>after Client.cas</th><th>after Counted.cas</th><th>the connection</th></tr>
 * <tr><td>Lost, Full</td><td>not made</td><td>not made</td><td>is closed</td></tr>
 * <tr><td>Unknown</td><td>undecided</td><td>undecided</td><td>is closed</td></tr>
 * <tr><td>Busy, Refused</td><td>not made</td><td>not made</td><td>stays</td></tr>
 * <tr><td>Fault, Worn</td><td>undecided</td><td>not made</td><td>stays</td></tr>
 * </table>
 */
public abstract sealed class MondlexiException extends IOException {
    private static final long serialVersionUID = 1;

    private MondlexiException(String text, Throwable cause) {
        super(text, cause);
    }

    /** There is no connection, or it broke or timed out before a reply. Nothing was changed. */
    public static sealed class Lost extends MondlexiException {
        private static final long serialVersionUID = 1;

        Lost(String text, Throwable cause) {
            super(text, cause);
        }
    }

    /** The server closed a new connection before it gave any reply, as one does that is full. Connect again later. */
    public static final class Full extends Lost {
        private static final long serialVersionUID = 1;

        Full(String text, Throwable cause) {
            super(text, cause);
        }
    }

    /**
     * The connection broke or timed out before a change was answered. Of a {@link Counted} its cause is the MondlexiException that
     * leaves the change undecided.
     */
    public static final class Unknown extends MondlexiException {
        private static final long serialVersionUID = 1;

        Unknown(String text, Throwable cause) {
            super(text, cause);
        }
    }

    /** The server was busy, or the words changed, for as long as the client has patience. Nothing was changed. */
    public static final class Busy extends MondlexiException {
        private static final long serialVersionUID = 1;

        Busy(String text) {
            super(text, null);
        }
    }

    /** The tenant's file has failed or did not open: all calls end so until the server is started again. */
    public static final class Fault extends MondlexiException {
        private static final long serialVersionUID = 1;

        Fault(String text) {
            super(text, null);
        }
    }

    /** A number of the server has come to its end. After a restart the server counts from 0 again. */
    public static final class Worn extends MondlexiException {
        private static final long serialVersionUID = 1;

        Worn(String text) {
            super(text, null);
        }
    }

    /** The server refuses the line, and has done nothing. */
    public static final class Refused extends MondlexiException {
        private static final long serialVersionUID = 1;

        private final int number;

        Refused(String text, int number) {
            super(text, null);
            this.number = number;
        }

        /**
         * The number of its ERR.
         *
         * @return 1 to 99: docs/PROTOCOL.md says what each stands for. 5: no tenant has the name
         */
        public int number() {
            return number;
        }
    }
}
