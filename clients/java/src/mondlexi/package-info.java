// The first page of the documents that javadoc makes. Used by: programs.
/**
 * A client of Mondlexi, a server of durable words, with Java's own classes alone.
 *
 * <p>A tenant owns words at the addresses 0, 1, 2 and so on, at most 4,096 of them. Each word has a value from 0 to 2^48 - 1, and is 0
 * at first. A change compares up to sixteen words with the values that are expected of them, and, if all are equal, writes a new value
 * to each: durably, and wholly or not at all.
 *
 * <p>{@link mondlexi.Client} speaks for one tenant, {@link mondlexi.Administrator} asks how all tenants are, and
 * {@link mondlexi.Counted} makes changes of which it is found out whether they were made if a reply is lost. A client has one
 * connection, and holds one of the server's sessions until it is closed. Threads may share a client: one of them asks at a time.
 *
 * <p>{@link mondlexi.MondlexiException} says what failures there are, and what each says of a change. An argument out of its range is
 * an {@link IllegalArgumentException}: then nothing was sent. A thread that is interrupted ends its pauses as if their time were over;
 * a reply is waited for nevertheless.
 */
package mondlexi;
