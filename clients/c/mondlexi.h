/* libmondlexi: a client of Mondlexi, a server of durable words, in C99 and POSIX. It needs nothing but the C library.

   A tenant owns words at the addresses 0, 1, 2 and so on, at most 4,096 of them. Each has a value from 0 to 2^48 - 1, and is 0 at
   first. A change compares up to sixteen words with the values that are expected of them, and, if all are equal, writes a new value
   to each: durably, and wholly or not at all.

   Every call blocks, with a limit of time. A client is for one thread at a time, and for one process: one that was forked makes its
   own. It holds one of the server's sessions until it is closed. No call raises a signal or prints.

   What a failure says of a change ("undecided": it was made, or it was not, or it will still be made):

       status               why                                                     after cas    after counted_cas   the connection
       MONDLEXI_LOST        no connection, or another call than cas lost it         not made     not made            is closed
       MONDLEXI_FULL        as LOST: closed by the server before any reply          not made     not made            is closed
       MONDLEXI_UNKNOWN     cas broke off, or got no reply in time                  undecided    undecided           is closed
       MONDLEXI_BUSY        the server was busy for as long as the patience lasts   not made     not made            stays
       MONDLEXI_FAULT       the tenant's file failed; down until a restart          undecided    not made            stays
       MONDLEXI_WORN        a number of the server is used up; restart it           undecided    not made            stays
       MONDLEXI_REFUSED     the server refuses the line, by a number                not made     not made            stays
       MONDLEXI_INVALID     an argument out of its range; nothing was sent          not made     not made            stays
       MONDLEXI_MEMORY      there was no memory for a new client; nothing was sent
       MONDLEXI_MOVED       something else has moved a count                                     not known           stays

   get, get_many, read, stable and report connect anew if the connection has broken, and ask again, as often as `reconnects` says. A
   reply that doesn't come in time isn't asked for again; the next such call connects anew. cas never does: after LOST or UNKNOWN call
   mondlexi_reconnect, or a get or any other read that connects anew; then cas goes on.

   Whoever changes a call, a status or a limit here also changes mondlexi.3, play.c, and the clients in the other languages. */
#ifndef MONDLEXI_H
#define MONDLEXI_H
#include <stddef.h>
#include <stdint.h>

#ifdef __cplusplus
extern "C" {
#endif

#define MONDLEXI_VERSION "0.2.0+unreleased"
#define MONDLEXI_MAX_VALUE ((UINT64_C(1) << 48) - 1) /* the greatest value of a word */
#define MONDLEXI_MAX_WORDS 4096                      /* the most words of a tenant; the greatest address is one less */
#define MONDLEXI_MAX_ENTRIES 16                      /* the most words of one change, or of one read */
#define MONDLEXI_MAX_TENANTS 16                      /* the most tenants of a report */
#define MONDLEXI_MAX_TIME 1000000000                 /* the longest time of an option, in milliseconds */
#define MONDLEXI_MAX_RECONNECTS 1000

typedef enum {
    MONDLEXI_OK,
    MONDLEXI_NO, /* not made: a word had another value than the one expected. After a lost reply mondlexi_counted_cas says more */
    MONDLEXI_LOST,
    MONDLEXI_FULL,
    MONDLEXI_UNKNOWN,
    MONDLEXI_BUSY,
    MONDLEXI_FAULT,
    MONDLEXI_WORN,
    MONDLEXI_REFUSED,
    MONDLEXI_INVALID,
    MONDLEXI_MEMORY,
    MONDLEXI_MOVED
} mondlexi_status;

/* What a client speaks over in place of its bare connection: streams of TLS, for example, as over_openssl.c makes them. The caller
   makes these functions. The library connects a socket, calls `begin` and then `greet` for each connection, and calls `end` before it
   closes the socket. None of them may wait for the other side: they answer what the library is to wait for, within its own limits
   of time, and are then called again with the same arguments. They run in the thread that calls the library. `send` must not raise
   SIGPIPE: have it ignored, or send with MSG_NOSIGNAL. */
enum { MONDLEXI_ENDED = -1, MONDLEXI_WAIT_TO_READ = -2, MONDLEXI_WAIT_TO_WRITE = -3 };
typedef struct {
    void *(*begin)(void *context, int socket); /* a new stream over a socket that doesn't block; NULL if there is none */
    int (*greet)(void *stream);                /* 0 or more once the stream is ready; else one of the three above, as below */
    int (*send)(void *stream, const char *bytes, int count); /* how many bytes were taken, 1 or more */
    int (*receive)(void *stream, char *bytes, int room);     /* how many bytes have come, 1 or more */
    void (*end)(void *stream);
    void *context; /* for `begin` */
} mondlexi_streams;

/* Times in milliseconds, up to MONDLEXI_MAX_TIME. */
typedef struct {
    int timeout;    /* how long to wait for a connection, and then for each reply; 1 or more */
    int patience;   /* for how long cas and read ask again, with growing pauses, while the server is busy; 0 for not at all */
    int within;     /* for how long to try again if connecting fails, also when a call connects anew; 0 for one try */
    int reconnects; /* how often one call connects anew and asks again if the connection has broken, 0 to MONDLEXI_MAX_RECONNECTS */
    const mondlexi_streams *streams; /* NULL for the bare connection; else it must live as long as the client */
} mondlexi_options;

#define MONDLEXI_DEFAULTS {10000, 5000, 0, 1, NULL}

/* A part of a change. */
typedef struct {
    unsigned address;  /* 0 to the tenant's words - 1 */
    uint64_t expected; /* 0 to MONDLEXI_MAX_VALUE */
    uint64_t value;    /* the new one, in the same range; it may be equal to the one expected, to compare only */
} mondlexi_entry;

/* Why a change wasn't made: the word at `address` had `value`, not the one expected. If several differ it is any. `is_known` is 0,
   and the others too, if a count tells only that the change wasn't made: perhaps no word differs. */
typedef struct {
    int is_known;
    unsigned address;
    uint64_t value;
} mondlexi_miss;

/* How one tenant is. */
typedef struct {
    char name[17];      /* a text of 1 to 16 bytes */
    unsigned words;     /* 1 to 4096 */
    unsigned quota;     /* how many changes it may have under way at a time, 1 to 64 */
    unsigned places;    /* the greatest quota that a start of the server may give it; 0 if its file didn't open or doesn't fit */
    unsigned under_way; /* how many changes are under way */
    int up;             /* if not, its calls answer MONDLEXI_FAULT */
} mondlexi_tenant;

/* How all tenants are, in the order of the server's tenants file. Each number is of its own moment. */
typedef struct {
    size_t count; /* 1 to 16 */
    mondlexi_tenant tenants[MONDLEXI_MAX_TENANTS];
    unsigned free; /* how many more changes the server has room for */
} mondlexi_tenants;

typedef struct mondlexi_client mondlexi_client;

/* Connects to `server`, and speaks for `tenant` from then on.

   `server`: where it listens: "HOST:PORT", a name or an address (of IPv6 in brackets) and a port from 1 to 65535; or "unix:PATH", the
   path of a local socket, 1 to 107 bytes. `tenant`: a letter a to z, then up to 15 of a to z, 0 to 9 and "-". Both are copied.
   `options`: NULL for MONDLEXI_DEFAULTS. A name is looked up by getaddrinfo, which has its own limit of time.

   Returns MONDLEXI_OK; INVALID or MEMORY: then *client is NULL, and mondlexi_text(NULL) says which argument it is; or LOST, FULL,
   REFUSED (number 5: no tenant has the name), BUSY, FAULT or WORN: then *client has no connection, mondlexi_text says why, and
   mondlexi_reconnect tries again. Free it in any case. */
mondlexi_status mondlexi_connect(mondlexi_client **client, const char *server, const char *tenant, const mondlexi_options *options);

/* The same for the administrator, whose one call is mondlexi_report. */
mondlexi_status mondlexi_connect_administrator(mondlexi_client **client, const char *server, const mondlexi_options *options);

/* Closes the connection that there is, and connects anew; tries again, with growing pauses, for `within` milliseconds, 0 to
   MONDLEXI_MAX_TIME. Returns MONDLEXI_OK; INVALID, with nothing done; LOST, FULL; REFUSED at once. */
mondlexi_status mondlexi_reconnect(mondlexi_client *client, int within);

/* Ends the session, and waits for the server's goodbye, a second at most. Each further call returns LOST, until mondlexi_reconnect.
   This and mondlexi_free leave NULL alone, and mondlexi_text takes it. No other call does. */
void mondlexi_close(mondlexi_client *client);

/* Closes it, and gives its memory back. */
void mondlexi_free(mondlexi_client *client);

/* How many words the tenant has, as the server said; 0 of the administrator, or before the first connection. It asks nobody. */
unsigned mondlexi_words(const mondlexi_client *client);

/* What a status means, and, of the last call of a client that failed, what happened: texts of one line, without a line feed. The
   second is the client's own, until its next call. Of NULL it tells why the last connecting of this thread made no client. */
const char *mondlexi_meaning(mondlexi_status status);
const char *mondlexi_text(const mondlexi_client *client);

/* The number of the last MONDLEXI_REFUSED, 1 to 99: PROTOCOL.md says what each stands for, in docs of the sources or in
   /usr/share/doc/mondlexi/docs of the package mondlexi. */
int mondlexi_refusal(const mondlexi_client *client);

/* The value of the word at `address`: durable, and no older than what this connection was told before. It costs no disk access.
   Returns MONDLEXI_OK, INVALID, LOST, FAULT, and, if it connected anew, FULL or REFUSED. After a failure *value is as it was. */
mondlexi_status mondlexi_get(mondlexi_client *client, unsigned address, uint64_t *value);

/* The values of `count` words, any number, each of its own moment, by one round trip for up to 512. Returns what mondlexi_get does.
   After a failure `values` holds nothing of use. */
mondlexi_status mondlexi_get_many(mondlexi_client *client, const unsigned *addresses, size_t count, uint64_t *values);

/* The values of one to sixteen different words (one may come again, `count` is at most 4,096), all of one moment. One word is read
   by a get. Several are guessed, and confirmed by a change that writes to each the value that it has: it costs the disk as much as a
   change, and beside many writers it may end as BUSY. Returns what mondlexi_get does, and BUSY or WORN. It changes no word. */
mondlexi_status mondlexi_read(mondlexi_client *client, const unsigned *addresses, size_t count, uint64_t *values);

/* The values of any number of words, all of one moment, without the disk: reads them again and again until two readings are equal.
   This is right only if no word that is read ever returns to an earlier value; put a word that only grows beside those that may.
   Returns what mondlexi_get does, and BUSY if the words changed for as long as the patience lasts. */
mondlexi_status mondlexi_stable(mondlexi_client *client, const unsigned *addresses, size_t count, uint64_t *values);

/* Compares and swaps: writes each entry's new value if all words have the values expected, else nothing. One to sixteen entries in
   any order, each of another word. While the server is busy it asks again.

   Returns MONDLEXI_OK: made, durably; MONDLEXI_NO: not made, and *miss says why, if `miss` isn't NULL; or INVALID, LOST, BUSY, REFUSED:
   not made; UNKNOWN, FAULT, WORN: undecided. It never connects anew. */
mondlexi_status mondlexi_cas(mondlexi_client *client, const mondlexi_entry *entries, size_t count, mondlexi_miss *miss);

/* How all tenants are, for the administrator alone: INVALID of a tenant's client. Returns MONDLEXI_OK, LOST, FULL or REFUSED. */
mondlexi_status mondlexi_report(mondlexi_client *client, mondlexi_tenants *report);

/* Changes of which it is found out whether they were made, if replies are lost and servers end. Each also moves a count by 2: a word
   that nothing else writes. While a change is undecided, one of the count alone, by 1, is asked for until that is answered: either
   it is made, and the other never can be, or the count tells that the other was. One thread of one process at a time has a count.

   Its members are this library's own, but for `cause`: why the last change is undecided. It needs no end. */
typedef struct {
    mondlexi_status cause;
    mondlexi_client *client;
    unsigned address;
    int wait, has_begun, is_undecided, is_made;
    uint64_t count;
} mondlexi_counted;

/* Begins, at the count's address. `wait`: for how many milliseconds to connect the client anew and ask again, while that fails or
   the server is busy, 0 to MONDLEXI_MAX_TIME. It moves the count: from then on no change of an earlier one is made any more. Returns
   MONDLEXI_OK or what mondlexi_cas does; after a failure but INVALID the next call begins. The client must live as long as this.

   `wait` is no limit of a whole call, because what began before its end goes on. mondlexi_counted_cas lasts at most patience + timeout
   for its change, and, after a lost reply, wait + patience + 3 * timeout to find out. To settle the change before takes as long as to
   find out, at most. At a server that stands still the call lasts wait + 3 * timeout at most. The lookup of a name adds its own time. */
mondlexi_status mondlexi_counted_begin(mondlexi_counted *counted, mondlexi_client *client, unsigned address, int wait);

/* As mondlexi_cas, of up to fifteen entries; but after LOST or UNKNOWN it connects anew and finds out. After a lost reply NO says
   only that the change was not made: perhaps no word differs. If `!miss.is_known`, read again, or send it again.

   If the change before is undecided, this settles it first, and forgets its outcome. Call mondlexi_counted_settle to be told it.

   Returns MONDLEXI_OK: made; NO: not made, and it never will be; UNKNOWN: undecided, for the reason in `cause`, and
   mondlexi_counted_settle tells; MOVED: something else writes the count; any other failure: not made, and it never will be. */
mondlexi_status mondlexi_counted_cas(mondlexi_counted *counted, const mondlexi_entry *entries, size_t count, mondlexi_miss *miss);

/* Whether the last change was made: MONDLEXI_OK if it was, NO if it wasn't, and never will be, also before the first one. UNKNOWN as
   long as it can't tell: after `wait`, or at once if `cause` is FAULT, WORN or REFUSED. MOVED as above. */
mondlexi_status mondlexi_counted_settle(mondlexi_counted *counted);

#ifdef __cplusplus
}
#endif
#endif
