/* A server that makes system calls as mwserve does, and does next to nothing besides: no session, no shared words that others may
   finish, no look at what a file holds, no record that could be read again. Beside it scripts/bench-server shows what of a server's
   figures is the system's: its sockets, its files, and when it gives a thread a processor.

       bare_server --tenants FILE ..

   It reads the lines `NAME WORDS QUOTA PATH` of FILE, ignores what else stands there, listens at a port of 127.0.0.1, prints
   `ready PORT`, and serves each connection by a thread of its own until it is killed. It knows the lines TENANT, GET, CAS of
   one entry, and QUIT. It doesn't keep changes of one word apart, so let each client have a word of its own. A GET and a NO may tell
   a value before it is durable.

   It makes for each request the system calls of mwserve. A change alone is ten, as there: a read of the line; the record and a sync; the
   commit byte and a sync; the word and a sync; the commit byte and a sync; a write of the reply. Changes of a tenant share syncs: the
   thread that holds the file makes the calls of all that wait, from a prepare up to a settle, and only after that another thread may
   have to wake.

   Used by: scripts/bench-server --bare, one_tenant.py. If mwserve makes other calls for a change, so does this. */
#define _GNU_SOURCE
#include <arpa/inet.h>
#include <fcntl.h>
#include <linux/futex.h>
#include <netinet/tcp.h>
#include <pthread.h>
#include <signal.h>
#include <stdatomic.h>
#include <stdint.h>
#include <stdio.h>
#include <stdlib.h>
#include <string.h>
#include <sys/socket.h>
#include <sys/syscall.h>
#include <unistd.h>

enum { MOST_TENANTS = 16, MOST_WORDS = 4096, PLACES = 64, HEAD = 32, WORD = 8, PLACE = 264, LONGEST = 640 };

/* A change that waits for its tenant's file: until it was made, or until its own thread must hold the file. */
struct change {
    struct change *next;
    off_t place;
    unsigned address;
    uint64_t value;
    int has_record;
    _Atomic enum { WAITS, HOLDS, MADE } state;
};

struct tenant {
    char name[32];
    unsigned words;
    int file;
    _Atomic uint64_t values[MOST_WORDS];
    atomic_uint places_taken;
    pthread_mutex_t lock;
    struct change *waiting;
    int is_held;
};

static struct tenant tenants[MOST_TENANTS];
static int tenant_count;

static void must(int holds, const char *what) {
    if (!holds) {
        perror(what);
        exit(1);
    }
}

static void write_at(int file, off_t at, const void *bytes, size_t count) {
    must(pwrite(file, bytes, count, at) == (ssize_t)count, "write");
}

static void sync_file(int file) { must(fdatasync(file) == 0, "sync"); }

/* The files have mwserve's size, at which no write makes one longer. */
static void read_tenants(const char *path) {
    static const char zeros[HEAD + WORD * MOST_WORDS + PLACE * PLACES];
    char file_name[256];
    unsigned quota;
    FILE *text = fopen(path, "r");
    must(text != NULL, path);
    while (tenant_count < MOST_TENANTS) {
        struct tenant *it = &tenants[tenant_count];
        if (fscanf(text, "%31s %u %u %255s", it->name, &it->words, &quota, file_name) != 4)
            break;
        it->file = open(file_name, O_RDWR);
        must(it->file >= 0, file_name);
        write_at(it->file, 0, zeros, HEAD + WORD * (size_t)it->words + PLACE * PLACES);
        sync_file(it->file);
        pthread_mutex_init(&it->lock, NULL);
        tenant_count++;
    }
    fclose(text);
}

static void write_record(struct tenant *it, off_t place) {
    static const char record[PLACE - 1];
    write_at(it->file, place + 1, record, sizeof record);
}

static void set_commit_byte(struct tenant *it, off_t place, int byte) { write_at(it->file, place, &(char){(char)byte}, 1); }

static void write_word(struct tenant *it, unsigned address, uint64_t value) {
    write_at(it->file, HEAD + WORD * (off_t)address, &value, sizeof value);
}

static off_t taken_place(struct tenant *it) {
    return HEAD + WORD * (off_t)it->words + PLACE * (off_t)(atomic_fetch_add(&it->places_taken, 1) % PLACES);
}

enum { CLEARED = 0, SET = 0xa5 };

static void append(struct change **list, struct change *more) {
    while (*list)
        list = &(*list)->next;
    *list = more;
}

/* Moves those that have begun to wait to the end of a list. */
static void take_waiting(struct tenant *it, struct change **list) {
    pthread_mutex_lock(&it->lock);
    append(list, it->waiting);
    it->waiting = NULL;
    pthread_mutex_unlock(&it->lock);
}

/* Writes the records that are not in the file yet. */
static void write_records(struct tenant *it, struct change *list) {
    for (struct change *change = list; change; change = change->next)
        if (!change->has_record) {
            write_record(it, change->place);
            change->has_record = 1;
        }
}

/* Seals the first that waits, and moves it to the end of the sealed ones. Its record gets a sync before, if it had none. */
static void seal_first(struct tenant *it, struct change **waiting, struct change **sealed) {
    struct change *first = *waiting;
    if (!first->has_record) {
        write_records(it, first);
        sync_file(it->file);
        take_waiting(it, waiting);
    }
    write_records(it, first);
    set_commit_byte(it, first->place, SET);
    sync_file(it->file);
    *waiting = first->next;
    first->next = NULL;
    append(sealed, first);
}

/* Lets the thread of a change go on. After the store the change may be gone: only its address is used. */
static void wake(struct change *change, int state) {
    atomic_store(&change->state, state);
    syscall(SYS_futex, &change->state, FUTEX_WAKE_PRIVATE, 1, NULL, NULL, 0);
}

/* Settles all that are sealed, and writes the records of those that have begun to wait along. */
static void settle(struct tenant *it, struct change **waiting, struct change *sealed, struct change *own) {
    take_waiting(it, waiting);
    write_records(it, *waiting);
    for (struct change *change = sealed; change; change = change->next)
        write_word(it, change->address, change->value);
    sync_file(it->file);
    for (struct change *change = sealed; change; change = change->next)
        set_commit_byte(it, change->place, CLEARED);
    sync_file(it->file);
    for (struct change *next; sealed; sealed = next) {
        next = sealed->next;
        if (sealed == own)
            own->state = MADE;
        else
            wake(sealed, MADE);
    }
}

/* Gives the file to the first that waits. */
static void pass_on(struct tenant *it, struct change *waiting) {
    pthread_mutex_lock(&it->lock);
    append(&waiting, it->waiting);
    it->waiting = waiting;
    it->is_held = waiting != NULL;
    pthread_mutex_unlock(&it->lock);
    if (waiting)
        wake(waiting, HOLDS);
}

/* Makes the calls of all that wait until a change of the holder's own is made. A settle comes when no other change waits. */
static void hold(struct tenant *it, struct change *own) {
    struct change *waiting = NULL, *sealed = NULL;
    while (own->state != MADE) {
        take_waiting(it, &waiting);
        if (waiting) {
            seal_first(it, &waiting, &sealed);
        } else {
            settle(it, &waiting, sealed, own);
            sealed = NULL;
        }
    }
    pass_on(it, waiting);
}

static void keep(struct tenant *it, unsigned address, uint64_t value) {
    struct change own = {.address = address, .value = value};
    pthread_mutex_lock(&it->lock);
    own.place = taken_place(it);
    int holds = !it->is_held;
    it->is_held = 1;
    append(&it->waiting, &own);
    pthread_mutex_unlock(&it->lock);
    while (!holds && own.state == WAITS)
        syscall(SYS_futex, &own.state, FUTEX_WAIT_PRIVATE, WAITS, NULL, NULL, 0);
    if (holds || own.state == HOLDS)
        hold(it, &own);
}

static int answer(struct tenant **bound, const char *line, char *reply) {
    char name[32];
    unsigned address;
    uint64_t expected, new_value;
    if (sscanf(line, "TENANT %31s", name) == 1) {
        for (int k = 0; k < tenant_count; k++)
            if (strcmp(tenants[k].name, name) == 0)
                *bound = &tenants[k];
        return *bound ? sprintf(reply, "OK %u\n", (*bound)->words) : sprintf(reply, "ERR 5\n");
    }
    if (*bound && sscanf(line, "GET %u", &address) == 1 && address < (*bound)->words)
        return sprintf(reply, "VAL %lu\n", atomic_load(&(*bound)->values[address]));
    if (*bound && sscanf(line, "CAS %u:%lu:%lu", &address, &expected, &new_value) == 3 && address < (*bound)->words) {
        uint64_t found = expected;
        if (!atomic_compare_exchange_strong(&(*bound)->values[address], &found, new_value))
            return sprintf(reply, "NO %u %lu\n", address, found);
        keep(*bound, address, new_value);
        return sprintf(reply, "YES\n");
    }
    return sprintf(reply, "ERR 2\n");
}

static void *serve(void *given) {
    int peer = (int)(intptr_t)given, on = 1;
    char text[LONGEST + 1], reply[64];
    size_t held = 0;
    struct tenant *bound = NULL;
    setsockopt(peer, IPPROTO_TCP, TCP_NODELAY, &on, sizeof on);
    for (;;) {
        ssize_t got = read(peer, text + held, LONGEST - held);
        char *end;
        if (got <= 0)
            break;
        held += (size_t)got;
        while ((end = memchr(text, '\n', held)) != NULL) {
            *end = '\0';
            int quits = strcmp(text, "QUIT") == 0;
            int count = quits ? sprintf(reply, "BYE\n") : answer(&bound, text, reply);
            if (write(peer, reply, (size_t)count) != count || quits) {
                close(peer);
                return NULL;
            }
            held -= (size_t)(end + 1 - text);
            memmove(text, end + 1, held);
        }
    }
    close(peer);
    return NULL;
}

int main(int count, char **words) {
    struct sockaddr_in at = {.sin_family = AF_INET, .sin_addr.s_addr = htonl(INADDR_LOOPBACK)};
    socklen_t size = sizeof at;
    int listener = socket(AF_INET, SOCK_STREAM, 0);
    signal(SIGPIPE, SIG_IGN);
    for (int k = 1; k + 1 < count; k++)
        if (strcmp(words[k], "--tenants") == 0)
            read_tenants(words[k + 1]);
    must(bind(listener, (struct sockaddr *)&at, size) == 0 && listen(listener, 64) == 0, "listen");
    must(getsockname(listener, (struct sockaddr *)&at, &size) == 0, "port");
    printf("ready %d\n", ntohs(at.sin_port));
    fflush(stdout);
    for (;;) {
        pthread_t thread;
        int peer = accept(listener, NULL, NULL);
        must(peer >= 0, "accept");
        must(pthread_create(&thread, NULL, serve, (void *)(intptr_t)peer) == 0, "thread");
        pthread_detach(thread);
    }
}
