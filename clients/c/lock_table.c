/* A table of locks with leases, in the words that docs/RECIPES.md gives them: lock k has the words 2k, its token, and 2k + 1, its
   holder. Takes a lock of the tenant t, holds it, and releases it.

       lock_table SERVER OWNER LOCK

   OWNER: 1 to 65535; no two processes that run have the same. LOCK: 0 to 2047. It waits for the lock for a minute, takes it for ten
   seconds, prints its token, and releases it once its input has ended. If it isn't held any more then, it prints `lost`. Used by:
   whoever wants to copy it; scripts/check-clients (client_parts/examples.py). The recipe of Python (recipes/locks.py) has the same
   words. Status 0 if it had the lock and released it; 2 for a wrong command line; else 1. */
#define _POSIX_C_SOURCE 200809L
#include <inttypes.h>
#include <mondlexi.h>
#include <stdio.h>
#include <stdlib.h>
#include <string.h>
#include <time.h>

/* In milliseconds. A reply is waited for much shorter than the lease is. The lease is longer than a restart of the server takes. WAIT
   is for connecting, for the lock, and for each change. */
enum { LEASE = 10000, TIMEOUT = 2000, WAIT = 60000, UNIT = 10 };
enum { MOST_OWNER = 65535, MOST_LOCK = MONDLEXI_MAX_WORDS / 2 - 1 };

/* Its owner has it as long as the clock is below `until`. What the lock guards gets the token, and refuses one that is lower than the
   greatest it has seen. */
typedef struct {
    unsigned lock;
    uint64_t token, word;
    int64_t until;
} grant;

static int64_t now(void) {
    struct timespec time;
    clock_gettime(CLOCK_MONOTONIC, &time);
    return (int64_t)time.tv_sec * 1000 + time.tv_nsec / 1000000;
}

/* After such a failure: whether the call may be made again, up to the end; over a new connection, if it lost the one that there was. */
static int may_ask_again(mondlexi_client *client, mondlexi_status status, int64_t end) {
    int is_gone = status == MONDLEXI_LOST || status == MONDLEXI_FULL || status == MONDLEXI_UNKNOWN;
    int64_t left = end - now();
    return left > 0 && (status == MONDLEXI_BUSY || (is_gone && !mondlexi_reconnect(client, (int)left)));
}

/* Whether the words have the new values: OK, or NO; or why they can't be read. */
static mondlexi_status has_new_values(mondlexi_client *client, const mondlexi_entry *entries, size_t count) {
    for (size_t k = 0; k < count; k++) {
        uint64_t value;
        mondlexi_status status = mondlexi_get(client, entries[k].address, &value);
        if (status || value != entries[k].value) {
            return status ? status : MONDLEXI_NO;
        }
    }
    return MONDLEXI_OK;
}

/* Sends a change until it is answered, for a minute, and tells whether it was made: OK or NO; UNKNOWN if it may have been made or will
   still be. It is made once at most, because its words never have their old values again. Nobody else can have written all its new
   values. NO after a lost reply: it was not made, or another has changed its words since. */
static mondlexi_status resent(mondlexi_client *client, const mondlexi_entry *entries, size_t count) {
    int64_t end = now() + WAIT;
    int may_be_made = 0;
    for (;;) {
        mondlexi_status status = mondlexi_cas(client, entries, count, NULL);
        if (status == MONDLEXI_NO && may_be_made) {
            status = has_new_values(client, entries, count);
        }
        if (status == MONDLEXI_OK || status == MONDLEXI_NO) {
            return status;
        }
        may_be_made |= status == MONDLEXI_UNKNOWN;
        if (!may_ask_again(client, status, end)) {
            return may_be_made ? MONDLEXI_UNKNOWN : status;
        }
    }
}

/* Takes a lock that had these words since `since` at least. OK; NO if another was quicker. */
static mondlexi_status take(mondlexi_client *client, unsigned owner, const uint64_t state[2], int64_t since, grant *made) {
    made->token = state[0] + 1;
    made->word = (uint64_t)owner << 32 | LEASE / UNIT;
    made->until = since + LEASE;
    mondlexi_entry entries[] = {{2 * made->lock, state[0], made->token}, {2 * made->lock + 1, state[1], made->word}};
    return resent(client, entries, 2);
}

/* Gives a lock back. OK; NO: it is not held any more; perhaps this call released it, and another has taken it since. */
static mondlexi_status release(mondlexi_client *client, const grant *held) {
    mondlexi_entry entries[] = {{2 * held->lock, held->token, held->token}, {2 * held->lock + 1, held->word, 0}};
    return resent(client, entries, 2);
}

/* As `take`; but NO also if the lease was over before the reply came. Then the lock is given back. */
static mondlexi_status take_in_time(mondlexi_client *client, unsigned owner, const uint64_t state[2], int64_t since, grant *made) {
    mondlexi_status status = take(client, owner, state, since, made);
    if (status || now() < made->until) {
        return status;
    }
    status = release(client, made);
    return status ? status : MONDLEXI_NO;
}

/* Takes a lock once its holder is 0, or once this process has itself seen the same two words for 1.01 times the lease. OK: its lease
   isn't over yet; NO if it was held for a minute; else why the words can't be read or changed. */
static mondlexi_status acquire(mondlexi_client *client, unsigned owner, unsigned lock, grant *made) {
    const unsigned addresses[] = {2 * lock, 2 * lock + 1};
    uint64_t seen[2] = {UINT64_MAX, UINT64_MAX}, state[2];
    int64_t end = now() + WAIT, since = 0;
    mondlexi_status status;
    made->lock = lock;
    do {
        int64_t asked = now(), lease;
        status = mondlexi_stable(client, addresses, 2, state);
        if (status) {
            if (!may_ask_again(client, status, end)) {
                return status;
            }
            continue;
        }
        if (memcmp(seen, state, sizeof seen)) {
            memcpy(seen, state, sizeof seen);
            since = now();
        }
        lease = (int64_t)(state[1] & 0xffff) * UNIT;
        status = state[1] && asked - since < lease + lease / 100 + 1 ? MONDLEXI_NO : take_in_time(client, owner, state, asked, made);
        if (status != MONDLEXI_NO) {
            return status;
        }
        nanosleep(&(struct timespec){0, (8 + rand() % 56) * 1000000L}, NULL);
    } while (now() < end);
    return status;
}

/* A number of digits alone, up to `most`; -1 if it is none. */
static int number_of(const char *text, int most) {
    char *end;
    long number = strtol(text, &end, 10);
    return text[0] >= '0' && text[0] <= '9' && !*end && number <= most ? (int)number : -1;
}

int main(int count, char **words) {
    int owner = count == 4 ? number_of(words[2], MOST_OWNER) : -1, lock = count == 4 ? number_of(words[3], MOST_LOCK) : -1;
    if (owner < 1 || lock < 0) {
        fprintf(stderr, "usage: lock_table SERVER OWNER LOCK\n");
        return 2;
    }
    mondlexi_options options = MONDLEXI_DEFAULTS;
    options.timeout = TIMEOUT;
    options.within = WAIT;
    options.reconnects = 0; /* may_ask_again connects anew, with a limit of its own */
    mondlexi_client *client;
    grant held = {0};
    mondlexi_status status = mondlexi_connect(&client, words[1], "t", &options);
    int has_it = 0;
    srand((unsigned)owner);
    if (!status) {
        status = acquire(client, (unsigned)owner, (unsigned)lock, &held);
        has_it = !status;
    }
    if (has_it) {
        printf("%" PRIu64 "\n", held.token);
        fflush(stdout);
        while (getchar() != EOF) {
        }
        status = release(client, &held);
    }
    if (has_it && status == MONDLEXI_NO) {
        puts("lost");
    } else if (status) {
        fprintf(stderr, "lock_table: %s: %s\n", mondlexi_meaning(status), status == MONDLEXI_NO ? "the lock is held" : mondlexi_text(client));
    }
    mondlexi_free(client);
    return status ? 1 : 0;
}
