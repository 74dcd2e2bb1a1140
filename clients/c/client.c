/* The calls of a client: reads, changes and the report. Used by: programs, by mondlexi.h. A further call is declared and explained there and
   in mondlexi.3, has a case in play.c, and is one of each client, with its cases in clients/cases. */
#define _POSIX_C_SOURCE 200809L
#include "parts.h"
#include <string.h>

/* INVALID or LOST if a tenant can't be asked for these words. */
static mondlexi_status checked(mondlexi_client *client, const unsigned *addresses, size_t count) {
    if (!client->words && client->tenant[0]) {
        mdx_say(client, "the client has not been connected yet");
        return MONDLEXI_LOST;
    }
    for (size_t k = 0; k < count; k++) {
        if (addresses[k] >= client->words) {
            mdx_say(client, "no word at %u: there are %u words", addresses[k], client->words);
            return MONDLEXI_INVALID;
        }
    }
    return MONDLEXI_OK;
}

PUBLIC unsigned mondlexi_words(const mondlexi_client *client) {
    return client->words;
}

PUBLIC const char *mondlexi_text(const mondlexi_client *client) {
    return client ? client->text : mdx_no_client();
}

PUBLIC int mondlexi_refusal(const mondlexi_client *client) {
    return client->refusal;
}

PUBLIC const char *mondlexi_meaning(mondlexi_status status) {
    static const char *const meanings[] = {
        [MONDLEXI_OK] = "done",
        [MONDLEXI_NO] = "not made: a word had another value, or, of a counted change, a reply was lost",
        [MONDLEXI_LOST] = "there is no connection",
        [MONDLEXI_FULL] = "the server closed the connection before any reply",
        [MONDLEXI_UNKNOWN] = "undecided: the reply was lost",
        [MONDLEXI_BUSY] = "the server was busy, or the words kept changing",
        [MONDLEXI_FAULT] = "the tenant's file has failed",
        [MONDLEXI_WORN] = "a number of the server has come to its end",
        [MONDLEXI_REFUSED] = "the server refuses the line",
        [MONDLEXI_INVALID] = "an argument is out of its range",
        [MONDLEXI_MEMORY] = "out of memory",
        [MONDLEXI_MOVED] = "something else has moved the count",
    };
    return status <= MONDLEXI_MOVED ? meanings[status] : "no status";
}

PUBLIC mondlexi_status mondlexi_get(mondlexi_client *client, unsigned address, uint64_t *value) {
    uint64_t found = 0;
    mondlexi_status status = mondlexi_get_many(client, &address, 1, &found);
    if (!status) {
        *value = found;
    }
    return status;
}

PUBLIC mondlexi_status mondlexi_get_many(mondlexi_client *client, const unsigned *addresses, size_t count, uint64_t *values) {
    mdx_question gets = mdx_gets(addresses, count, values);
    mondlexi_status status = checked(client, addresses, count);
    return status || !count ? status : mdx_ask(client, &gets);
}

PUBLIC mondlexi_status mondlexi_stable(mondlexi_client *client, const unsigned *addresses, size_t count, uint64_t *values) {
    int64_t end = mdx_after(client->options.patience);
    mdx_question gets = mdx_gets(addresses, count, values);
    mondlexi_status status = checked(client, addresses, count);
    if (status || !count) {
        return status;
    }
    /* The server answers a line before it looks at the next one, so two readings may be sent together. */
    gets.lines = 2 * count;
    for (;;) {
        status = mdx_ask(client, &gets);
        if (status || !gets.differs) {
            return status;
        }
        if (mdx_now() >= end) {
            mdx_say(client, "the words changed for %d ms", client->options.patience);
            return MONDLEXI_BUSY;
        }
        gets.lines = count;
        gets.compares = 1;
    }
}

PUBLIC mondlexi_status mondlexi_cas(mondlexi_client *client, const mondlexi_entry *entries, size_t count, mondlexi_miss *miss) {
    mondlexi_entry sorted[MONDLEXI_MAX_ENTRIES];
    mondlexi_status status = checked(client, NULL, 0);
    if (status) {
        return status;
    }
    if (!mdx_are_entries(client, sorted, entries, count)) {
        mdx_say(client, "a change has one to %d entries, each of another word of the tenant's, and values up to 2^48 - 1", MONDLEXI_MAX_ENTRIES);
        return MONDLEXI_INVALID;
    }
    mdx_question change = mdx_change(sorted, count, MONDLEXI_UNKNOWN);
    status = mdx_ask_patiently(client, &change, mdx_after(client->options.patience));
    if (status == MONDLEXI_NO && miss) {
        *miss = change.miss;
    }
    return status;
}

PUBLIC mondlexi_status mondlexi_report(mondlexi_client *client, mondlexi_tenants *report) {
    if (client->tenant[0]) {
        mdx_say(client, "only the administrator is told a report");
        return MONDLEXI_INVALID;
    }
    mdx_question question = mdx_report_question(report);
    return mdx_ask(client, &question);
}

/* Reads of one moment. */

/* The different words of a read, by address, each with the value that it is guessed to have. */
typedef struct {
    size_t count;
    unsigned addresses[MONDLEXI_MAX_ENTRIES];
    uint64_t values[MONDLEXI_MAX_ENTRIES];
} guess;

/* Where the first address of the guess is that isn't below this one. */
static size_t place_of(const guess *known, unsigned address) {
    size_t at = 0;
    while (at < known->count && known->addresses[at] < address) {
        at++;
    }
    return at;
}

/* Adds an address, if it isn't there. 0 if there is no room. */
static int add(guess *known, unsigned address) {
    size_t at = place_of(known, address);
    if (at < known->count && known->addresses[at] == address) {
        return 1;
    }
    if (known->count == MONDLEXI_MAX_ENTRIES) {
        return 0;
    }
    memmove(known->addresses + at + 1, known->addresses + at, (known->count - at) * sizeof *known->addresses);
    known->addresses[at] = address;
    known->count++;
    return 1;
}

/* Adds all addresses. 0 if they are none, or more than one change can compare. */
static int add_all(guess *known, const unsigned *addresses, size_t count) {
    for (size_t k = 0; k < count; k++) {
        if (!add(known, addresses[k])) {
            return 0;
        }
    }
    return known->count > 0;
}

/* Asks for the change that writes to each word its guessed value. */
static mondlexi_status confirm(mondlexi_client *client, guess *known, int64_t end) {
    mondlexi_entry entries[MONDLEXI_MAX_ENTRIES];
    for (size_t k = 0; k < known->count; k++) {
        entries[k] = (mondlexi_entry){known->addresses[k], known->values[k], known->values[k]};
    }
    mdx_question change = mdx_change(entries, known->count, MONDLEXI_LOST);
    mondlexi_status status = mdx_ask_patiently(client, &change, end);
    if (status == MONDLEXI_NO) {
        known->values[place_of(known, change.miss.address)] = change.miss.value;
    }
    return status;
}

/* Confirms the guess, mended where it has gone stale, up to the end. */
static mondlexi_status settle(mondlexi_client *client, guess *known, int64_t end) {
    mondlexi_status status = known->count > 1 ? MONDLEXI_NO : MONDLEXI_OK;
    while (status == MONDLEXI_NO) {
        status = confirm(client, known, end);
        if (status == MONDLEXI_NO && mdx_now() >= end) {
            mdx_say(client, "the words changed for %d ms", client->options.patience);
            return MONDLEXI_BUSY;
        }
    }
    return status;
}

PUBLIC mondlexi_status mondlexi_read(mondlexi_client *client, const unsigned *addresses, size_t count, uint64_t *values) {
    guess known = {0};
    mondlexi_status status = checked(client, addresses, count);
    if (status) {
        return status;
    }
    if (!add_all(&known, addresses, count)) {
        mdx_say(client, "one to %d different words are read at a time", MONDLEXI_MAX_ENTRIES);
        return MONDLEXI_INVALID;
    }
    int64_t end = mdx_after(client->options.patience);
    status = mondlexi_get_many(client, known.addresses, known.count, known.values);
    status = status ? status : settle(client, &known, end);
    for (size_t k = 0; k < count && !status; k++) {
        values[k] = known.values[place_of(&known, addresses[k])];
    }
    return status;
}
