/* Counted changes: a word that only these move, and what it tells of a change whose reply was lost. A change is noted as undecided
   before it is sent. Used by: programs, by mondlexi.h. What it tells is the same in each client: change them together, with a case in
   clients/cases/counted.txt. */
#define _POSIX_C_SOURCE 200809L
#include "parts.h"
#include <string.h>

static mondlexi_status moved_by_another(mondlexi_counted *counted) {
    mdx_say(counted->client, "something else has moved the count at %u", counted->address);
    return MONDLEXI_MOVED;
}

/* Whether the client has to be connected anew before it can ask again. */
static int is_gone(mondlexi_status status) {
    return status == MONDLEXI_LOST || status == MONDLEXI_FULL || status == MONDLEXI_UNKNOWN;
}

/* Connects anew, for the time that is left. */
static mondlexi_status connect_anew(mondlexi_client *client, int64_t end) {
    int64_t left = end - mdx_now();
    return mondlexi_reconnect(client, left > 0 ? (int)((left + 999) / 1000) : 0);
}

/* Moves the count from this value, by 1: OK, or NO with the other value that it has. While the server is busy or there is no
   connection it asks again, for `wait`. */
static mondlexi_status move(mondlexi_counted *counted, uint64_t count, uint64_t *other) {
    int64_t pause = FIRST_PAUSE, end = mdx_after(counted->wait);
    for (;;) {
        mondlexi_entry entry = {counted->address, count, count + 1};
        mondlexi_miss miss = {0};
        mondlexi_status status = mondlexi_cas(counted->client, &entry, 1, &miss);
        if (status == MONDLEXI_NO) {
            *other = miss.value;
        }
        if ((status != MONDLEXI_BUSY && !is_gone(status)) || !mdx_pause(counted->client, &pause, end)) {
            return status;
        }
        status = is_gone(status) ? connect_anew(counted->client, end) : MONDLEXI_OK;
        if (status) {
            return status;
        }
    }
}

/* Moves the count, whatever it is, unless this has done so: no earlier change with it is made any more. */
static mondlexi_status begin(mondlexi_counted *counted) {
    uint64_t count = 0;
    while (!counted->has_begun) {
        mondlexi_status status = move(counted, count, &count);
        if (!status) {
            counted->count = count + 1;
            counted->has_begun = 1;
        } else if (status != MONDLEXI_NO) {
            return status;
        }
    }
    return MONDLEXI_OK;
}

/* Finds out whether the last change was made. */
static mondlexi_status find_out(mondlexi_counted *counted) {
    uint64_t value = counted->count + 1;
    if (!counted->is_undecided) {
        return MONDLEXI_OK;
    }
    mondlexi_status status = move(counted, counted->count, &value);
    if (status != MONDLEXI_OK && status != MONDLEXI_NO) {
        return status;
    }
    if (value <= counted->count || value > counted->count + 2) {
        return moved_by_another(counted);
    }
    counted->is_made = counted->is_made && value == counted->count + 2;
    counted->count = value;
    counted->is_undecided = 0;
    return MONDLEXI_OK;
}

/* What is told if this leaves the last change undecided. */
static mondlexi_status undecided(mondlexi_counted *counted, mondlexi_status cause) {
    if (cause == MONDLEXI_MOVED) {
        return cause;
    }
    counted->cause = cause;
    return MONDLEXI_UNKNOWN;
}

PUBLIC mondlexi_status mondlexi_counted_begin(mondlexi_counted *counted, mondlexi_client *client, unsigned address, int wait) {
    *counted = (mondlexi_counted){.client = client, .address = address, .wait = wait};
    if (wait < 0 || wait > MONDLEXI_MAX_TIME) {
        mdx_say(client, "a time is 0 to %d milliseconds", MONDLEXI_MAX_TIME);
        return MONDLEXI_INVALID;
    }
    return begin(counted);
}

PUBLIC mondlexi_status mondlexi_counted_settle(mondlexi_counted *counted) {
    mondlexi_status status = find_out(counted);
    if (status) {
        return undecided(counted, status);
    }
    return counted->is_made ? MONDLEXI_OK : MONDLEXI_NO;
}

/* Begins, and settles the change before. A new one that waits for this was not sent, so it isn't UNKNOWN. */
static mondlexi_status make_ready(mondlexi_counted *counted) {
    counted->is_made = 0;
    mondlexi_status status = begin(counted);
    status = status ? status : find_out(counted);
    return status == MONDLEXI_UNKNOWN ? MONDLEXI_LOST : status;
}

/* What an answer says of the change that is under way. */
static mondlexi_status decide(mondlexi_counted *counted, mondlexi_status status, const mondlexi_miss *miss) {
    if (is_gone(status)) {
        return mondlexi_counted_settle(counted);
    }
    if (status == MONDLEXI_FAULT || status == MONDLEXI_WORN) {
        return undecided(counted, status);
    }
    counted->is_undecided = 0;
    counted->is_made = status == MONDLEXI_OK;
    counted->count += counted->is_made ? 2 : 0;
    return status == MONDLEXI_NO && miss->address == counted->address ? moved_by_another(counted) : status;
}

PUBLIC mondlexi_status mondlexi_counted_cas(mondlexi_counted *counted, const mondlexi_entry *entries, size_t count, mondlexi_miss *miss) {
    mondlexi_entry all[MONDLEXI_MAX_ENTRIES], sorted[MONDLEXI_MAX_ENTRIES];
    mondlexi_miss found = {0};
    mondlexi_status status = make_ready(counted);
    if (status) {
        return status;
    }
    if (count < MONDLEXI_MAX_ENTRIES) {
        memcpy(all, entries, count * sizeof *all);
        all[count] = (mondlexi_entry){counted->address, counted->count, counted->count + 2};
    }
    if (count >= MONDLEXI_MAX_ENTRIES || !mdx_are_entries(counted->client, sorted, all, count + 1)) {
        mdx_say(counted->client, "a counted change has up to %d entries, each of another word of the tenant's", MONDLEXI_MAX_ENTRIES - 1);
        return MONDLEXI_INVALID;
    }
    counted->is_undecided = counted->is_made = 1;
    status = decide(counted, mondlexi_cas(counted->client, all, count + 1, &found), &found);
    if (miss) {
        *miss = found;
    }
    return status;
}
