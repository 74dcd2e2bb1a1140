/* A session: it connects, asks, asks again, and tells how a lost connection counts. Used by: client.c, counted.c. When it asks again is the
   same in each client: change them together, with a case in clients/cases. scripts/client_parts/wrong.py replaces texts of this file. */
#define _POSIX_C_SOURCE 200809L
#include "parts.h"
#include <stdio.h>
#include <stdlib.h>
#include <string.h>

/* Drops the connection, which broke. The status. */
static mondlexi_status break_off(mondlexi_client *client, mondlexi_status status) {
    mdx_drop(client);
    client->state = IS_BROKEN;
    return status;
}

int64_t mdx_after(int milliseconds) {
    return mdx_now() + (int64_t)milliseconds * 1000;
}

/* The next line of the server, without its line feed: 1; 0 if none comes, or what comes is no line. */
static int next_line(mondlexi_client *client, int64_t end, char line[MAX_REPLY + 1]) {
    for (;;) {
        size_t size = client->end - client->begin;
        const char *from = client->in + client->begin, *stop = memchr(from, '\n', size);
        if (stop && stop - from <= MAX_REPLY && !memchr(from, 0, (size_t)(stop - from))) {
            memcpy(line, from, (size_t)(stop - from));
            line[stop - from] = 0;
            client->begin += (size_t)(stop - from) + 1;
            return 1;
        }
        if (stop || size > MAX_REPLY) {
            mdx_say(client, "not a reply of the protocol: %.*s", MAX_REPLY, from);
            return 0;
        }
        memmove(client->in, from, size);
        client->begin = 0;
        client->end = size;
        if (!mdx_receive(client, end)) {
            return 0;
        }
    }
}

/* Sends lines, so many from `first` on. */
static int send_lines(mondlexi_client *client, const mdx_question *question, size_t first, size_t count) {
    char text[LINES_AT_ONCE * 10 + MAX_LINE];
    size_t size = 0;
    for (size_t k = 0; k < count; k++) {
        size += question->write(question, first + k, text + size);
    }
    return mdx_send(client, text, size, mdx_after(client->options.timeout));
}

/* Reads one reply, of one line or more. OK, NO, or a failure; the status `gone` if there is none. */
static mondlexi_status read_reply(mondlexi_client *client, mdx_question *question, size_t at) {
    int64_t end = mdx_after(client->options.timeout);
    char line[MAX_REPLY + 1];
    for (size_t part = 0;; part++) {
        if (!next_line(client, end, line)) {
            return question->gone;
        }
        mondlexi_status failure = mdx_failure(client, line);
        if (failure) {
            mdx_say(client, "the server answers %s", line);
            return failure;
        }
        mdx_meaning meaning = question->read(question, at, part, line);
        if (meaning == MEANS_NOTHING) {
            mdx_say(client, "not a reply of the protocol: %s", line);
            return question->gone;
        }
        if (meaning != MEANS_MORE) {
            return meaning == MEANS_NO ? MONDLEXI_NO : MONDLEXI_OK;
        }
    }
}

/* Reads so many replies: the first that isn't OK. After `gone` it reads none. */
static mondlexi_status read_replies(mondlexi_client *client, mdx_question *question, size_t first, size_t count) {
    mondlexi_status found = MONDLEXI_OK;
    for (size_t k = 0; k < count; k++) {
        mondlexi_status status = read_reply(client, question, first + k);
        if (status == question->gone) {
            return status;
        }
        found = found ? found : status;
    }
    return found;
}

/* Sends all lines, in pieces, and reads their replies. */
static mondlexi_status exchange(mondlexi_client *client, mdx_question *question) {
    mondlexi_status found = MONDLEXI_OK;
    for (size_t first = 0; first < question->lines; first += LINES_AT_ONCE) {
        size_t left = question->lines - first, count = left < LINES_AT_ONCE ? left : LINES_AT_ONCE;
        mondlexi_status status =
            send_lines(client, question, first, count) ? read_replies(client, question, first, count) : question->gone;
        if (status == question->gone) {
            return status;
        }
        found = found ? found : status;
    }
    if (client->begin < client->end) {
        mdx_say(client, "more than one reply to a line");
        return question->gone;
    }
    return found;
}

/* The answer over the connection that there is. Whatever ends the exchange before its last reply closes the connection, because a
   late reply would be taken for that of the next line. */
static mondlexi_status answered(mondlexi_client *client, mdx_question *question) {
    mondlexi_status status = exchange(client, question);
    if (status != question->gone) {
        return status;
    }
    int is_full = client->is_silent && !client->is_late, is_late = client->is_late;
    if (is_late) {
        const char *why = client->is_silent ? "; perhaps all sessions are taken (mwserve --clients)" : "";
        mdx_say(client, "connected, but no reply in %d ms%s", client->options.timeout, why);
    }
    break_off(client, status);
    client->is_late = is_late;
    return is_full ? MONDLEXI_FULL : status;
}

/* A new connection and its greeting, in place of what there was. */
static mondlexi_status begin_once(mondlexi_client *client) {
    mdx_question greeting = mdx_greeting(client);
    int is_full;
    client->state = IS_BROKEN;
    if (!mdx_connect(client, mdx_after(client->options.timeout), &is_full)) {
        return is_full ? MONDLEXI_FULL : MONDLEXI_LOST;
    }
    mondlexi_status status = answered(client, &greeting);
    if (status) {
        return break_off(client, status);
    }
    client->words = greeting.words;
    client->state = IS_OPEN;
    return MONDLEXI_OK;
}

/* Begins; if there is no connection it tries again, with growing pauses, up to the end. A repair leaves a session alone that is there. */
mondlexi_status mdx_begin(mondlexi_client *client, int64_t end, int is_repair) {
    int64_t pause = FIRST_PAUSE;
    for (;;) {
        if (is_repair && client->state != IS_BROKEN) {
            return MONDLEXI_OK;
        }
        mondlexi_status status = begin_once(client);
        if ((status != MONDLEXI_LOST && status != MONDLEXI_FULL) || !mdx_pause(client, &pause, end)) {
            return status;
        }
    }
}

/* The answer. If nothing can be changed and the connection has broken, it is asked again over a new one, as often as the options
   say. A reply that is late isn't waited for again. */
mondlexi_status mdx_ask(mondlexi_client *client, mdx_question *question) {
    int left = question->gone == MONDLEXI_LOST ? client->options.reconnects : 0;
    for (;; left--) {
        mondlexi_status status = MONDLEXI_LOST;
        client->is_late = 0;
        if (client->state == IS_OPEN) {
            status = answered(client, question);
        } else {
            mdx_say(client, "not sent, the client %s", client->state == IS_CLOSED ? "is closed" : "has lost its connection");
        }
        if (status != MONDLEXI_LOST || !left || client->state != IS_BROKEN || client->is_late) {
            return status;
        }
        status = mdx_begin(client, mdx_after(client->options.within), 1);
        if (status) {
            return status;
        }
    }
}

/* Asks again while the server is busy, up to the end. */
mondlexi_status mdx_ask_patiently(mondlexi_client *client, mdx_question *question, int64_t end) {
    int64_t pause = FIRST_PAUSE;
    for (;;) {
        mondlexi_status status = mdx_ask(client, question);
        if (status != MONDLEXI_BUSY || !mdx_pause(client, &pause, end)) {
            return status;
        }
    }
}

/* The calls that begin and end a session. */

static int is_time(int time, int least) {
    return time >= least && time <= MONDLEXI_MAX_TIME;
}

static int are_options(const mondlexi_options *options) {
    return is_time(options->timeout, 1) && is_time(options->patience, 0) && is_time(options->within, 0) && options->reconnects >= 0 &&
           options->reconnects <= MONDLEXI_MAX_RECONNECTS;
}

/* Why the last connecting of this thread made no client. */
static __thread const char *no_client = "";

const char *mdx_no_client(void) {
    return no_client;
}

static mondlexi_status made_none(mondlexi_status status, const char *why) {
    no_client = why;
    return status;
}

/* Connects for a tenant, or, without a name, for the administrator. */
static mondlexi_status connect_for(mondlexi_client **made, const char *server, const char *tenant, const mondlexi_options *options) {
    static const mondlexi_options defaults = MONDLEXI_DEFAULTS;
    *made = NULL;
    mondlexi_client *client = calloc(1, sizeof *client);
    if (!client) {
        return made_none(MONDLEXI_MEMORY, "no memory for a client");
    }
    client->fd = -1;
    client->options = options ? *options : defaults;
    int is_place = mdx_place(client, server);
    if (!is_place || !are_options(&client->options)) {
        free(client);
        return made_none(MONDLEXI_INVALID, is_place ? "a number of the options is out of its range" : "a server is HOST:PORT or unix:PATH");
    }
    memcpy(client->tenant, tenant, strlen(tenant) + 1);
    client->dice = ((uint64_t)mdx_now() << 16 ^ (uint64_t)(uintptr_t)client) | 1;
    *made = client;
    return mdx_begin(client, mdx_after(client->options.within), 0);
}

PUBLIC mondlexi_status mondlexi_connect(mondlexi_client **client, const char *server, const char *tenant, const mondlexi_options *options) {
    *client = NULL;
    if (!mdx_is_tenant(tenant)) {
        return made_none(MONDLEXI_INVALID, "a tenant's name is a letter a to z, then up to 15 of a to z, 0 to 9 and \"-\"");
    }
    return connect_for(client, server, tenant, options);
}

PUBLIC mondlexi_status mondlexi_connect_administrator(mondlexi_client **client, const char *server, const mondlexi_options *options) {
    return connect_for(client, server, "", options);
}

PUBLIC void mondlexi_close(mondlexi_client *client) {
    if (!client) {
        return;
    }
    if (client->state == IS_OPEN) {
        int64_t last = mdx_now() + GOODBYE, end = mdx_after(client->options.timeout);
        mdx_goodbye(client, end < last ? end : last);
    }
    mdx_drop(client);
    client->state = IS_CLOSED;
}

PUBLIC mondlexi_status mondlexi_reconnect(mondlexi_client *client, int within) {
    if (!is_time(within, 0)) {
        mdx_say(client, "a time is 0 to %d milliseconds", MONDLEXI_MAX_TIME);
        return MONDLEXI_INVALID;
    }
    int64_t end = mdx_after(within);
    mondlexi_close(client);
    return mdx_begin(client, end, 0);
}

PUBLIC void mondlexi_free(mondlexi_client *client) {
    mondlexi_close(client);
    free(client);
}
