/* The client in C, as the program of clients/cases/README.md: reads calls, one a line, and tells what each tells.

       play

   Used by: scripts/check-clients. A further call or failure of that page is a case here, and in play of each language. Status 0; 1 for a line
   that is no call. */
#include "mondlexi.h"
#include <inttypes.h>
#include <stdio.h>
#include <stdlib.h>
#include <string.h>

enum { MOST_WORDS = 1024, LONGEST = 16384 };

/* The client and the count of the last calls that made one. */
static mondlexi_client *client;
static mondlexi_counted counted;

/* Tells a failure by its kind. */
static void tell_failure(mondlexi_status status, const char *before) {
    static const char *const kinds[] = {
        [MONDLEXI_LOST] = "lost", [MONDLEXI_FULL] = "full", [MONDLEXI_UNKNOWN] = "unknown", [MONDLEXI_BUSY] = "busy",
        [MONDLEXI_FAULT] = "fault", [MONDLEXI_WORN] = "worn", [MONDLEXI_INVALID] = "invalid", [MONDLEXI_MEMORY] = "memory",
        [MONDLEXI_MOVED] = "moved", [MONDLEXI_REFUSED] = "refused", [MONDLEXI_NO] = "not", [MONDLEXI_OK] = "ok",
    };
    printf("%s%s", before, kinds[status]);
    if (status == MONDLEXI_REFUSED) {
        printf(" %d", mondlexi_refusal(client));
    }
}

static void tell(mondlexi_status status, const char *done) {
    if (status) {
        tell_failure(status, "");
    } else {
        printf("%s", done);
    }
}

/* Options like timeout=300, from the words of a call. */
static mondlexi_options options_of(char **words, size_t count) {
    mondlexi_options options = MONDLEXI_DEFAULTS;
    for (size_t k = 0; k < count; k++) {
        char *value = strchr(words[k], '=') + 1;
        int *to = words[k][0] == 't'   ? &options.timeout
                  : words[k][0] == 'p' ? &options.patience
                  : words[k][0] == 'w' ? &options.within
                                       : &options.reconnects;
        *to = atoi(value);
    }
    return options;
}

static void tell_client(char **words, size_t count) {
    mondlexi_options options = options_of(words + 2, count - 2);
    char done[32];
    mondlexi_free(client);
    mondlexi_status status = mondlexi_connect(&client, words[0], words[1], &options);
    snprintf(done, sizeof done, "words %u", client ? mondlexi_words(client) : 0);
    tell(status, done);
}

static void tell_administrator(char **words, size_t count) {
    mondlexi_options options = options_of(words + 1, count - 1);
    mondlexi_free(client);
    tell(mondlexi_connect_administrator(&client, words[0], &options), "connected");
}

typedef mondlexi_status reading(mondlexi_client *, const unsigned *, size_t, uint64_t *);

static void tell_values(reading *call, char **words, size_t count) {
    unsigned addresses[MOST_WORDS] = {0};
    uint64_t values[MOST_WORDS];
    for (size_t k = 0; k < count; k++) {
        addresses[k] = (unsigned)strtoul(words[k], NULL, 10);
    }
    mondlexi_status status = call(client, addresses, count, values);
    tell(status, "values");
    for (size_t k = 0; k < count && !status; k++) {
        printf(" %" PRIu64, values[k]);
    }
}

static mondlexi_status get(mondlexi_client *from, const unsigned *addresses, size_t count, uint64_t *values) {
    (void)count;
    return mondlexi_get(from, addresses[0], values);
}

static void tell_change(int is_counted, char **words, size_t count) {
    mondlexi_entry entries[MOST_WORDS];
    mondlexi_miss miss;
    for (size_t k = 0; k < count; k++) {
        sscanf(words[k], "%u:%" SCNu64 ":%" SCNu64, &entries[k].address, &entries[k].expected, &entries[k].value);
    }
    mondlexi_status status =
        is_counted ? mondlexi_counted_cas(&counted, entries, count, &miss) : mondlexi_cas(client, entries, count, &miss);
    tell(status, "made");
    if (status == MONDLEXI_NO && miss.is_known) {
        printf(" %u %" PRIu64, miss.address, miss.value);
    }
    if (status == MONDLEXI_UNKNOWN && is_counted) {
        tell_failure(counted.cause, " from ");
    }
}

static void tell_settle(void) {
    mondlexi_status status = mondlexi_counted_settle(&counted);
    tell(status, "made");
    if (status == MONDLEXI_UNKNOWN) {
        tell_failure(counted.cause, " from ");
    }
}

static void tell_report(void) {
    mondlexi_tenants report;
    mondlexi_status status = mondlexi_report(client, &report);
    if (status) {
        tell_failure(status, "");
        return;
    }
    for (size_t k = 0; k < report.count; k++) {
        mondlexi_tenant *it = &report.tenants[k];
        printf("tenant %s %u %u %u %u %s; ", it->name, it->words, it->quota, it->places, it->under_way, it->up ? "up" : "down");
    }
    printf("free %u", report.free);
}

static int tell_other(const char *call, char **words, size_t count) {
    if (!strcmp(call, "counted")) {
        tell(mondlexi_counted_begin(&counted, client, (unsigned)atoi(words[0]), count > 1 ? atoi(strchr(words[1], '=') + 1) : 30000), "counted");
    } else if (!strcmp(call, "settle")) {
        tell_settle();
    } else if (!strcmp(call, "report")) {
        tell_report();
    } else if (!strcmp(call, "reconnect")) {
        tell(mondlexi_reconnect(client, atoi(words[0])), "connected");
    } else if (!strcmp(call, "close")) {
        mondlexi_close(client);
        printf("closed");
    } else {
        return 0;
    }
    return 1;
}

/* Makes a call of these words, and tells of it. 0 if it is none. */
static int tell_call(char **words, size_t count) {
    const char *call = words[0];
    if (!strcmp(call, "client")) {
        tell_client(words + 1, count - 1);
    } else if (!strcmp(call, "administrator")) {
        tell_administrator(words + 1, count - 1);
    } else if (!strcmp(call, "get")) {
        tell_values(get, words + 1, count - 1);
    } else if (!strcmp(call, "get_many")) {
        tell_values(mondlexi_get_many, words + 1, count - 1);
    } else if (!strcmp(call, "read")) {
        tell_values(mondlexi_read, words + 1, count - 1);
    } else if (!strcmp(call, "stable")) {
        tell_values(mondlexi_stable, words + 1, count - 1);
    } else if (!strcmp(call, "cas")) {
        tell_change(0, words + 1, count - 1);
    } else if (!strcmp(call, "counted_cas")) {
        tell_change(1, words + 1, count - 1);
    } else {
        return tell_other(call, words + 1, count - 1);
    }
    return 1;
}

/* The words of a line, which ends them. */
static size_t split(char *line, char **words) {
    size_t count = 0;
    for (char *word = strtok(line, " \n"); word && count < MOST_WORDS; word = strtok(NULL, " \n")) {
        words[count++] = word;
    }
    return count;
}

int main(void) {
    static char line[LONGEST], *words[MOST_WORDS];
    int status = 0;
    while (!status && fgets(line, sizeof line, stdin)) {
        size_t count = split(line, words);
        status = count && tell_call(words, count) ? 0 : 1;
        printf("\n");
        fflush(stdout);
    }
    mondlexi_free(client);
    return status;
}
