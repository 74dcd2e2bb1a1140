/* The protocol without a connection: which arguments are allowed, the line of each question, and what its reply means. docs/PROTOCOL.md
   has the grammar. Used by: client.c, counted.c, session.c. A command or limit that the page gains is added here and in codec.c, in the file
   of this name of each other client, and has cases in clients/cases. */
#include "codec.h"
#include <stdio.h>
#include <stdlib.h>
#include <string.h>

enum { MAX_DIGITS = 15, MAX_PORT = 65535 };

/* What a caller may ask for. */

/* A port from 1 to 65535, of one to five digits, is copied. */
static int port_of(mondlexi_client *client, const char *text) {
    size_t size = strlen(text);
    if (size < 1 || size > 5 || strspn(text, "0123456789") != size || atol(text) < 1 || atol(text) > MAX_PORT) {
        return 0;
    }
    memcpy(client->port, text, size + 1);
    return 1;
}

/* A host of `size` bytes, with none of these signs, is copied. */
static int host_of(mondlexi_client *client, const char *text, size_t size, const char *without) {
    if (size < 1 || size > MAX_HOST) {
        return 0;
    }
    memcpy(client->host, text, size);
    client->host[size] = 0;
    return strcspn(client->host, without) == size;
}

/* Where a server listens, from HOST:PORT, [HOST]:PORT or unix:PATH. 0 if it is none of these. */
int mdx_place(mondlexi_client *client, const char *server) {
    if (!strncmp(server, "unix:", 5)) {
        size_t size = strlen(server + 5);
        if (size < 1 || size > MAX_PATH) {
            return 0;
        }
        memcpy(client->path, server + 5, size + 1);
        return 1;
    }
    const char *colon = strrchr(server, ':');
    if (!colon || !port_of(client, colon + 1)) {
        return 0;
    }
    size_t size = (size_t)(colon - server);
    if (server[0] != '[') {
        return host_of(client, server, size, "[]: \t\r\n\v\f");
    }
    return size > 2 && server[size - 1] == ']' && host_of(client, server + 1, size - 2, "[] \t\r\n\v\f");
}

int mdx_is_tenant(const char *name) {
    size_t size = strlen(name);
    return size >= 1 && size <= 16 && name[0] >= 'a' && name[0] <= 'z' && strspn(name, "abcdefghijklmnopqrstuvwxyz0123456789-") == size;
}

static int by_address(const void *one, const void *other) {
    unsigned a = ((const mondlexi_entry *)one)->address, b = ((const mondlexi_entry *)other)->address;
    return (a > b) - (a < b);
}

/* Puts the entries into `sorted`, which has room for sixteen, by their addresses. 0 if the tenant can't be asked for them in one change. */
int mdx_are_entries(const mondlexi_client *client, mondlexi_entry *sorted, const mondlexi_entry *entries, size_t count) {
    if (count < 1 || count > MONDLEXI_MAX_ENTRIES) {
        return 0;
    }
    memcpy(sorted, entries, count * sizeof *sorted);
    qsort(sorted, count, sizeof *sorted, by_address);
    for (size_t k = 0; k < count; k++) {
        if (sorted[k].address >= client->words || sorted[k].expected > MONDLEXI_MAX_VALUE || sorted[k].value > MONDLEXI_MAX_VALUE ||
            (k && sorted[k].address == sorted[k - 1].address)) {
            return 0;
        }
    }
    return 1;
}

/* Parts of replies. */

/* Goes past a text. */
int mdx_skip(const char **at, const char *text) {
    size_t size = strlen(text);
    if (strncmp(*at, text, size)) {
        return 0;
    }
    *at += size;
    return 1;
}

/* Goes past a number of up to 15 digits, without a zero before others, up to `most`. */
int mdx_number(const char **at, uint64_t most, uint64_t *value) {
    size_t size = strspn(*at, "0123456789");
    if (size < 1 || size > MAX_DIGITS || (size > 1 && **at == '0')) {
        return 0;
    }
    *value = strtoull(*at, NULL, 10);
    *at += size;
    return *value <= most;
}

/* What any line may be answered: BUSY, FAULT, WORN, or ERR and a number. OK if it is none of these. */
mondlexi_status mdx_failure(mondlexi_client *client, const char *line) {
    mdx_said said = mdx_read(line);
    switch (said.kind) {
    case SAYS_BUSY:
        return MONDLEXI_BUSY;
    case SAYS_FAULT:
        return MONDLEXI_FAULT;
    case SAYS_WORN:
        return MONDLEXI_WORN;
    case SAYS_ERR:
        client->refusal = (int)said.number;
        return MONDLEXI_REFUSED;
    default:
        return MONDLEXI_OK;
    }
}

/* The greeting: TENANT, answered by the number of its words, or ADMIN. */

static size_t write_greeting(const mdx_question *question, size_t at, char *line) {
    (void)at;
    return question->tenant[0] ? mdx_put_tenant(question->tenant, line) : (size_t)sprintf(line, "ADMIN\n");
}

static mdx_meaning read_greeting(mdx_question *question, size_t at, size_t part, const char *line) {
    mdx_said said = mdx_read(line);
    (void)at;
    (void)part;
    if (said.kind != (question->tenant[0] ? SAYS_WORDS : SAYS_ADMIN)) {
        return MEANS_NOTHING;
    }
    question->words = (unsigned)said.number;
    return MEANS_DONE;
}

mdx_question mdx_greeting(const mondlexi_client *client) {
    return (mdx_question){.lines = 1, .gone = MONDLEXI_LOST, .write = write_greeting, .read = read_greeting, .tenant = client->tenant};
}

/* GET of many words. With more lines than words they are read again, and compared. */

static size_t write_get(const mdx_question *question, size_t at, char *line) {
    return mdx_put_get(question->addresses[at % question->count], line);
}

static mdx_meaning read_get(mdx_question *question, size_t at, size_t part, const char *line) {
    mdx_said said = mdx_read(line);
    uint64_t value = said.number;
    (void)part;
    if (said.kind != SAYS_VALUE) {
        return MEANS_NOTHING;
    }
    if (at == 0) {
        question->differs = 0;
    }
    uint64_t *word = &question->values[at % question->count];
    if ((question->compares || at >= question->count) && *word != value) {
        question->differs = 1;
    }
    *word = value;
    return MEANS_DONE;
}

mdx_question mdx_gets(const unsigned *addresses, size_t count, uint64_t *values) {
    return (mdx_question){
        .lines = count, .gone = MONDLEXI_LOST, .write = write_get, .read = read_get, .addresses = addresses, .count = count, .values = values};
}

/* CAS: made, or not because of a word of its own with another value than the one expected. */

static size_t write_change(const mdx_question *question, size_t at, char *line) {
    (void)at;
    return mdx_put_cas(question->entries, question->count, line);
}

/* Whether this word was asked for, and another value expected of it. */
static int can_miss(const mdx_question *question, uint64_t address, uint64_t value) {
    for (size_t k = 0; k < question->count; k++) {
        if (question->entries[k].address == address) {
            return question->entries[k].expected != value;
        }
    }
    return 0;
}

static mdx_meaning read_change(mdx_question *question, size_t at, size_t part, const char *line) {
    mdx_said said = mdx_read(line);
    (void)at;
    (void)part;
    if (said.kind == SAYS_YES) {
        return MEANS_DONE;
    }
    if (said.kind != SAYS_NO || !can_miss(question, said.address, said.number)) {
        return MEANS_NOTHING;
    }
    question->miss = (mondlexi_miss){1, said.address, said.number};
    return MEANS_NO;
}

mdx_question mdx_change(const mondlexi_entry *sorted, size_t count, mondlexi_status gone) {
    return (mdx_question){.lines = 1, .gone = gone, .write = write_change, .read = read_change, .entries = sorted, .count = count};
}

/* REPORT: a line for each tenant, then one for the pool. */

static size_t write_report(const mdx_question *question, size_t at, char *line) {
    (void)question;
    (void)at;
    return (size_t)sprintf(line, "REPORT\n");
}

/* Goes past spaces and a number. */
static int column(const char **at, unsigned *value) {
    *at += strspn(*at, " ");
    size_t size = strspn(*at, "0123456789");
    *value = (unsigned)strtoul(*at, NULL, 10);
    *at += size;
    return size >= 1 && size <= 4;
}

/* A tenant's line, in its columns. */
static int tenant_of(const char *line, mondlexi_tenant *tenant) {
    char again[64];
    size_t size = strcspn(line, " ");
    const char *at = line + size;
    if (size > 16) {
        return 0;
    }
    memcpy(tenant->name, line, size);
    tenant->name[size] = 0;
    if (!mdx_is_tenant(tenant->name) || !column(&at, &tenant->words) || !column(&at, &tenant->quota) || !column(&at, &tenant->places) ||
        !column(&at, &tenant->under_way)) {
        return 0;
    }
    tenant->up = !strcmp(at, " up");
    snprintf(again, sizeof again, "%-16s %4u %2u %2u %2u %s", tenant->name, tenant->words, tenant->quota, tenant->places,
             tenant->under_way, tenant->up ? "up" : "down");
    return !strcmp(line, again);
}

static mdx_meaning read_report(mdx_question *question, size_t at, size_t part, const char *line) {
    mondlexi_tenants *report = question->report;
    uint64_t slots;
    (void)at;
    if (strlen(line) > REPORT_END) {
        if (part == MONDLEXI_MAX_TENANTS || !tenant_of(line, &report->tenants[part])) {
            return MEANS_NOTHING;
        }
        report->count = part + 1;
        return MEANS_MORE;
    }
    if (!part || !mdx_skip(&line, "free ") || !mdx_number(&line, UINT32_MAX, &slots) || *line) {
        return MEANS_NOTHING;
    }
    report->free = (unsigned)slots;
    return MEANS_DONE;
}

mdx_question mdx_report_question(mondlexi_tenants *report) {
    return (mdx_question){.lines = 1, .gone = MONDLEXI_LOST, .write = write_report, .read = read_report, .report = report};
}
