/* The texts of requests and the readings of replies. docs/PROTOCOL.md has the grammar. Used by: protocol.c, by codec.h; with `make PROVED=FILE`
   proved.c is built in its place. A line or a reply that the protocol gains is read in both. */
#include "codec.h"
#include <inttypes.h>
#include <stdio.h>
#include <string.h>

enum { MAX_REFUSAL = 99 };

size_t mdx_put_tenant(const char *name, char *line) {
    return (size_t)sprintf(line, "TENANT %s\n", name);
}

size_t mdx_put_get(unsigned address, char *line) {
    return (size_t)sprintf(line, "GET %u\n", address);
}

size_t mdx_put_cas(const mondlexi_entry *entries, size_t count, char *line) {
    size_t size = (size_t)sprintf(line, "CAS");
    for (size_t k = 0; k < count; k++) {
        size += (size_t)sprintf(line + size, " %u:%" PRIu64 ":%" PRIu64, entries[k].address, entries[k].expected, entries[k].value);
    }
    return size + (size_t)sprintf(line + size, "\n");
}

/* A reply that is one word, or OK ADMIN. */
static mdx_kind plain(const char *line) {
    static const struct {
        const char *text;
        mdx_kind kind;
    } words[] = {{"YES", SAYS_YES},     {"BUSY", SAYS_BUSY}, {"FAULT", SAYS_FAULT},
                 {"WORN", SAYS_WORN},   {"BYE", SAYS_BYE},   {"OK ADMIN", SAYS_ADMIN}};
    for (size_t k = 0; k < sizeof words / sizeof *words; k++) {
        if (!strcmp(line, words[k].text)) {
            return words[k].kind;
        }
    }
    return SAYS_NOTHING;
}

/* A reply of a word and a number from `least` to `most`. */
static mdx_said numbered(const char *line, const char *word, mdx_kind kind, uint64_t least, uint64_t most) {
    mdx_said said = {SAYS_NOTHING, 0, 0};
    if (mdx_skip(&line, word) && mdx_number(&line, most, &said.number) && !*line && said.number >= least) {
        said.kind = kind;
    }
    return said;
}

static mdx_said miss(const char *line) {
    mdx_said said = {SAYS_NOTHING, 0, 0};
    uint64_t address;
    if (mdx_number(&line, MONDLEXI_MAX_WORDS - 1, &address) && mdx_skip(&line, " ") &&
        mdx_number(&line, MONDLEXI_MAX_VALUE, &said.number) && !*line) {
        said.kind = SAYS_NO;
        said.address = (unsigned)address;
    }
    return said;
}

mdx_said mdx_read(const char *line) {
    mdx_said said = {plain(line), 0, 0};
    if (said.kind) {
        return said;
    }
    if (!strncmp(line, "NO ", 3)) {
        return miss(line + 3);
    }
    said = numbered(line, "VAL ", SAYS_VALUE, 0, MONDLEXI_MAX_VALUE);
    said = said.kind ? said : numbered(line, "OK ", SAYS_WORDS, 1, MONDLEXI_MAX_WORDS);
    return said.kind ? said : numbered(line, "ERR ", SAYS_ERR, 1, MAX_REFUSAL);
}
