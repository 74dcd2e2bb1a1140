/* The texts of requests and the readings of replies. codec.c has them; or proved.c, over mw_client_c, whose contracts say what they do.
   Used by: protocol.c. The numbers of `mdx_kind` are those of mw_client_c (crates/mw_client_c/src/lib.rt): change both. */
#ifndef MONDLEXI_CODEC_H
#define MONDLEXI_CODEC_H
#include "parts.h"

/* Which reply a line is, as mw_client_c numbers them. */
typedef enum {
    SAYS_NOTHING,
    SAYS_WORDS, /* OK and how many words */
    SAYS_ADMIN,
    SAYS_BYE,
    SAYS_ERR,
    SAYS_VALUE,
    SAYS_YES,
    SAYS_NO, /* with an address and the value there */
    SAYS_BUSY,
    SAYS_FAULT,
    SAYS_WORN
} mdx_kind;

typedef struct {
    mdx_kind kind;
    unsigned address;
    uint64_t number;
} mdx_said;

/* Each writes a line with its line feed, and gives its bytes. Its arguments were checked, and `line` has room for MAX_LINE + 1. */
HIDDEN size_t mdx_put_tenant(const char *name, char *line);
HIDDEN size_t mdx_put_get(unsigned address, char *line);
HIDDEN size_t mdx_put_cas(const mondlexi_entry *entries, size_t count, char *line);

/* The line comes without its line feed. */
HIDDEN mdx_said mdx_read(const char *line);

/* protocol.c: goes past a text, or a number of up to 15 digits, without a zero before others, up to `most`. 0 if there is none. */
HIDDEN int mdx_skip(const char **at, const char *text);
HIDDEN int mdx_number(const char **at, uint64_t most, uint64_t *value);

#endif
