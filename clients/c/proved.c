/* The texts of requests and the readings of replies, by mw_client_c: what each does is proved of the code that runs. Used by: protocol.c, by
   codec.h, if it is made with `make PROVED=FILE`; else codec.c has these functions. */
#include "proved.h"
#include "codec.h"
#include <string.h>

enum { ROOM = MAX_LINE + 1 };

size_t mdx_put_tenant(const char *name, char *line) {
    return mw_client_c_tenant((const uint8_t *)name, strlen(name), (uint8_t *)line, ROOM);
}

size_t mdx_put_get(unsigned address, char *line) {
    return mw_client_c_get((uint16_t)address, (uint8_t *)line, ROOM);
}

size_t mdx_put_cas(const mondlexi_entry *entries, size_t count, char *line) {
    line_entry own[MONDLEXI_MAX_ENTRIES];
    for (size_t k = 0; k < count; k++) {
        own[k] = (line_entry){(uint16_t)entries[k].address, entries[k].expected, entries[k].value};
    }
    return mw_client_c_cas(own, count, (uint8_t *)line, ROOM);
}

mdx_said mdx_read(const char *line) {
    line_reply reply = mw_client_c_reply((const uint8_t *)line, strlen(line));
    return (mdx_said){(mdx_kind)reply.kind, reply.address, reply.number};
}
