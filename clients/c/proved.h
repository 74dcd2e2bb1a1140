/* libmw_client_c.a: the lines of requests and the readings of replies, proved. crates/mw_client_c/src/lib.rt has their contracts; a change
   of these declarations is one there. Used by: proved.c. Pointers are never null. */
#ifndef MONDLEXI_PROVED_H
#define MONDLEXI_PROVED_H
#include <stddef.h>
#include <stdint.h>

typedef struct {
    uint16_t address;
    uint64_t expected, value;
} line_entry;

typedef struct {
    uint8_t kind; /* as mdx_kind */
    uint16_t address;
    uint64_t number;
} line_reply;

/* Each gives how many bytes it wrote; 0 if the argument keeps no limit of the protocol, or there is no room. */
size_t mw_client_c_tenant(const uint8_t *name, size_t size, uint8_t *line, size_t room);
size_t mw_client_c_get(uint16_t address, uint8_t *line, size_t room);
size_t mw_client_c_cas(const line_entry *entries, size_t count, uint8_t *line, size_t room);

line_reply mw_client_c_reply(const uint8_t *line, size_t size);

#endif
