/* What the files of the library share: a session over a connection, and questions. Nothing of this is for users. Used by: all of them. Its
   limits are those of docs/PROTOCOL.md and of the other clients: change them together. */
#ifndef MONDLEXI_PARTS_H
#define MONDLEXI_PARTS_H
#include "mondlexi.h"

#define HIDDEN __attribute__((visibility("hidden")))
#define PUBLIC __attribute__((visibility("default")))

enum {
    MAX_HOST = 255,
    MAX_PATH = 107,
    MAX_REPLY = 35,       /* bytes of a line from the server, without its line feed */
    REPORT_END = 8,       /* the last line of a report alone has at most so many */
    MAX_LINE = 640,       /* bytes of a line to the server, with its line feed */
    LINES_AT_ONCE = 512,  /* lines sent before their replies are read: each socket has room for so many GET */
    FIRST_PAUSE = 1000,   /* microseconds */
    LONGEST_PAUSE = 250000,
    GOODBYE = 1000000
};

/* How a session is: connected and greeted; without a connection because one broke, or could not be made; closed by its owner. */
typedef enum { IS_CLOSED, IS_BROKEN, IS_OPEN } mdx_state;

struct mondlexi_client {
    char host[MAX_HOST + 1], port[6], path[MAX_PATH + 1], tenant[17]; /* an empty host: at the path; an empty tenant: the administrator */
    mondlexi_options options;
    mdx_state state;
    int fd;       /* -1 if there is none */
    void *stream; /* of options.streams, or NULL */
    unsigned words;
    int is_silent, is_late; /* whether no byte has come over this connection; whether the last failure was a reply in time */
    char in[4096];
    size_t begin, end; /* what came and was not taken yet is from in[begin] up to in[end] */
    uint64_t dice;
    int refusal;
    char text[240];
};

/* What a reply line means to a question. */
typedef enum { MEANS_DONE, MEANS_NO, MEANS_MORE, MEANS_NOTHING } mdx_meaning;

/* Lines that are sent together, and what their replies mean. */
typedef struct mdx_question {
    size_t lines;
    mondlexi_status gone; /* what is told if the connection ends: UNKNOWN of a change, LOST if nothing can be changed */
    size_t (*write)(const struct mdx_question *, size_t number, char *line);              /* the line, with its line feed; its bytes */
    mdx_meaning (*read)(struct mdx_question *, size_t number, size_t part, const char *); /* of the part of a reply, 0 and up */
    const unsigned *addresses;                                                            /* what the questions are about */
    uint64_t *values;
    int compares, differs; /* whether values are compared with those that are there; whether one was another */
    const mondlexi_entry *entries;
    size_t count; /* of the words */
    mondlexi_miss miss;
    unsigned words;
    mondlexi_tenants *report;
    const char *tenant;
} mdx_question;

/* link.c: one connection. Each that can fail returns 0 then, with the reason in the text. Times are microseconds of mdx_now. */
HIDDEN int64_t mdx_now(void);
HIDDEN int mdx_pause(mondlexi_client *, int64_t *pause, int64_t end);
HIDDEN void mdx_say(mondlexi_client *, const char *format, ...) __attribute__((format(printf, 2, 3)));
HIDDEN int mdx_connect(mondlexi_client *, int64_t end, int *is_full);
HIDDEN int mdx_send(mondlexi_client *, const char *bytes, size_t count, int64_t end);
HIDDEN int mdx_receive(mondlexi_client *, int64_t end);
HIDDEN void mdx_goodbye(mondlexi_client *, int64_t end);
HIDDEN void mdx_drop(mondlexi_client *);

/* protocol.c: the lines of each question, and what their replies mean. */
HIDDEN int mdx_place(mondlexi_client *, const char *server);
HIDDEN int mdx_is_tenant(const char *name);
HIDDEN int mdx_are_entries(const mondlexi_client *, mondlexi_entry *sorted, const mondlexi_entry *entries, size_t count);
HIDDEN mondlexi_status mdx_failure(mondlexi_client *, const char *line);
HIDDEN mdx_question mdx_greeting(const mondlexi_client *);
HIDDEN mdx_question mdx_gets(const unsigned *addresses, size_t count, uint64_t *values);
HIDDEN mdx_question mdx_change(const mondlexi_entry *sorted, size_t count, mondlexi_status gone);
HIDDEN mdx_question mdx_report_question(mondlexi_tenants *);

/* session.c: asks over a connection, and connects anew. */
HIDDEN mondlexi_status mdx_ask(mondlexi_client *, mdx_question *);
HIDDEN mondlexi_status mdx_begin(mondlexi_client *, int64_t end, int is_repair);
HIDDEN int64_t mdx_after(int milliseconds);
HIDDEN mondlexi_status mdx_ask_patiently(mondlexi_client *, mdx_question *, int64_t end);
HIDDEN const char *mdx_no_client(void);

#endif
