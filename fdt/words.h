/*
 * What request 6 says of a tree's bytes where libfdt says otherwise, by a walk that goes on where libfdt does. With libfdt's answer it
 * gives the answer that the request wants, for every tree; the two programs are compared with that.
 */
#ifndef WORDS_H
#define WORDS_H

#include <stdbool.h>
#include <stddef.h>
#include <stdint.h>

enum { MOST = 8192, MOST_NODES = 1024, MOST_TOKENS = 2048 }; /* bytes, nodes and tokens of a tree here */
enum {
    MAGIC = 0,
    TOTAL = 4,
    STRUCT = 8,
    STRINGS = 12,
    RESERVED = 16,
    VERSION = 20,
    COMPATIBLE = 24,
    CPU = 28,
    STRINGS_SIZE = 32,
    STRUCT_SIZE = 36
};
enum { BEGIN_NODE = 1, END_NODE = 2, PROPERTY = 3, NOP = 4, END = 9 };

/* What breaks the grammar, and libfdt accepts. */
enum {
    BAD_VERSION,
    BAD_ORDER,
    BAD_MULTIPLE,
    BAD_RESERVED_SIZE,
    BAD_RESERVED_PAST,
    BAD_PADDING,
    BAD_LATE_PROPERTY,
    BAD_TOP_PROPERTY,
    BAD_NESTING,
    BAD_NO_ROOT,
    BAD_EARLY_END,
    BREAKS
};
extern const char *const break_names[BREAKS];

/* Why libfdt's lookup may answer otherwise. */
enum { ASK_ALIAS, ASK_SLASHES, ASK_ROOT_NOP, ASK_UNIT, ASK_TWINS, ASKS };
extern const char *const ask_names[ASKS];

typedef struct {
    const uint8_t *at;
    size_t n;
} text;

typedef struct {
    text name;
    int parent; /* -1 of the root */
    bool has_nodes;
} node;

typedef struct {
    int node; /* -1 of one outside the root */
    text name;
    uint32_t offset, size; /* the value, from the tree's start */
} property;

typedef struct {
    bool left_out;          /* libfdt is not to be asked: it hangs or crashes on some of these */
    bool ended;             /* the walk came to an END outside every node */
    unsigned breaks;        /* a bit for each */
    bool root_nop;          /* NOPs before the root */
    size_t nops_at, end_at; /* NOPs between the root and END, where there are any: the first one, and END */
    int n_nodes, n_properties, n_tokens;
    node nodes[MOST_NODES];
    property properties[MOST_TOKENS];
    size_t tokens[MOST_TOKENS]; /* where each token starts */
} walked;

typedef struct {
    bool found;
    uint32_t offset, size;
} answer;

uint32_t get(const uint8_t *bytes, size_t at); /* a big-endian number */
void set(uint8_t *bytes, size_t at, uint32_t number);
void walk(walked *w, const uint8_t *bytes, size_t len);
answer wanted(const walked *w, text path, text name); /* the lookup, by the request's words */
/* libfdt's lookup, and the reasons for which it may differ, a bit for each */
answer lenient(const walked *w, const uint8_t *bytes, text path, text name, unsigned *reasons);
bool alias_is_safe(const walked *w, const uint8_t *bytes, text path); /* libfdt reads an alias as a text with a zero byte, to any depth */

#endif
