#include "words.h"

#include <stdio.h>
#include <stdlib.h>
#include <string.h>

const char *const break_names[BREAKS] = {"version is not 17, or last compatible not 16",
                                         "other order of the blocks, or overlap",
                                         "an offset or size that is no multiple",
                                         "reservations ended by a size of 0 alone",
                                         "reservations reaching past the structure's offset",
                                         "padding that is not zero",
                                         "a property behind a subnode",
                                         "a property outside the root",
                                         "nesting over 16",
                                         "no root",
                                         "END before the structure's end"};

const char *const ask_names[ASKS] = {"a path that begins with an alias", "slashes doubled or at the end", "the root behind a NOP",
                                     "a unit address left out", "equal siblings"};

uint32_t get(const uint8_t *bytes, size_t at)
{
    return (uint32_t)bytes[at] << 24 | (uint32_t)bytes[at + 1] << 16 | (uint32_t)bytes[at + 2] << 8 | bytes[at + 3];
}

void set(uint8_t *bytes, size_t at, uint32_t number)
{
    for (size_t i = 0; i < 4; i++)
        bytes[at + i] = (uint8_t)(number >> (24 - 8 * i));
}

static bool all_zero(const uint8_t *bytes, size_t n)
{
    for (size_t i = 0; i < n; i++)
        if (bytes[i] != 0)
            return false;
    return true;
}

static void note(walked *w, bool broken, int what)
{
    if (broken)
        w->breaks |= 1u << what;
}

/* Pairs up to the structure's offset: one of 16 zero bytes must be among them. libfdt ends at the first size of 0, wherever that is. */
static void reservations(walked *w, const uint8_t *bytes)
{
    size_t limit = get(bytes, STRUCT);
    bool size_0 = false;
    if (get(bytes, RESERVED) > limit) {
        note(w, true, BAD_ORDER);
        return;
    }
    for (size_t at = get(bytes, RESERVED); at + 16 <= limit; at += 16) {
        if (all_zero(bytes + at, 16))
            return;
        size_0 = size_0 || all_zero(bytes + at + 8, 8);
    }
    note(w, true, size_0 ? BAD_RESERVED_SIZE : BAD_RESERVED_PAST);
}

/* The header's numbers. False where libfdt refuses the tree before it walks. */
static bool header(walked *w, const uint8_t *bytes, size_t len)
{
    if (len >= COMPATIBLE && get(bytes, VERSION) < 16)
        w->left_out = true;
    if (len < 40 || w->left_out)
        return false;
    uint64_t total = get(bytes, TOTAL), at = get(bytes, STRUCT), size = get(bytes, STRUCT_SIZE), strings = get(bytes, STRINGS);
    if (total > len || at > total || strings > total || strings + get(bytes, STRINGS_SIZE) > total)
        return false;
    note(w, get(bytes, VERSION) != 17 || get(bytes, COMPATIBLE) != 16, BAD_VERSION);
    note(w, get(bytes, RESERVED) % 8 != 0 || at % 4 != 0 || size % 4 != 0, BAD_MULTIPLE);
    note(w, at + size > strings, BAD_ORDER);
    reservations(w, bytes);
    return get(bytes, VERSION) < 17 || at + size <= total;
}

/* A text from `at` on that ends in a zero byte before `limit`. */
static bool ended_text(text *t, const uint8_t *bytes, size_t at, size_t limit)
{
    const uint8_t *zero = at < limit ? memchr(bytes + at, 0, limit - at) : NULL;
    t->at = bytes + at;
    t->n = zero == NULL ? 0 : (size_t)(zero - t->at);
    return zero != NULL;
}

static void room(bool there)
{
    if (!there) {
        fprintf(stderr, "a tree with more nodes or tokens than there is room for here\n");
        exit(2);
    }
}

/* libfdt counts the padding from the structure's start, wherever that is. Where the rest is too short the next token is missing. */
static size_t padded(walked *w, const uint8_t *bytes, size_t start, size_t at, size_t limit)
{
    size_t end = start + (at - start + 3) / 4 * 4;
    if (end <= limit)
        note(w, !all_zero(bytes + at, end - at), BAD_PADDING);
    return end;
}

/*
 * The tokens, up to where libfdt refuses or ends. Before version 17 it knows no sizes of the structure and the strings, and goes on to
 * totalsize; from there on the answer is 21 whatever comes.
 */
void walk(walked *w, const uint8_t *bytes, size_t len)
{
    memset(w, 0, offsetof(walked, nodes));
    if (!header(w, bytes, len))
        return;
    bool sizes = get(bytes, VERSION) >= 17;
    size_t start = get(bytes, STRUCT), limit = sizes ? start + get(bytes, STRUCT_SIZE) : get(bytes, TOTAL);
    size_t strings = get(bytes, STRINGS), strings_end = sizes ? strings + get(bytes, STRINGS_SIZE) : get(bytes, TOTAL);
    int in = -1, depth = 0;
    bool closed = false;
    for (size_t at = start, next; at + 4 <= limit; at = next) {
        uint32_t token = get(bytes, at);
        text name;
        if (closed && token != NOP && token != END)
            return;
        room(w->n_tokens < MOST_TOKENS && w->n_nodes < MOST_NODES);
        w->tokens[w->n_tokens++] = at;
        next = at + 4;
        switch (token) {
        case NOP:
            if (closed && w->nops_at == 0)
                w->nops_at = at;
            if (w->n_nodes == 0)
                w->root_nop = true;
            break;
        case BEGIN_NODE:
            if (!ended_text(&name, bytes, next, limit) || (in < 0 && name.n > 0))
                return;
            next = padded(w, bytes, start, next + name.n + 1, limit);
            note(w, ++depth > 16, BAD_NESTING);
            if (in >= 0)
                w->nodes[in].has_nodes = true;
            w->nodes[w->n_nodes] = (node){name, in, false};
            in = w->n_nodes++;
            break;
        case PROPERTY: {
            if (at + 8 > limit)
                return;
            uint32_t size = get(bytes, at + 4);
            w->left_out = size >= UINT32_C(0x80000000);
            if (w->left_out || at + 12 > limit || size > limit - at - 12)
                return;
            if (!ended_text(&name, bytes, strings + get(bytes, at + 8), strings_end))
                return;
            next = padded(w, bytes, start, at + 12 + size, limit);
            note(w, in < 0, BAD_TOP_PROPERTY);
            note(w, in >= 0 && w->nodes[in].has_nodes, BAD_LATE_PROPERTY);
            w->properties[w->n_properties++] = (property){in, name, (uint32_t)(at + 12), size};
            break;
        }
        case END_NODE:
            if (depth == 0)
                return;
            in = w->nodes[in].parent;
            closed = --depth == 0;
            break;
        case END:
            w->ended = depth == 0;
            w->end_at = at;
            note(w, w->n_nodes == 0, BAD_NO_ROOT);
            note(w, next != start + get(bytes, STRUCT_SIZE), BAD_EARLY_END);
            return;
        default: return;
        }
    }
}

static bool same(text a, text b) { return a.n == b.n && memcmp(a.at, b.at, a.n) == 0; }

static text front(text t, size_t n) { return (text){t.at, n}; }
static text behind(text t, size_t n) { return (text){t.at + n, t.n - n}; }

/* How many bytes come before the first slash: all of them where there is none. */
static size_t to_slash(text t)
{
    const uint8_t *slash = t.n == 0 ? NULL : memchr(t.at, '/', t.n);
    return slash == NULL ? t.n : (size_t)(slash - t.at);
}

/* Whether the names from below the root down to this node are those of the path, each behind a slash; from its end. */
static bool stands_under(const walked *w, int n, text path)
{
    for (; w->nodes[n].parent >= 0; n = w->nodes[n].parent) {
        text name = w->nodes[n].name;
        if (name.n == 0 || to_slash(name) < name.n || path.n < name.n + 1 || path.at[path.n - name.n - 1] != '/')
            return false;
        if (!same(behind(path, path.n - name.n), name))
            return false;
        path = front(path, path.n - name.n - 1);
    }
    return path.n == 0;
}

answer wanted(const walked *w, text path, text name)
{
    if (path.n == 1 && path.at[0] == '/')
        path.n = 0;
    else if (path.n == 0)
        return (answer){false, 0, 0};
    for (int i = 0; i < w->n_properties; i++) {
        const property *p = &w->properties[i];
        if (p->node >= 0 && same(p->name, name) && stands_under(w, p->node, path))
            return (answer){true, p->offset, p->size};
    }
    return (answer){false, 0, 0};
}

static bool fits(text name, text part)
{
    if (name.n < part.n || memcmp(name.at, part.at, part.n) != 0)
        return false;
    return name.n == part.n || (memchr(part.at, '@', part.n) == NULL && name.at[part.n] == '@');
}

/* libfdt's subnode: the first one that has the name, or the name and a unit address, where the name has none. */
static int subnode(const walked *w, int parent, text part, unsigned *reasons)
{
    int first = -1;
    for (int i = 0; i < w->n_nodes; i++) {
        if (w->nodes[i].parent != parent || parent < 0 || !fits(w->nodes[i].name, part))
            continue;
        if (first < 0)
            first = i;
        else if (same(w->nodes[i].name, part) && same(w->nodes[first].name, part))
            *reasons |= 1u << ASK_TWINS;
    }
    if (first >= 0 && !same(w->nodes[first].name, part))
        *reasons |= 1u << ASK_UNIT;
    return first;
}

static int from_node(const walked *w, int at, text path, unsigned *reasons)
{
    while (path.n > 0 && at >= 0) {
        size_t slashes = 0;
        while (slashes < path.n && path.at[slashes] == '/')
            slashes++;
        path = behind(path, slashes);
        if (slashes > 1 || path.n == 0)
            *reasons |= 1u << ASK_SLASHES;
        if (path.n > 0)
            at = subnode(w, at, front(path, to_slash(path)), reasons);
        path = behind(path, to_slash(path));
    }
    return at;
}

static answer in_node(const walked *w, int at, text name)
{
    for (int i = 0; i < w->n_properties; i++)
        if (at >= 0 && w->properties[i].node == at && same(w->properties[i].name, name))
            return (answer){true, w->properties[i].offset, w->properties[i].size};
    return (answer){false, 0, 0};
}

static answer alias(const walked *w, text path)
{
    unsigned ignored = 0;
    return in_node(w, from_node(w, 0, (text){(const uint8_t *)"/aliases", 8}, &ignored), front(path, to_slash(path)));
}

bool alias_is_safe(const walked *w, const uint8_t *bytes, text path)
{
    if (path.n > 0 && path.at[0] == '/')
        return true;
    answer a = alias(w, path);
    return !a.found || (a.size > 0 && bytes[a.offset] == '/' && memchr(bytes + a.offset, 0, a.size) != NULL);
}

answer lenient(const walked *w, const uint8_t *bytes, text path, text name, unsigned *reasons)
{
    int at = 0;
    *reasons = w->root_nop ? 1u << ASK_ROOT_NOP : 0;
    if (path.n == 1 && path.at[0] == '/') {
        path.n = 0;
    } else if (path.n == 0 || path.at[0] != '/') {
        answer a = alias(w, path);
        *reasons |= 1u << ASK_ALIAS;
        if (!a.found)
            return (answer){false, 0, 0};
        at = from_node(w, 0, (text){bytes + a.offset, strlen((const char *)bytes + a.offset)}, reasons);
        path = behind(path, to_slash(path));
    }
    at = from_node(w, at, path, reasons);
    return w->root_nop ? (answer){false, 0, 0} : in_node(w, at, name);
}
