#include "damage.h"

#include <libfdt.h>
#include <stdio.h>
#include <string.h>

#define COUNT(array) (sizeof(array) / sizeof *(array))

char what[256];
const char *from = "";
static uint64_t state;

void seed(uint64_t number) { state = number; }

uint64_t below(uint64_t limit)
{
    uint64_t z = state += UINT64_C(0x9e3779b97f4a7c15);
    z = (z ^ z >> 30) * UINT64_C(0xbf58476d1ce4e5b9);
    z = (z ^ z >> 27) * UINT64_C(0x94d049bb133111eb);
    return (z ^ z >> 31) % limit;
}

static walked seen; /* the tree at hand */
static tree now;    /* the damaged one */

static const tree *copy(const tree *t)
{
    now.len = t->len;
    memcpy(now.bytes, t->bytes, t->len);
    return &now;
}

/* Bytes of a block are replaced. What stands behind moves, and the header says so. */
static bool splice(tree *t, int block, size_t at, size_t gone, const uint8_t *bytes, size_t n)
{
    uint8_t kept[MOST];
    if (t->len < 40 || at + gone > t->len || t->len - gone + n > MOST)
        return false;
    memcpy(kept, bytes, n);
    memmove(t->bytes + at + n, t->bytes + at + gone, t->len - at - gone);
    memcpy(t->bytes + at, kept, n);
    t->len += n - gone;
    uint32_t more = (uint32_t)(n - gone);
    int grown[3] = {TOTAL, block == RESERVED ? STRUCT : block == STRUCT ? STRUCT_SIZE : STRINGS_SIZE, block == STRINGS ? -1 : STRINGS};
    for (size_t i = 0; i < 3; i++)
        if (grown[i] >= 0)
            set(t->bytes, (size_t)grown[i], get(t->bytes, (size_t)grown[i]) + more);
    return true;
}

static bool insert(tree *t, size_t at, uint32_t word, size_t times)
{
    uint8_t words[256];
    for (size_t i = 0; i < times; i++)
        set(words, 4 * i, word);
    return splice(t, STRUCT, at, 0, words, 4 * times);
}

/* The bytes of a token and what belongs to it, or of a node with all that it holds. */
static size_t token_size(const walked *w, int i) { return (i + 1 < w->n_tokens ? w->tokens[i + 1] : w->end_at + 4) - w->tokens[i]; }

static size_t node_size(const tree *t, const walked *w, int i)
{
    int open = 0, k = i;
    for (; k < w->n_tokens; k++) {
        uint32_t token = get(t->bytes, w->tokens[k]);
        open += token == BEGIN_NODE ? 1 : token == END_NODE ? -1 : 0;
        if (open <= 0)
            return w->tokens[k] + 4 - w->tokens[i];
    }
    return 4;
}

/* Bytes of the structure are put somewhere else in it, or put there once more. */
static bool move(tree *t, size_t at, size_t n, size_t to, bool keep)
{
    uint8_t bytes[MOST];
    if (at + n > t->len || to > t->len || (to > at && to < at + n))
        return false;
    memcpy(bytes, t->bytes + at, n);
    if (!keep && !splice(t, STRUCT, at, n, bytes, 0))
        return false;
    return splice(t, STRUCT, !keep && to > at ? to - n : to, 0, bytes, n);
}

static void cut(tree *t, size_t len, bool say)
{
    t->len = len;
    if (say && len >= 8)
        set(t->bytes, TOTAL, (uint32_t)len);
}

static void lengthen(tree *t, size_t n, uint8_t byte, bool say)
{
    if (t->len + n > MOST)
        return;
    memset(t->bytes + t->len, byte, n);
    t->len += n;
    if (say && t->len >= 8)
        set(t->bytes, TOTAL, (uint32_t)t->len);
}

static const uint32_t plain[] = {0,          1,          2,          3,          4,          5,          8,          9,         15, 16,
                                 17,         18,         28,         36,         39,         40,         41,         44,        48, 56,
                                 0x01000000, 0x7fffffff, 0x80000000, 0xfffffff0, 0xfffffff4, 0xfffffff8, 0xfffffffc, 0xffffffff};
static const uint32_t around[] = {0, 1, 4, 8, 16, (uint32_t)-1, (uint32_t)-4, (uint32_t)-8, (uint32_t)-16};

/* The numbers at which something changes: small ones, the last of 32 bits, and around each of the header's numbers and the blocks' ends. */
static uint32_t edge(const tree *t, size_t i)
{
    static const size_t fields[] = {TOTAL, STRUCT, STRINGS, RESERVED, STRINGS_SIZE, STRUCT_SIZE};
    if (i < COUNT(plain))
        return plain[i];
    i -= COUNT(plain);
    size_t k = i / COUNT(around);
    uint32_t number = k < COUNT(fields)    ? get(t->bytes, fields[k])
                      : k == COUNT(fields) ? get(t->bytes, STRUCT) + get(t->bytes, STRUCT_SIZE)
                                           : get(t->bytes, STRINGS) + get(t->bytes, STRINGS_SIZE);
    return number + around[i % COUNT(around)];
}
enum { EDGES = COUNT(plain) + COUNT(around) * 8 };

static const uint32_t words[] = {0,          1,          2,          3,          4,          5,          6,          8,
                                 9,          10,         12,         0x01000000, 0x02000000, 0x03000000, 0x04000000, 0x09000000,
                                 0x00010000, 0x7ffffff4, 0x7fffffff, 0x80000000, 0xfffffff4, 0xfffffffc, 0xffffffff};
static const uint8_t bytes[] = {0, 1, 2, 3, 4, 9, '/', '@', 'a', 0x7f, 0x80, 0xfe, 0xff};

/* Pairs put before the reservations; each digit of `list` to the base of 4 says which halves are not zero, the lowest first. */
static bool put_pairs(tree *t, unsigned list, size_t n)
{
    uint8_t pairs[16 * 8] = {0};
    for (size_t i = 0; i < n; i++, list /= 4) {
        pairs[16 * i + 7] = list & 1;
        pairs[16 * i + 8] = list >> 1 & 1;
    }
    return splice(t, RESERVED, get(t->bytes, RESERVED), 0, pairs, 16 * n);
}

static size_t reserved_size(const tree *t)
{
    static const uint8_t zero[16];
    size_t start = get(t->bytes, RESERVED), at = start;
    while (at + 16 < t->len && memcmp(t->bytes + at, zero, 16) != 0)
        at += 16;
    return at + 16 - start;
}

/* The blocks in one of their six orders, each with a gap before it. */
static bool arrange(tree *t, unsigned order, const size_t gaps[3], uint8_t fill)
{
    static const int orders[6][3] = {{0, 1, 2}, {0, 2, 1}, {1, 0, 2}, {1, 2, 0}, {2, 0, 1}, {2, 1, 0}};
    static tree old;
    old = *t;
    const size_t fields[3] = {RESERVED, STRUCT, STRINGS};
    const size_t sizes[3] = {reserved_size(t), get(t->bytes, STRUCT_SIZE), get(t->bytes, STRINGS_SIZE)};
    t->len = 40;
    for (size_t i = 0; i < 3; i++) {
        int k = orders[order][i];
        size_t at = get(old.bytes, fields[k]);
        if (at > old.len || sizes[k] > old.len - at || t->len + gaps[i] + sizes[k] > MOST) {
            *t = old;
            return false;
        }
        memset(t->bytes + t->len, fill, gaps[i]);
        t->len += gaps[i];
        memcpy(t->bytes + t->len, old.bytes + at, sizes[k]);
        set(t->bytes, fields[k], (uint32_t)t->len);
        t->len += sizes[k];
    }
    set(t->bytes, TOTAL, (uint32_t)t->len);
    return true;
}

/* The strings block begins n bytes earlier, inside the structure, and every property's name is said to be n bytes later. */
static bool overlap(tree *t, const walked *w, uint32_t n)
{
    if (get(t->bytes, STRINGS) < n)
        return false;
    set(t->bytes, STRINGS, get(t->bytes, STRINGS) - n);
    set(t->bytes, STRINGS_SIZE, get(t->bytes, STRINGS_SIZE) + n);
    for (int i = 0; i < w->n_properties; i++) {
        size_t at = w->properties[i].offset - 4;
        set(t->bytes, at, get(t->bytes, at) + n);
    }
    return true;
}

static bool give_name(tree *t, size_t at, size_t old, text name)
{
    uint8_t padded[MOST] = {0};
    memcpy(padded, name.at, name.n);
    return splice(t, STRUCT, at, (old + 4) / 4 * 4, padded, (name.n + 4) / 4 * 4);
}

/* n nodes, inside each other or side by side, behind all that the root holds. */
static bool grow(tree *t, const walked *w, size_t n, bool nested)
{
    static const uint8_t opened[8] = {0, 0, 0, BEGIN_NODE, 'w', 0, 0, 0}, closed[4] = {0, 0, 0, END_NODE};
    int last = w->n_tokens - 1;
    while (last > 0 && get(t->bytes, w->tokens[last]) != END_NODE)
        last--;
    size_t at = w->tokens[last];
    for (size_t i = 0; i < n; i++) {
        if (!splice(t, STRUCT, at, 0, closed, 4) || !splice(t, STRUCT, at, 0, opened, 8))
            return false;
        at += nested ? 8 : 12;
    }
    return true;
}

#define TAKE(all, ...) (snprintf(what, sizeof what, __VA_ARGS__), take(&now, all))

static void each_length(const tree *good, taker *take)
{
    for (size_t len = 0; len < good->len; len++)
        for (int say = 0; say < 2; say++) {
            copy(good), cut(&now, len, say);
            TAKE(false, "cut to %zu bytes, totalsize %s", len, say ? "too" : "as it was");
        }
    for (size_t more = 1; more <= 20; more++)
        for (int say = 0; say < 2; say++) {
            copy(good), lengthen(&now, more, (uint8_t)(more % 2 ? 0xee : 0), say);
            TAKE(false, "%zu bytes more, totalsize %s", more, say ? "too" : "as it was");
        }
}

static void each_byte(const tree *good, taker *take)
{
    for (size_t at = 0; at < good->len; at++) {
        for (size_t i = 0; i < COUNT(bytes); i++) {
            copy(good), now.bytes[at] = bytes[i];
            TAKE(false, "byte %zu is %02x", at, bytes[i]);
        }
        for (int bit = 0; bit < 8; bit++) {
            copy(good), now.bytes[at] ^= (uint8_t)(1 << bit);
            TAKE(false, "bit %d of byte %zu the other way", bit, at);
        }
    }
}

static void each_field(const tree *good, taker *take)
{
    for (size_t field = 0; field < 40; field += 4) {
        for (uint32_t number = 0; number < good->len + 20; number++) {
            copy(good), set(now.bytes, field, number);
            TAKE(false, "the header's number at %zu is %u", field, (unsigned)number);
        }
        for (size_t i = 0; i < EDGES; i++) {
            copy(good), set(now.bytes, field, edge(good, i));
            TAKE(false, "the header's number at %zu is %u", field, (unsigned)edge(good, i));
        }
    }
    for (size_t a = 4; a < 40; a += 4)
        for (size_t b = a + 4; b < 40; b += 4)
            for (size_t i = 0; i < COUNT(around) * COUNT(around); i++) {
                uint32_t more = around[i / COUNT(around)], more_b = around[i % COUNT(around)];
                copy(good), set(now.bytes, a, get(good->bytes, a) + more), set(now.bytes, b, get(good->bytes, b) + more_b);
                TAKE(false, "the header's numbers at %zu and %zu are %d and %d more", a, b, (int)more, (int)more_b);
            }
}

static void each_word(const tree *good, taker *take)
{
    size_t start = get(good->bytes, STRUCT), end = start + get(good->bytes, STRUCT_SIZE);
    for (size_t at = start; at < end; at += 4) {
        for (size_t i = 0; i < COUNT(words); i++) {
            copy(good), set(now.bytes, at, words[i]);
            TAKE(false, "the word at %zu is %08x", at, (unsigned)words[i]);
            copy(good), insert(&now, at, words[i], 1);
            TAKE(false, "the word %08x put in at %zu", (unsigned)words[i], at);
        }
        for (size_t n = 4; n <= 16 && at + n <= end; n += 4) {
            copy(good), splice(&now, STRUCT, at, n, bytes, 0);
            TAKE(false, "%zu bytes at %zu taken out", n, at);
        }
    }
    for (size_t i = 0; i < COUNT(words); i++) {
        copy(good), insert(&now, end, words[i], 1);
        TAKE(false, "the word %08x behind END", (unsigned)words[i]);
    }
}

static void each_token(const tree *good, taker *take)
{
    const walked w = seen;
    size_t end = w.end_at + 4;
    for (int i = 0; i < w.n_tokens; i++) {
        size_t at = w.tokens[i], n = token_size(&w, i);
        for (size_t times = 1; times <= 9; times += 2) {
            copy(good), insert(&now, at, NOP, times);
            TAKE(true, "%zu NOPs before the token at %zu", times, at);
        }
        for (int node = 0; node < 2; node++, n = node_size(good, &w, i)) {
            copy(good);
            for (size_t k = 0; k < n; k += 4)
                set(now.bytes, at + k, NOP);
            TAKE(true, "NOPs over %zu bytes from %zu on", n, at);
            copy(good), splice(&now, STRUCT, at, n, bytes, 0);
            TAKE(true, "%zu bytes from %zu on taken out", n, at);
            for (int k = 0; k <= w.n_tokens; k++)
                for (int keep = 0; keep < 2; keep++) {
                    size_t to = k < w.n_tokens ? w.tokens[k] : end;
                    if (copy(good), move(&now, at, n, to, keep))
                        TAKE(false, "%zu bytes from %zu on %s %zu", n, at, keep ? "once more at" : "put to", to);
                }
        }
    }
}

static void each_property(const tree *good, taker *take)
{
    const walked w = seen;
    uint32_t strings = get(good->bytes, STRINGS_SIZE);
    for (int i = 0; i < w.n_properties; i++) {
        size_t at = w.properties[i].offset;
        uint32_t left = (uint32_t)(w.end_at + 4 - at);
        for (uint32_t name = 0; name < strings + 6; name++) {
            copy(good), set(now.bytes, at - 4, name);
            TAKE(false, "the name of the property at %zu is at %u", at - 12, (unsigned)name);
        }
        for (uint32_t size = 0; size < left + 6; size += size < 24 || size + 24 > left ? 1 : 13) {
            copy(good), set(now.bytes, at - 8, size);
            TAKE(false, "the size of the property at %zu is %u", at - 12, (unsigned)size);
        }
    }
    for (uint32_t n = 1; n <= 12; n++)
        if (copy(good), overlap(&now, &w, n))
            TAKE(false, "the strings block begins %u bytes earlier", (unsigned)n);
}

static void each_node(const tree *good, taker *take)
{
    const walked w = seen;
    for (int i = 1; i < w.n_nodes; i++)
        for (int k = i + 1; k < w.n_nodes; k++) {
            text old = w.nodes[k].name;
            if (copy(good), give_name(&now, (size_t)(old.at - good->bytes), old.n, w.nodes[i].name))
                TAKE(w.nodes[i].parent == w.nodes[k].parent, "node %d with the name of node %d", k, i);
        }
    for (size_t n = 1; n <= 20; n++)
        for (int nested = 0; nested < 2; nested++)
            if (copy(good), grow(&now, &w, n, nested))
                TAKE(true, "%zu nodes more, %s", n, nested ? "inside each other" : "side by side");
    if (copy(good), grow(&now, &w, 300, false))
        TAKE(false, "300 nodes more, side by side");
}

static void each_reservation(const tree *good, taker *take)
{
    for (size_t n = 1; n <= 3; n++)
        for (unsigned list = 0; list < 1u << 2 * n; list++)
            for (int how = 0; how < 4; how++) {
                copy(good);
                if (how % 2 == 1) /* without the pair of zeros that was there */
                    splice(&now, RESERVED, get(now.bytes, RESERVED) + reserved_size(good) - 16, 16, bytes, 0);
                put_pairs(&now, list, n);
                if (how / 2 == 1) /* zeros behind the strings, where libfdt may end it */
                    lengthen(&now, 64, 0, true);
                TAKE(false, "%zu reservations %x more, the pair of zeros %s, %s", n, list, how % 2 ? "gone" : "kept",
                     how / 2 ? "zeros behind all" : "");
            }
    for (size_t n = 4; n < 16; n += 4) {
        copy(good), splice(&now, RESERVED, get(good->bytes, RESERVED), 0, (const uint8_t[16]){0}, n);
        TAKE(false, "%zu zero bytes before the reservations", n);
        set(now.bytes, RESERVED, (uint32_t)(get(good->bytes, RESERVED) + n));
        TAKE(false, "a gap of %zu bytes before the reservations", n);
    }
}

static void each_order(const tree *good, taker *take)
{
    static const size_t gaps[] = {0, 1, 2, 4, 8, 12, 16};
    for (unsigned order = 0; order < 6; order++)
        for (size_t i = 0; i < 343; i++)
            for (int fill = 0; fill < 2; fill++) {
                const size_t each[3] = {gaps[i % 7], gaps[i / 7 % 7], gaps[i / 49]};
                if (copy(good), arrange(&now, order, each, fill ? 0xee : 0))
                    TAKE(false, "order %u of the blocks, gaps of %zu, %zu and %zu bytes %s", order, each[0], each[1], each[2],
                         fill ? "ee" : "00");
            }
}

void each_damage(const tree *good, taker *take)
{
    walk(&seen, good->bytes, good->len);
    copy(good);
    TAKE(true, "as it is");
    each_length(good, take);
    each_byte(good, take);
    each_field(good, take);
    each_word(good, take);
    each_token(good, take);
    each_property(good, take);
    each_node(good, take);
    each_reservation(good, take);
    each_order(good, take);
}

static void random_bytes(uint8_t *to, size_t n)
{
    for (size_t i = 0; i < n; i++)
        to[i] = (uint8_t)(below(4) == 0 ? 0 : 'a' + below(26));
}

static void add_what(const char *more)
{
    size_t n = strlen(what);
    snprintf(what + n, sizeof what - n, "%s%s", n == 0 ? "" : "; ", more);
}

/* An edit that libfdt refuses, such as one that there is no room for, leaves the tree as it is. */
bool edit(tree *t)
{
    static const char *const names[] = {"reg", "model", "new", "v1", "v3", "level", "a-longer-name", "unit"};
    static const char *const nodes[] = {"a", "ab", "abc", "abcd", "gauge@10", "port@0", "new-node", "line"};
    static uint64_t place[MOST / 8];
    void *fdt = place;
    size_t with_room = t->len + 64 + below(256);
    if (with_room > sizeof place || fdt_open_into(t->bytes, fdt, (int)with_room) != 0)
        return false;
    what[0] = 0;
    for (uint64_t i = below(6) + 1; i > 0; i--) {
        int at = 0, next;
        uint8_t value[32];
        char said[64];
        for (uint64_t k = below(12); k > 0 && (next = fdt_next_node(fdt, at, NULL)) >= 0; k--)
            at = next;
        const char *name = names[below(COUNT(names))];
        int property = fdt_first_property_offset(fdt, at);
        for (uint64_t k = below(4); k > 0 && property >= 0 && (next = fdt_next_property_offset(fdt, property)) >= 0; k--)
            property = next;
        if (property >= 0 && below(4) > 0)
            fdt_getprop_by_offset(fdt, property, &name, NULL);
        char kept[64];
        snprintf(kept, sizeof kept, "%s", name);
        size_t n = below(2) ? below(13) : below(4) * 4;
        random_bytes(value, sizeof value);
        int did = 0, way = (int)below(8);
        switch (way) {
        case 0:
        case 1:
        case 2: did = fdt_setprop(fdt, at, kept, value, (int)n); break;
        case 3: did = fdt_nop_property(fdt, at, kept); break;
        case 4: did = fdt_delprop(fdt, at, kept); break;
        case 5: did = at == 0 ? -1 : below(2) ? fdt_del_node(fdt, at) : fdt_nop_node(fdt, at); break;
        case 6: did = fdt_add_subnode(fdt, at, nodes[below(COUNT(nodes))]); break;
        default: did = at == 0 ? -1 : fdt_set_name(fdt, at, nodes[below(COUNT(nodes))]); break;
        }
        snprintf(said, sizeof said, "edit %d at %d of %zu: %d", way, at, n, did);
        add_what(said);
    }
    if (below(2))
        fdt_pack(fdt);
    t->len = fdt_totalsize(fdt);
    memcpy(t->bytes, fdt, t->len);
    return true;
}

void damage(tree *t)
{
    char said[80];
    walk(&seen, t->bytes, t->len);
    size_t at = t->len == 0 ? 0 : below(t->len);
    size_t word = t->len < 48 ? 40 : 40 + below((t->len - 40) / 4) * 4;
    int token = seen.n_tokens == 0 ? -1 : (int)below((uint64_t)seen.n_tokens);
    size_t here = token < 0 ? word : seen.tokens[token];
    size_t there = seen.n_tokens == 0 ? word : seen.tokens[below((uint64_t)seen.n_tokens)];
    uint32_t number = words[below(COUNT(words))];
    unsigned way = (unsigned)below(16);
    if (t->len < 48)
        way = 15;
    snprintf(said, sizeof said, "way %u, %zu, %zu, %zu, %u", way, at, here, there, (unsigned)number);
    switch (way) {
    case 0: t->bytes[at] = bytes[below(COUNT(bytes))]; break;
    case 1: t->bytes[at] ^= (uint8_t)(1 << below(8)); break;
    case 2: set(t->bytes, below(10) * 4, edge(t, below(EDGES))); break;
    case 3: set(t->bytes, word, number); break;
    case 4: set(t->bytes, here, number); break;
    case 5:
    case 6: insert(t, here, NOP, below(4) + 1); break;
    case 7: insert(t, word, number, 1); break;
    case 8: splice(t, STRUCT, word, below(2) * 4 + 4, bytes, 0); break;
    case 9:
    case 10:
        if (token >= 0 && seen.ended)
            move(t, here, below(2) ? token_size(&seen, token) : node_size(t, &seen, token), there, below(3) > 0);
        break;
    case 11: put_pairs(t, (unsigned)below(256), below(4) + 1); break;
    case 12: {
        const size_t gaps[3] = {below(3) * 8, below(5) * 4, below(9)};
        arrange(t, below(3) == 0 ? (unsigned)below(6) : 0, gaps, (uint8_t)(below(2) * 0xee));
        break;
    }
    case 13:
        if (seen.ended)
            grow(t, &seen, below(18), below(2));
        break;
    case 14:
        if (seen.n_properties > 0)
            set(t->bytes, seen.properties[below((uint64_t)seen.n_properties)].offset - (below(2) ? 4 : 8), (uint32_t)below(40));
        break;
    default:
        if (below(2) && t->len > 0)
            cut(t, at, below(2));
        else
            lengthen(t, below(40), (uint8_t)(below(2) * 0xee), below(2));
        break;
    }
    add_what(said);
}
