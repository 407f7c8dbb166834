/*
 * compare SEED TREES FILE..: the library beside libfdt, on the trees in the files, on each of them damaged in every way that there is here,
 * and on TREES more that are edited and damaged at random. Of every tree and every lookup the library must give what request 6 wants, which
 * is what libfdt says but for the kinds of difference in words.c; each of these is told by a test of its own of the bytes, and counted.
 * Ends with 1 and the tree's bytes on any other difference, on a read outside a tree, and on a call that does not return.
 */
#define _DEFAULT_SOURCE /* for mmap, alarm and write */
#include <inttypes.h>
#include <libfdt.h>
#include <signal.h>
#include <stdio.h>
#include <stdlib.h>
#include <string.h>
#include <sys/mman.h>
#include <unistd.h>

#include "damage.h"
#include "transfer_list.h"
#include "words.h"

enum { PAGES = 4 * MOST, A_FEW = 6, WAYS_PATH = 12, WAYS_NAME = 6 };

/* Bytes between pages that cannot be read. */
typedef struct {
    uint8_t *start;
} place;

static place of_library, of_path, of_name, of_libfdt;
static const tree *at_hand;
static walked seen;
static const char *running = "";

static uint64_t trees, left_out, both_accept, both_refuse, nop_before_end;
static uint64_t alone[BREAKS], in_all[BREAKS];
static uint64_t lookups, both_find, both_find_none, unsafe, ask_alone[ASKS], ask_in_all[ASKS];

static place new_place(void)
{
    uint8_t *all = mmap(NULL, PAGES + 2 * MOST, PROT_NONE, MAP_PRIVATE | MAP_ANONYMOUS, -1, 0);
    if (all == MAP_FAILED || mprotect(all + MOST, PAGES, PROT_READ | PROT_WRITE) != 0) {
        perror("mmap");
        exit(2);
    }
    return (place){all + MOST};
}

/* At the place's end, so that the byte behind the last one cannot be read; for libfdt, which wants a multiple of 8, up to 7 before it. */
static uint8_t *put(place p, const uint8_t *bytes, size_t n, size_t multiple)
{
    uint8_t *to = p.start + (PAGES - n) / multiple * multiple;
    memset(to + n, 0xee, (size_t)(p.start + PAGES - (to + n)));
    memcpy(to, bytes, n);
    return to;
}

static void describe(const char *problem)
{
    fflush(stdout);
    fprintf(stderr, "%s\n%s: %s\n%zu bytes:", problem, from, what, at_hand == NULL ? 0 : at_hand->len);
    for (size_t i = 0; at_hand != NULL && i < at_hand->len; i++)
        fprintf(stderr, "%s%02x", i % 32 == 0 ? "\n    " : i % 4 == 0 ? " " : "", at_hand->bytes[i]);
    fprintf(stderr, "\n");
}

static void fail(const char *problem)
{
    describe(problem);
    exit(1);
}

/* After a read outside or a call that does not return nothing goes on, so that it may be described in spite of where it was. */
static void on_signal(int number)
{
    fprintf(stderr, "in %s: ", running);
    describe(number == SIGALRM ? "a call that does not return" : "a read outside what was lent");
    _exit(1);
}

static bool libfdt_accepts(const uint8_t *bytes, size_t len)
{
    running = "libfdt";
    return fdt_check_full(put(of_libfdt, bytes, len, 8), len) == 0;
}

/* The same tree with END where the first NOP behind the root stands. */
static bool accepts_without_nops(const tree *t)
{
    static tree other;
    other.len = t->len;
    memcpy(other.bytes, t->bytes, t->len);
    set(other.bytes, seen.nops_at, END);
    set(other.bytes, STRUCT_SIZE, get(t->bytes, STRUCT_SIZE) - (uint32_t)(seen.end_at - seen.nops_at));
    return libfdt_accepts(other.bytes, other.len);
}

/* A reason that stands alone is counted once more. */
static void count(unsigned reasons, int n, uint64_t *by_itself, uint64_t *with_others)
{
    for (int k = 0; k < n; k++) {
        by_itself[k] += reasons == 1u << k;
        with_others[k] += reasons >> k & 1;
    }
}

static tl_found find(const uint8_t *lent, text path, text name)
{
    const uint8_t *p = path.n == 0 ? NULL : put(of_path, path.at, path.n, 1), *n = name.n == 0 ? NULL : put(of_name, name.at, name.n, 1);
    running = "the library's lookup";
    tl_found got = tl_fdt_find(at_hand->len == 0 ? NULL : lent, at_hand->len, p, path.n, n, name.n);
    if (got.at != 0)
        fail("a lookup's answer says the place of a list's entry");
    return got;
}

static bool equal(answer a, answer b) { return a.found == b.found && a.offset == b.offset && a.size == b.size; }

static void ask(const uint8_t *lent, const uint8_t *fdt, text path, text name)
{
    answer want = wanted(&seen, path, name), other = {false, 0, 0};
    tl_found got = find(lent, path, name);
    lookups++;
    if (got.number != (want.found ? TL_ACCEPTED : TL_NONE) || got.offset != want.offset || got.size != want.size) {
        fprintf(stderr, "'%.*s' of '%.*s': %" PRIu32 " %" PRIu32 " %" PRIu32, (int)name.n, (const char *)name.at, (int)path.n,
                (const char *)path.at, got.number, got.offset, got.size);
        fprintf(stderr, ", wanted %s %" PRIu32 " %" PRIu32 "\n", want.found ? "found" : "none", want.offset, want.size);
        fail("a lookup's answer is not the one that the request wants");
    }
    if (!alias_is_safe(&seen, at_hand->bytes, path)) {
        unsafe++;
        return;
    }
    running = "libfdt's lookup";
    int len = 0, node = fdt_path_offset_namelen(fdt, (const char *)path.at, (int)path.n);
    const uint8_t *value = node < 0 ? NULL : fdt_getprop_namelen(fdt, node, (const char *)name.at, (int)name.n, &len);
    if (value != NULL)
        other = (answer){true, (uint32_t)(value - fdt), (uint32_t)len};
    if (equal(want, other)) {
        *(want.found ? &both_find : &both_find_none) += 1;
        return;
    }
    unsigned reasons;
    if (!equal(lenient(&seen, at_hand->bytes, path, name, &reasons), other) || reasons == 0) {
        fprintf(stderr, "'%.*s' of '%.*s'\n", (int)name.n, (const char *)name.at, (int)path.n, (const char *)path.at);
        fail("libfdt's lookup differs in a way that is not known");
    }
    count(reasons, ASKS, ask_alone, ask_in_all);
}

typedef struct {
    size_t n;
    uint8_t at[2 * MOST];
} written;

static void put_behind(written *to, text t)
{
    memcpy(to->at + to->n, t.at, t.n);
    to->n += t.n;
}

static text plain(const char *t) { return (text){(const uint8_t *)t, strlen(t)}; }
static text of(const written *t) { return (text){t->at, t->n}; }

static void path_of(written *path, int n)
{
    if (seen.nodes[n].parent < 0)
        return;
    path_of(path, seen.nodes[n].parent);
    put_behind(path, plain("/"));
    put_behind(path, seen.nodes[n].name);
}

static text any_property(void) { return seen.properties[below((uint64_t)seen.n_properties)].name; }

/* One of the ways to ask for a node, or nearly so. A zero byte is behind it, for libfdt, which reads one of an empty path. */
static void make_path(written *path, int n, int way)
{
    path->n = 0;
    path_of(path, n);
    if (path->n == 0)
        put_behind(path, plain("/"));
    uint8_t *unit = memchr(path->at, '@', path->n);
    switch (way) {
    case 1:
        if (unit != NULL) { /* the first one left out */
            size_t at = (size_t)(unit - path->at), end = at;
            while (end < path->n && path->at[end] != '/')
                end++;
            memmove(path->at + at, path->at + end, path->n - end);
            path->n -= end - at;
        }
        break;
    case 2: put_behind(path, plain("/")); break;
    case 3: /* the first slash twice */
        memmove(path->at + 1, path->at, path->n);
        path->n++;
        break;
    case 4:
        path->n--;
        memmove(path->at, path->at + 1, path->n);
        break;
    case 5: path->n--; break;
    case 6: put_behind(path, plain("x")); break;
    case 7: put_behind(path, (text){(const uint8_t *)"", 1}); break;
    case 8: path->n = 0; break;
    case 9: /* perhaps an alias */
        path->n = 0;
        put_behind(path, any_property());
        if (below(2)) {
            put_behind(path, plain("/"));
            put_behind(path, seen.nodes[n].name);
        }
        break;
    case 10: /* perhaps a node below */
        put_behind(path, plain("/"));
        put_behind(path, seen.nodes[below((uint64_t)seen.n_nodes)].name);
        break;
    case 11: /* all slashes twice */
        for (size_t i = path->n; i-- > 0;)
            if (path->at[i] == '/') {
                memmove(path->at + i + 1, path->at + i, path->n - i);
                path->n++;
            }
        break;
    }
    path->at[path->n] = 0;
}

static void make_name(written *name, text t, int way)
{
    name->n = 0;
    put_behind(name, t);
    switch (way) {
    case 1: name->n = 0; break;
    case 2: name->n -= name->n > 0; break;
    case 3: put_behind(name, plain("x")); break;
    case 4: put_behind(name, (text){(const uint8_t *)"", 1}); break;
    case 5: /* its end */
        name->n -= name->n > 0;
        memmove(name->at, name->at + 1, name->n);
        break;
    }
    name->at[name->n] = 0;
}

static void ask_all(const uint8_t *lent, const uint8_t *fdt)
{
    static written path, name;
    for (int n = 0; n < seen.n_nodes; n++)
        for (int way = 0; way < WAYS_PATH; way++)
            for (int i = 0; i < seen.n_properties; i++) {
                make_path(&path, n, way);
                for (int other = 0; other < (way == 0 ? WAYS_NAME : 1); other++) {
                    make_name(&name, seen.properties[i].name, other);
                    ask(lent, fdt, of(&path), of(&name));
                }
            }
}

static void ask_a_few(const uint8_t *lent, const uint8_t *fdt)
{
    static written path, name;
    for (int i = 0; i < A_FEW && seen.n_properties > 0; i++) {
        const property *p = &seen.properties[below((uint64_t)seen.n_properties)];
        int n = below(4) > 0 ? p->node : (int)below((uint64_t)seen.n_nodes);
        make_path(&path, n, below(2) ? 0 : (int)below(WAYS_PATH));
        make_name(&name, p->name, below(3) > 0 ? 0 : (int)below(WAYS_NAME));
        ask(lent, fdt, of(&path), of(&name));
    }
}

static void take(const tree *t, bool all)
{
    at_hand = t;
    trees++;
    alarm(20);
    walk(&seen, t->bytes, t->len);
    const uint8_t *lent = put(of_library, t->bytes, t->len, 1);
    running = "the library";
    uint32_t number = tl_fdt_check(t->len == 0 ? NULL : lent, t->len);
    bool other = false, want = false;
    if (seen.left_out) {
        left_out++;
    } else {
        other = libfdt_accepts(t->bytes, t->len);
        want = other;
        if (seen.ended && seen.nops_at > 0 && !other)
            want = accepts_without_nops(t);
        want = want && seen.breaks == 0;
        if (other && !want)
            count(seen.breaks, BREAKS, alone, in_all);
        both_accept += other && want;
        both_refuse += !other && !want;
        nop_before_end += !other && want;
    }
    if (number != (want ? TL_ACCEPTED : TL_FDT)) {
        const char *said = seen.left_out ? "is not asked" : other ? "accepts" : "refuses";
        fprintf(stderr, "the library says %" PRIu32 ", libfdt %s", number, said);
        for (int k = 0; k < BREAKS; k++)
            if (seen.breaks >> k & 1)
                fprintf(stderr, "; %s", break_names[k]);
        fprintf(stderr, "\n");
        fail(want ? "a tree that the request accepts is refused" : "a tree that the request refuses is accepted");
    }
    if (!want) {
        tl_found got = find(lent, plain("/"), plain("model"));
        if (got.number != TL_FDT || got.offset != 0 || got.size != 0)
            fail("a lookup in a tree that is refused does not say 21");
    } else {
        const uint8_t *fdt = put(of_libfdt, t->bytes, t->len, 8);
        (all ? ask_all : ask_a_few)(lent, fdt);
    }
    if (memcmp(lent, t->bytes, t->len) != 0)
        fail("the library changed a byte");
}

static bool read_tree(tree *t, const char *name)
{
    FILE *f = fopen(name, "rb");
    if (f == NULL) {
        perror(name);
        return false;
    }
    t->len = fread(t->bytes, 1, MOST, f);
    bool whole = fgetc(f) == EOF;
    fclose(f);
    if (!whole)
        fprintf(stderr, "%s: too long for here\n", name);
    return whole;
}

/* False if a kind was never the only reason. */
static bool list(const char *const *names, const uint64_t *by_itself, const uint64_t *with_others, int n)
{
    bool complete = true;
    for (int k = 0; k < n; k++) {
        printf("    %-52s %9" PRIu64 " %9" PRIu64 "\n", names[k], by_itself[k], with_others[k]);
        complete = complete && by_itself[k] > 0;
    }
    return complete;
}

static bool report(void)
{
    uint64_t checks_differ = trees - left_out - both_accept - both_refuse - nop_before_end;
    uint64_t lookups_differ = lookups - both_find - both_find_none - unsafe;
    printf("%" PRIu64 " trees: both accept %" PRIu64 ", both refuse %" PRIu64 "\n", trees, both_accept, both_refuse);
    printf("  the library alone accepts %" PRIu64 ", with a NOP before END\n", nop_before_end);
    printf("  the library alone refuses %" PRIu64 "; for this reason alone, and with others:\n", checks_differ);
    bool complete = list(break_names, alone, in_all, BREAKS) && nop_before_end > 0;
    printf("  libfdt not asked %" PRIu64 ", the library refuses: a value's length of 2^31 or more, or a version under 16\n", left_out);
    printf("%" PRIu64 " lookups: both find %" PRIu64 ", both find none %" PRIu64 "\n", lookups, both_find, both_find_none);
    printf("  libfdt answers otherwise %" PRIu64 "; for this reason alone, and with others:\n", lookups_differ);
    complete = list(ask_names, ask_alone, ask_in_all, ASKS) && complete;
    printf("  libfdt not asked %" PRIu64 ", the library finds none: an alias that is no text, or of another alias\n", unsafe);
    return complete && both_accept > 0 && both_refuse > 0 && both_find > 0 && both_find_none > 0;
}

int main(int argc, char **argv)
{
    static tree good[32], other;
    int n = argc - 3;
    if (n < 1 || n > 32) {
        fprintf(stderr, "compare SEED TREES FILE..\n");
        return 2;
    }
    of_library = new_place();
    of_path = new_place();
    of_name = new_place();
    of_libfdt = new_place();
    signal(SIGSEGV, on_signal);
    signal(SIGBUS, on_signal);
    signal(SIGALRM, on_signal);
    seed(strtoull(argv[1], NULL, 0));
    for (int i = 0; i < n; i++) {
        from = argv[i + 3];
        if (!read_tree(&good[i], from))
            return 2;
        each_damage(&good[i], take);
    }
    for (uint64_t i = strtoull(argv[2], NULL, 0); i > 0; i--) {
        int k = (int)below((uint64_t)n);
        from = argv[k + 3];
        other.len = good[k].len;
        memcpy(other.bytes, good[k].bytes, other.len);
        what[0] = 0;
        uint64_t damages = below(4);
        if (below(2) && !edit(&other))
            continue;
        for (; damages > 0; damages--)
            damage(&other);
        take(&other, false);
    }
    if (!report()) {
        printf("a kind of difference was never seen alone: the damages do not reach it any more, or this libfdt is another than 1.6.1\n");
        return 1;
    }
    printf("no other difference\n");
    return 0;
}
