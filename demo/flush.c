/*
 * An edit in memory that must survive a power cut and stands behind a cache: it is made in steps, and after each step what was stored is
 * flushed. `finish` is the loop; it serves each edit with a journal, and the recovery. The rest tries it: a cache and a memory behind it are
 * two copies of both buffers, and the power is cut after each number of stores. Then the same without the flush, which shows what it is for.
 */
#include <stdio.h>
#include <string.h>

#include "transfer_list.h"

enum { TICKET = 0xfff002, LINE = 64 };
#define BASE 0x24000u
#define JOURNAL_LEN (16 * (4 + (sizeof ticket - 1 + 7) / 8)) /* what adding the ticket takes at most; striking it out takes less */

static const char ticket[] = "valve 0, relief, bench 2, north field";

/* Each buffer is some whole lines of the cache. */
typedef struct {
    uint8_t area[128], journal[(JOURNAL_LEN + LINE - 1) / LINE * LINE];
} buffers;

static buffers cache, memory; /* what the processor sees, and what is still there after a cut */
static unsigned flushes_left; /* the power is cut after so many */
static bool flushing;

/*
 * Here is the platform's own: it returns when the byte stored last is in the memory itself. On x86-64 that is clwb or clflushopt of its line
 * and then sfence, on 64-bit Arm dc cvap (dc cvac where that reaches the memory) and then dsb; where no cache is, nothing. A step stores one
 * byte, so one line of the two buffers is to be flushed; whoever does not look which flushes both. Here the memory becomes what the cache is,
 * until the power is cut.
 */
static void flush(void)
{
    if (flushing && flushes_left > 0) {
        flushes_left--;
        memory = cache;
    }
}

/* The loop: from what was decided to the answer. data is that of an add; of a void and of a recovery it is NULL, and n is 0. */
static tl_done finish(tl_stepped s, const uint8_t *data, size_t n)
{
    while (s.ended == 0) {
        s = tl_step(s.state, cache.area, sizeof cache.area, data, n, cache.journal, JOURNAL_LEN);
        flush();
    }
    return s.done;
}

static tl_done strike_out(void)
{
    return finish(tl_void_steps(cache.area, sizeof cache.area, BASE, TICKET, 0, cache.journal, JOURNAL_LEN), NULL, 0);
}

static tl_done recover(void)
{
    return finish(tl_recover_steps(cache.area, sizeof cache.area, cache.journal, JOURNAL_LEN), NULL, 0);
}

static buffers old, new; /* before the ticket is struck out, and afterwards */

/* The next boot: the cache is lost, and the memory is read and recovered. 0 for the old list, 1 for the new one, 2 for neither. */
static int next_boot(void)
{
    cache = memory;
    recover();
    return memcmp(cache.area, old.area, sizeof cache.area) == 0 ? 0 : memcmp(cache.area, new.area, sizeof cache.area) == 0 ? 1 : 2;
}

/* How many stores the edit has. */
static unsigned stores(void)
{
    cache = memory = old;
    flushing = true;
    flushes_left = ~0u;
    strike_out();
    return ~0u - flushes_left;
}

static void print_sides(const char *what, const unsigned sides[3])
{
    printf("  %-80s %5u old, %5u new, %5u neither\n", what, sides[0], sides[1], sides[2]);
}

/* After so many stores the power is cut: everything that was stored is in the memory, and nothing else. */
static void with_flush(unsigned all, unsigned sides[3])
{
    for (unsigned cut = 0; cut <= all; cut++) {
        cache = memory = old;
        flushing = true;
        flushes_left = cut;
        strike_out();
        flushing = false;
        sides[next_boot()]++;
    }
}

/* The same, but only one line, whichever the cache chose, had been written back to the memory when the power was cut. */
static void without_flush(unsigned all, unsigned sides[3])
{
    for (unsigned cut = 0; cut <= all; cut++) {
        cache = memory = old;
        flushing = true;
        flushes_left = cut;
        strike_out();
        flushing = false;
        const buffers stored = memory;
        for (size_t at = 0; at < sizeof(buffers); at += LINE) {
            memory = old;
            memcpy((uint8_t *)&memory + at, (const uint8_t *)&stored + at, LINE);
            sides[next_boot()]++;
        }
    }
}

int main(void)
{
    const uint8_t *data = (const uint8_t *)ticket;
    size_t n = sizeof ticket - 1;
    unsigned with[3] = {0}, without[3] = {0};
    tl_done made = tl_create(cache.area, sizeof cache.area, BASE, true);
    tl_done added = finish(tl_add_steps(cache.area, sizeof cache.area, BASE, TICKET, data, n, true, cache.journal, JOURNAL_LEN), data, n);
    old = cache;
    tl_done struck = strike_out();
    new = cache;
    unsigned all = stores();
    printf("a ticket struck out in %u steps, in memory behind a cache, and the power cut after each number of them\n", all);
    with_flush(all, with);
    print_sides("a flush after each step:", with);
    without_flush(all, without);
    print_sides("no flush, and one line of 64 bytes, whichever, written back before the cut:", without);
    printf("  so flush after each step: what is proved is the order of the stores, which a cache need not keep\n\n");
    bool right = made.number == 0 && added.number == 0 && struck.number == 0 && with[2] == 0 && with[0] + with[1] == all + 1;
    return right && without[2] > 0 ? 0 : 1;
}
