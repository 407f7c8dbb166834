/*
 * The supervisor's list is in memory with a battery, and the breaker trips while it strikes out the ticket. It does so in steps, with a
 * journal in the same memory, and the next boot recovers before it reads anything. Shown for some of the stores; then one night in full, on
 * which the breaker trips in the recovery too; then every store is tried, with the recovery cut at every store as well.
 */
#include <stdio.h>
#include <string.h>

#include "table.h"
#include "transfer_list.h"

enum { CALIBRATION = 0xfff001, TICKET = 0xfff002 };
#define BASE 0x24000u
#define JOURNAL_LEN (16 * (3 + (sizeof ticket - 1 + 7) / 8)) /* what striking out the ticket takes at most */
#define RECORDS (JOURNAL_LEN / 16)

static const char ticket[] = "valve 0, relief, bench 2, north field";

/* What has a battery. */
typedef struct {
    uint8_t area[128], journal[JOURNAL_LEN];
} memory;

static memory old, new; /* before the ticket is struck out, and afterwards */

/* Where the last store went. */
typedef struct {
    const char *buffer;
    size_t at;
} place;

static tl_stepped decide_strike(const memory *m)
{
    return tl_void_steps(m->area, sizeof m->area, BASE, TICKET, 0, m->journal, sizeof m->journal);
}

static tl_stepped decide_recovery(const memory *m)
{
    return tl_recover_steps(m->area, sizeof m->area, m->journal, sizeof m->journal);
}

/* Makes the stores of what was decided until the breaker trips, after so many of them, or the end comes. Says how many were made. */
static unsigned step(memory *m, tl_stepped s, unsigned most)
{
    unsigned made = 0;
    for (; s.ended == 0 && made < most; made++)
        s = tl_step(s.state, m->area, sizeof m->area, NULL, 0, m->journal, sizeof m->journal);
    return made;
}

/* The memory in which striking the ticket out was cut after so many stores. */
static memory cut_after(unsigned stores)
{
    memory m = old;
    step(&m, decide_strike(&m), stores);
    return m;
}

/* Whether the commit stands in the journal, and the words before it. */
static bool committed(const memory *m)
{
    size_t i = 0;
    while (i < RECORDS && m->journal[16 * i] == 1)
        i++;
    return i < RECORDS && m->journal[16 * i] == 2;
}

/* The number of the store that is the commit's kind. */
static unsigned commit_of(unsigned all)
{
    unsigned stores = 0;
    memory m = old;
    while (stores <= all && !committed(&m))
        m = cut_after(++stores);
    return stores;
}

/* Which byte store number n goes to, seen in the rule of the header: w words, then the commit, then the words, then the kinds. */
static place place_of(unsigned n, unsigned commit)
{
    unsigned words = commit / 16 - 1;
    memory full = cut_after(commit);
    if (n == 0)
        return (place){"", 0};
    if (n <= commit)
        return (place){"journal", (n - 1) / 16 * 16 + n % 16};
    if (n <= commit + 8 * words) {
        unsigned i = n - commit - 1;
        const uint8_t *record = full.journal + 16 * (i / 8);
        return (place){"area", record[4] + 256u * record[5] + i % 8};
    }
    return (place){"journal", 16 * (n - commit - 8 * words - 1)};
}

enum { OLD, NEW, NEITHER, SIDES };
static const char *const side_names[] = {"the old list, with the ticket", "the new list, without it", "NEITHER"};

/* The next boot: it recovers before anything else. */
static int recovered(memory *m)
{
    tl_done d = tl_recover(m->area, sizeof m->area, m->journal, sizeof m->journal);
    bool is_old = memcmp(m->area, old.area, sizeof m->area) == 0, is_new = memcmp(m->area, new.area, sizeof m->area) == 0;
    return d.number != 0 ? NEITHER : is_old ? OLD : is_new ? NEW : NEITHER;
}

static void print_row(unsigned n, unsigned commit, unsigned all)
{
    memory m = cut_after(n);
    place p = place_of(n, commit);
    tl_checked c = tl_check(m.area, sizeof m.area, BASE);
    const char *side = n < commit ? "before it" : n == commit ? "this is it" : n < all ? "behind it" : "all is done";
    char where[32] = "none yet", list[32] = "accepted";
    if (n > 0)
        snprintf(where, sizeof where, "%s byte %zu", p.buffer, p.at);
    if (c.number != 0)
        snprintf(list, sizeof list, "refused %u %s", (unsigned)c.number, refusal_name(c.number));
    printf("  %5u  %-16s  %-11s  %-18s  %s\n", n, where, side, list, side_names[recovered(&m)]);
}

/* The breaker trips at every store; and at every store of the recovery as well, which is then made again. */
static void every_store(unsigned all, unsigned once[SIDES], unsigned twice[SIDES])
{
    for (unsigned cut = 0; cut <= all; cut++) {
        const memory left = cut_after(cut);
        memory m = left;
        unsigned recovery = step(&m, decide_recovery(&m), ~0u);
        m = left;
        once[recovered(&m)]++;
        for (unsigned again = 0; again <= recovery; again++) {
            m = left;
            step(&m, decide_recovery(&m), again);
            twice[recovered(&m)]++;
        }
    }
}

static bool has_ticket(const memory *m)
{
    return tl_find(m->area, sizeof m->area, BASE, TICKET, 0).number == 0;
}

/* One night: the breaker trips in the middle of the words, and once more in the recovery at the next boot. */
static int one_night(unsigned commit, unsigned all)
{
    memory m = old;
    printf("\none night in full: the list before\n  ");
    print_list(m.area, sizeof m.area, BASE);
    unsigned made = step(&m, decide_strike(&m), commit + 20);
    printf("the breaker trips after store %u of %u, behind the commit, and the list that stands there is no good:\n  ", made, all);
    uint32_t number = print_list(m.area, sizeof m.area, BASE);
    made = step(&m, decide_recovery(&m), 30);
    printf("the next boot recovers, and the breaker trips again, after %u stores of the recovery\n", made);
    tl_done d = tl_recover(m.area, sizeof m.area, m.journal, sizeof m.journal);
    printf("the boot after that recovers to the end: number %u; the ticket is struck out, as it was to be:\n  ", (unsigned)d.number);
    print_list(m.area, sizeof m.area, BASE);
    return number == TL_CHECKSUM && d.number == 0 && !has_ticket(&m) && memcmp(m.area, new.area, sizeof m.area) == 0;
}

int main(void)
{
    static const uint8_t calibration[16] = {0, 0, 0, 0, 0, 0, 0xd0, 0x3f, 0, 0, 0, 0, 0, 0, 0x59, 0xc0};
    unsigned once[SIDES] = {0}, twice[SIDES] = {0};
    tl_done made = tl_create(old.area, sizeof old.area, BASE, true);
    tl_done first = tl_add(old.area, sizeof old.area, BASE, CALIBRATION, calibration, sizeof calibration, false);
    tl_done second = tl_add(old.area, sizeof old.area, BASE, TICKET, (const uint8_t *)ticket, sizeof ticket - 1, false);
    new = old;
    unsigned all = step(&new, decide_strike(&new), ~0u), commit = commit_of(all);
    printf("striking out the ticket, with a journal of %u records: %u stores, the commit is number %u\n", (unsigned)RECORDS, all, commit);
    printf("  store  went to           the commit   the list by then    the next boot recovers\n");
    const unsigned rows[] = {0, 40, commit - 1, commit, commit + 5, commit + 20, all - RECORDS, all - RECORDS + 1, all};
    for (size_t i = 0; i < sizeof rows / sizeof *rows; i++)
        print_row(rows[i], commit, all);
    int right = one_night(commit, all);
    every_store(all, once, twice);
    printf("\nthe breaker trips after 0 to %u stores:  %5u times the old list, %5u times the new one, %u times another\n", all, once[OLD], once[NEW],
           once[NEITHER]);
    printf("and in the recovery, after each store: %6u times the old list, %5u times the new one, %u times another\n\n", twice[OLD], twice[NEW],
           twice[NEITHER]);
    right &= made.number == 0 && first.number == 0 && second.number == 0 && has_ticket(&old) && !has_ticket(&new);
    return right && once[OLD] == commit && once[NEW] == all + 1 - commit && twice[OLD] > 0 && twice[NEW] > 0 && twice[NEITHER] == 0 ? 0 : 1;
}
