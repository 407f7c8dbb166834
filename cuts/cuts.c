/*
 * The compiled calls with a journal, one instruction at a time: `make cuts`. A child makes the whole call on buffers that it shares with this
 * program, which single-steps it (ptrace) and looks at both buffers after each instruction. Wherever a byte has changed, the power could have
 * been cut: a copy of both buffers is recovered, and must then be exactly the old area, or the new one if the commit's kind has been stored.
 * An instruction that changed several bytes is also taken to have been cut in between, some of them stored and some not. tl_recover() is
 * run in the same way, from what cuts of the edits left.
 *
 * The status is 0 if every recovery gave the right area and no store was moved across the commit's kind, 1 if not, and 2 if ptrace is not
 * permitted here.
 */
#define _GNU_SOURCE
#include <errno.h>
#include <signal.h>
#include <stdio.h>
#include <stdlib.h>
#include <string.h>
#include <sys/mman.h>
#include <sys/ptrace.h>
#include <sys/types.h>
#include <sys/wait.h>
#include <unistd.h>

#include "transfer_list.h"

#define BASE 0x1000u
enum { AREA_MOST = 256, JOURNAL_MOST = 512, STORES_MOST = 1024 };

/* What a cut leaves. */
typedef struct {
    uint8_t area[AREA_MOST], journal[JOURNAL_MOST];
} buffers;

/* What the child shares with its parent. */
typedef struct {
    buffers lent;
    volatile int calling; /* 1 from before the call until after it */
    tl_done done;
} shared;

/* A call, and how many bytes are lent to it. */
typedef struct {
    const char *name;
    enum { ADD, ADD_ALIGNED, STRIKE, RECOVER } what;
    size_t len, journal_len;
    size_t n; /* of an add, how many bytes of data */
    bool use_voids;
    uint32_t exponent;
} call;

enum { TAG = 0xfff002, OTHER_TAG = 0xfff003 };

static shared *common;
static const uint8_t data[64] = "valve 0, relief, bench 2, north field, third row, second shelf";

static tl_done whole(const call *c, buffers *b)
{
    switch (c->what) {
    case ADD: return tl_add_journalled(b->area, c->len, BASE, OTHER_TAG, data, c->n, c->use_voids, b->journal, c->journal_len);
    case ADD_ALIGNED:
        return tl_add_aligned_journalled(b->area, c->len, BASE, OTHER_TAG, data, c->n, c->exponent, b->journal, c->journal_len);
    case STRIKE: return tl_void_journalled(b->area, c->len, BASE, TAG, 0, b->journal, c->journal_len);
    default: return tl_recover(b->area, c->len, b->journal, c->journal_len);
    }
}

static tl_stepped decide(const call *c, const buffers *b)
{
    switch (c->what) {
    case ADD: return tl_add_steps(b->area, c->len, BASE, OTHER_TAG, data, c->n, c->use_voids, b->journal, c->journal_len);
    case ADD_ALIGNED: return tl_add_aligned_steps(b->area, c->len, BASE, OTHER_TAG, data, c->n, c->exponent, b->journal, c->journal_len);
    case STRIKE: return tl_void_steps(b->area, c->len, BASE, TAG, 0, b->journal, c->journal_len);
    default: return tl_recover_steps(b->area, c->len, b->journal, c->journal_len);
    }
}

/* The plain call, whose area an edit must leave. */
static tl_done plain(const call *c, uint8_t *area)
{
    switch (c->what) {
    case ADD: return tl_add(area, c->len, BASE, OTHER_TAG, data, c->n, c->use_voids);
    case ADD_ALIGNED: return tl_add_aligned(area, c->len, BASE, OTHER_TAG, data, c->n, c->exponent);
    default: return tl_void(area, c->len, BASE, TAG, 0);
    }
}

/* What a call is judged by, and what was seen of it. */
typedef struct {
    buffers given;                          /* both buffers before the call */
    uint8_t old[AREA_MOST], new[AREA_MOST]; /* the areas that a recovery may give */
    size_t commit_at;                       /* where the commit's kind is in the journal */
    bool committed;                         /* it has been stored */
    buffers steps[STORES_MOST + 1];         /* both buffers after each number of steps */
    unsigned stores, changing, reached;     /* how many steps; how many of them change a byte; up to which one was seen */
    unsigned instructions, seen, joined, out_of_order, across, old_given, new_given, torn, wrong; /* the columns of the report */
} judgement;

static size_t changed_words(const uint8_t *old, const uint8_t *new, size_t len)
{
    size_t words = 0;
    for (size_t at = 0; at + 8 <= len; at += 8)
        words += memcmp(old + at, new + at, 8) != 0;
    return words;
}

/* Recovers a copy, which must be the old area, or the new one. */
static bool recovers(const call *c, const judgement *j, const buffers *left, bool committed)
{
    buffers b = *left;
    tl_done d = tl_recover(b.area, c->len, b.journal, c->journal_len);
    bool cleared = true;
    for (size_t at = 0; at + 16 <= c->journal_len; at += 16)
        cleared &= b.journal[at] == 0;
    return d.number == 0 && cleared && memcmp(b.area, committed ? j->new : j->old, AREA_MOST) == 0;
}

static size_t changes(const buffers *before, const buffers *after, size_t at[sizeof(buffers)])
{
    size_t n = 0;
    for (size_t i = 0; i < sizeof(buffers); i++)
        if (((const uint8_t *)before)[i] != ((const uint8_t *)after)[i])
            at[n++] = i;
    return n;
}

/* One instruction changed n bytes; here only those were stored whose bit is set, counted from the first. */
static void tear(const call *c, judgement *j, const buffers *before, const buffers *after, const size_t *at, size_t n, uint64_t stored)
{
    buffers b = *before;
    for (size_t i = 0; i < n && i < 64; i++)
        if (stored >> i & 1)
            ((uint8_t *)&b)[at[i]] = ((const uint8_t *)after)[at[i]];
    j->torn++;
    j->wrong += !recovers(c, j, &b, j->committed || b.journal[j->commit_at] == 2);
}

/* Every choice of up to eight bytes; of more, the first or the last so many, or one alone. */
static void tear_everywhere(const call *c, judgement *j, const buffers *before, const buffers *after, const size_t *at, size_t n)
{
    if (n <= 8) {
        for (uint64_t stored = 1; stored + 1 < (uint64_t)1 << n; stored++)
            tear(c, j, before, after, at, n, stored);
        return;
    }
    for (size_t i = 1; i < n && i < 64; i++) {
        uint64_t first = ((uint64_t)1 << i) - 1;
        tear(c, j, before, after, at, n, first);
        tear(c, j, before, after, at, n, ~first);
        tear(c, j, before, after, at, n, (uint64_t)1 << i);
    }
}

/* Whether a byte that changed is on the wrong side of the commit's kind: the words in the area belong behind it, the records before it. */
static bool is_across(const judgement *j, const buffers *after, size_t at)
{
    bool in_area = at < AREA_MOST, committed = j->committed || after->journal[j->commit_at] == 2;
    size_t in_journal = at - AREA_MOST;
    if (in_area)
        return !committed;
    return j->committed && (in_journal % 16 != 0 || after->journal[in_journal] != 0);
}

/* After an instruction at which a byte changed. */
static void judge(const call *c, judgement *j, const buffers *before, const buffers *after)
{
    size_t at[sizeof(buffers)], n = changes(before, after, at);
    j->seen++;
    j->joined += n > 1;
    for (size_t i = 0; i < n; i++)
        j->across += is_across(j, after, at[i]);
    if (n > 1)
        tear_everywhere(c, j, before, after, at, n);
    j->committed |= after->journal[j->commit_at] == 2;
    j->old_given += !j->committed;
    j->new_given += j->committed;
    j->wrong += !recovers(c, j, after, j->committed);
    unsigned step = j->reached;
    while (step <= j->stores && memcmp(&j->steps[step], after, sizeof *after) != 0)
        step++;
    if (step > j->stores)
        j->out_of_order++;
    else
        j->reached = step;
}

static void not_permitted(const char *what)
{
    fprintf(stderr, "cuts: %s: %s\n", what, strerror(errno));
    fprintf(stderr, "cuts: this program single-steps a child with ptrace, which is not permitted here. In a container, allow it\n");
    fprintf(stderr, "cuts: (for instance docker run --cap-add=SYS_PTRACE); nothing has been shown.\n");
    exit(2);
}

static void give_up(pid_t pid, const char *what)
{
    int cause = errno;
    kill(pid, SIGKILL);
    waitpid(pid, NULL, 0);
    errno = cause;
    not_permitted(what);
}

static void child(const call *c)
{
    if (ptrace(PTRACE_TRACEME, 0, NULL, NULL) == -1)
        _exit(2);
    raise(SIGSTOP);
    common->calling = 1;
    tl_done d = whole(c, &common->lent);
    common->calling = 0;
    common->done = d;
    _exit(0);
}

/* Waits for the child's next stop; says whether it has stopped, and not ended. */
static bool stopped(pid_t pid, int *status)
{
    if (waitpid(pid, status, 0) != pid)
        give_up(pid, "waitpid");
    return WIFSTOPPED(*status);
}

/* Runs the call in a child. Whether it ended as it should, with this answer. */
static bool single_step(const call *c, judgement *j, tl_done *done)
{
    int status;
    bool started = false;
    buffers before = j->given;
    common->lent = j->given;
    common->calling = 0;
    fflush(stdout);
    pid_t pid = fork();
    if (pid == -1)
        not_permitted("fork");
    if (pid == 0)
        child(c);
    if (!stopped(pid, &status)) {
        errno = EPERM;
        not_permitted("PTRACE_TRACEME");
    }
    while (!started || common->calling) {
        if (ptrace(PTRACE_SINGLESTEP, pid, NULL, NULL) == -1)
            give_up(pid, "PTRACE_SINGLESTEP");
        if (!stopped(pid, &status) || WSTOPSIG(status) != SIGTRAP) {
            kill(pid, SIGKILL);
            waitpid(pid, &status, 0);
            return false;
        }
        started |= common->calling;
        j->instructions += started;
        if (memcmp(&before, &common->lent, sizeof before) != 0) {
            const buffers after = common->lent;
            judge(c, j, &before, &after);
            before = after;
        }
    }
    if (ptrace(PTRACE_CONT, pid, NULL, NULL) == -1)
        give_up(pid, "PTRACE_CONT");
    if (stopped(pid, &status) || !WIFEXITED(status) || WEXITSTATUS(status) != 0)
        return false;
    *done = common->done;
    return true;
}

/* The same in steps, in this program: both buffers after each store, and the answer. */
static tl_done in_steps(const call *c, judgement *j)
{
    buffers b = j->given;
    tl_stepped s = decide(c, &b);
    const uint8_t *lent = c->n == 0 ? NULL : data;
    j->steps[0] = b;
    for (j->stores = 0; s.ended == 0 && j->stores < STORES_MOST; j->stores++) {
        s = tl_step(s.state, b.area, c->len, lent, c->n, b.journal, c->journal_len);
        j->changing += memcmp(&j->steps[j->stores], &b, sizeof b) != 0;
        j->steps[j->stores + 1] = b;
    }
    return s.done;
}

static void head(void)
{
    printf("%-58s %8s  %6s  %8s  %5s  %6s  %8s  %6s  %5s  %5s  %5s  %5s\n", "", "instruc-", "", "that", "", "", "out of", "across", "old", "new",
           "", "");
    printf("%-58s %8s  %6s  %8s  %5s  %6s  %8s  %6s  %5s  %5s  %5s  %5s\n", "the call", "tions", "stores", "change", "seen", "joined", "order",
           "commit", "area", "area", "torn", "wrong");
}

static unsigned calls, failures, all_seen, all_joined, all_torn;

static void report(const call *c, const judgement *j, bool right)
{
    if (calls++ == 0)
        head();
    failures += !right;
    all_seen += j->seen;
    all_joined += j->joined;
    all_torn += j->torn;
    printf("%-58s %8u  %6u  %8u  %5u  %6u  %8u  %6u  %5u  %5u  %5u  %5u%s\n", c->name, j->instructions, j->stores, j->changing, j->seen, j->joined,
           j->out_of_order, j->across, j->old_given, j->new_given, j->torn, j->wrong, right ? "" : "  FAILED");
}

/* A call from the buffers given: the old and the new area are known, and where the commit's kind is. */
static void run(const call *c, judgement *j, size_t stores)
{
    tl_done whole_done = {0, 0, 0}, step_done = in_steps(c, j);
    bool ended = single_step(c, j, &whole_done);
    bool right = ended && j->stores == stores && whole_done.number == 0 && whole_done.number == step_done.number && whole_done.value == step_done.value
        && memcmp(&common->lent, &j->steps[j->stores], sizeof common->lent) == 0 && j->wrong == 0 && j->across == 0;
    report(c, j, right);
}

/* tl_recover() from what is left of an edit after so many of its stores. */
static void run_recovery(const call *edit, const judgement *from, unsigned stores, const char *name)
{
    static judgement j;
    memset(&j, 0, sizeof j);
    call c = *edit;
    c.name = name;
    c.what = RECOVER;
    c.n = 0;
    j.given = from->steps[stores];
    memcpy(j.old, from->old, AREA_MOST);
    memcpy(j.new, from->new, AREA_MOST);
    j.commit_at = from->commit_at;
    size_t words = from->commit_at / 16;
    j.committed = stores >= 16 * (words + 1);
    bool applies = j.committed && stores <= 16 * (words + 1) + 8 * words;
    run(&c, &j, (applies ? 8 * words : 0) + c.journal_len / 16);
}

/* An edit, by the rule with 16 (w + 1) + 8 w + R stores, and recoveries from what four of its cuts leave. */
static void run_edit(const call *c, const buffers *given)
{
    static judgement j;
    memset(&j, 0, sizeof j);
    j.given = *given;
    memcpy(j.old, given->area, AREA_MOST);
    memcpy(j.new, given->area, AREA_MOST);
    tl_done d = plain(c, j.new);
    size_t words = changed_words(j.old, j.new, c->len), records = c->journal_len / 16, commit = 16 * (words + 1);
    if (d.number != 0 || words + 1 > records) {
        fprintf(stderr, "cuts: %s is refused\n", c->name);
        exit(1);
    }
    j.commit_at = 16 * words;
    run(c, &j, commit + 8 * words + records);
    run_recovery(c, &j, (unsigned)(commit - 1), "  tl_recover, cut before the commit's kind");
    run_recovery(c, &j, (unsigned)commit, "  tl_recover, cut behind it");
    run_recovery(c, &j, (unsigned)(commit + 4 * words), "  tl_recover, half of the words applied");
    run_recovery(c, &j, (unsigned)(commit + 8 * words + 1), "  tl_recover, one kind cleared");
}

/* A journal with every kind 0, and other bytes that no edit here stores, so that every store in it but 0 over 0 is seen. */
static void clear_journal(buffers *b, size_t journal_len)
{
    memset(b->journal, 0xee, JOURNAL_MOST);
    for (size_t at = 0; at + 16 <= journal_len; at += 16)
        b->journal[at] = 0;
}

/* A new list; the bytes behind it are not 0. */
static void make_list(buffers *b, size_t len, bool has_checksum)
{
    memset(b->area, 0xee, AREA_MOST);
    tl_create(b->area, len, BASE, has_checksum);
    memset(b->area + 24, 0xee, len - 24);
}

static void put_entry(buffers *b, size_t len, uint32_t tag, size_t n)
{
    tl_add(b->area, len, BASE, tag, data, n, false);
}

/* An edit of a list with one entry of so many bytes, or none if that is negative; if it is struck out before, with another behind it. */
static void try_edit(const call *c, bool has_checksum, int entry, bool struck)
{
    static buffers b;
    make_list(&b, c->len, has_checksum);
    if (entry >= 0)
        put_entry(&b, c->len, TAG, (size_t)entry);
    if (struck) {
        put_entry(&b, c->len, OTHER_TAG, 8);
        tl_void(b.area, c->len, BASE, TAG, 0);
    }
    clear_journal(&b, c->journal_len);
    run_edit(c, &b);
}

static void try_edits(void)
{
    static const call at_end = {"tl_add_journalled, at the end, 3 bytes, 5 records", ADD, 64, 80, 3, false, 0};
    static const call long_add = {"tl_add_journalled, at the end, 64 bytes, 14 records", ADD, 203, 231, 64, false, 0};
    static const call into_void = {"tl_add_journalled, into a void, with a void behind", ADD, 160, 112, 9, true, 0};
    static const call aligned = {"tl_add_aligned_journalled, with padding", ADD_ALIGNED, 200, 256, 12, false, 6};
    static const call strike = {"tl_void_journalled, 37 bytes", STRIKE, 128, 144, 0, false, 0};
    static const call one_word = {"tl_void_journalled, one word, no checksum, 2 records", STRIKE, 64, 32, 0, false, 0};
    try_edit(&at_end, true, -1, false);
    try_edit(&long_add, true, 20, false);
    try_edit(&into_void, true, 37, true);
    try_edit(&aligned, true, 8, false);
    try_edit(&strike, true, 37, false);
    try_edit(&one_word, false, 0, false);
}

int main(void)
{
    common = mmap(NULL, sizeof *common, PROT_READ | PROT_WRITE, MAP_SHARED | MAP_ANONYMOUS, -1, 0);
    if (common == MAP_FAILED) {
        perror("cuts: mmap");
        return 1;
    }
    try_edits();
    printf("\nstores: those of the rule, of one byte each; change: those that change their byte, which alone can be seen; seen: instructions\n"
           "after which a byte had changed, each taken for a cut and recovered; joined: those at which several had; out of order: seen, but\n"
           "not what any number of steps leaves; across commit: bytes on the wrong side of the commit's kind; old area, new area: what the\n"
           "recoveries had to give; torn: parts of a joined store, recovered too; wrong: recoveries that gave anything else\n");
    printf("%u calls: %u cuts and %u torn stores recovered, %u stores joined, %u calls FAILED\n", calls, all_seen, all_torn, all_joined, failures);
    printf("This shows the order of the stores in this archive's machine code. It cannot show in which order a cache writes them back to the\n"
           "memory behind it: for such memory step, and flush after each step (demo/flush.c).\n");
    return failures == 0 ? 0 : 1;
}
