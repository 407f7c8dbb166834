/*
 * The boot of a test bench's controller, in four stages, each in its own area at its own address. Each stage checks the list that it is
 * handed, finds what it needs, edits, and relocates the list to the next; the second reads the device tree, the last one signs the valve's
 * test certificate. Run for several valves: one passes, one fails, and the certificate of one is refused; and once with a damaged tree in a
 * list that is good. Then again with one bit damaged at a time, where the stage must stop with the refusal's number and never go on with
 * anything older. Then with one bit of an entry's header damaged and the checksum right, where the refusal says which entry is bad.
 */
#include <stdio.h>
#include <string.h>

#include "bench_dtb.h"
#include "table.h"
#include "transfer_list.h"

enum { CALIBRATION = 0xfff001, TICKET = 0xfff002 };
enum { STAGES = 4, AREA_LEN = 1024, VALVES = 3, NUMBERS = TL_FDT + 1 };
enum { BAND = 1, CEILING = 2 };

/* What the bench does with a valve: the gate that it is to lift in, and what the gauge counted when it lifted. */
static const struct {
    uint32_t kind, counts;
    double low, high;
    const char *what;
} tests[VALVES + 1] = {{BAND, 4000, 880, 920, ""},
                       {BAND, 4000, 880, 920, "4000 counts, to lift between 880 and 920"},
                       {BAND, 4200, 880, 920, "4200 counts, to lift between 880 and 920"},
                       {CEILING, 4000, 880, 920, "4000 counts, to lift by 920, a low limit left in"}};

static uint64_t serial_of(int valve) { return 5500 + (uint64_t)valve; }
static uint64_t test_of(int valve) { return 70 + (uint64_t)valve; }

/* A stage's memory. The list starts at `shift` bytes into it: relocation keeps data aligned. */
typedef struct {
    const char *name;
    uint64_t base;
    uint32_t shift;
    uint8_t area[AREA_LEN];
} stage;

static stage stages[STAGES] = {
    {"loader", 0x10000, 0, {0}}, {"supervisor", 0x24008, 0, {0}}, {"bench", 0x38010, 0, {0}}, {"signer", 0x4c018, 0, {0}}};

/* The list of a stage: its bytes, their number, and their address. */
static uint8_t *list_of(stage *s) { return s->area + s->shift; }
static size_t length_of(const stage *s) { return AREA_LEN - s->shift; }
static uint64_t base_of(const stage *s) { return s->base + s->shift; }

static unsigned refusals[NUMBERS], verdicts[2]; /* how often each stopped a stage; how many certificates failed and passed */
static unsigned gauge_counts_to;                /* the full scale that the supervisor read */
static uint32_t last_number, last_at;           /* the refusal that stopped the last boot, and the place that it named; 0 where none did */
static unsigned misplaced;                      /* refusals other than ENTRY that named a place, or ENTRY without one */

/* Says that a stage stopped, and counts the refusal. Quiet in the damaged runs. */
static int stopped(const stage *s, uint32_t number, uint32_t at, int quiet)
{
    refusals[number]++;
    misplaced += (number == TL_ENTRY) != (at != 0);
    last_number = number;
    last_at = at;
    if (!quiet) {
        printf("  %-10s stops: ", s->name);
        print_refusal(number, at);
    }
    return 0;
}

static int add(stage *s, uint32_t tag, const void *data, size_t n, int quiet)
{
    tl_done d = tl_add(list_of(s), length_of(s), base_of(s), tag, data, n, true);
    return d.number == 0 || stopped(s, d.number, d.at, quiet);
}

/* Strikes out the one entry with a tag and puts new data in its place. */
static int replace(stage *s, uint32_t tag, const void *data, size_t n, int quiet)
{
    tl_done d = tl_void(list_of(s), length_of(s), base_of(s), tag, 0);
    if (d.number != 0)
        return stopped(s, d.number, d.at, quiet);
    return add(s, tag, data, n, quiet);
}

static int hand_over(stage *from, stage *to, int quiet)
{
    tl_done d = tl_relocate(list_of(from), length_of(from), base_of(from), to->area, AREA_LEN, to->base);
    if (d.number != 0)
        return stopped(from, d.number, d.at, quiet);
    to->shift = d.value;
    return 1;
}

static void line(const stage *s, const char *what, int quiet)
{
    tl_checked c = tl_check(s->area + s->shift, length_of(s), base_of(s));
    if (!quiet)
        printf("  %-10s at 0x%05llx: %-48s used %3u, %u live, %u void, checksum %02x\n", s->name, (unsigned long long)base_of(s), what,
               (unsigned)c.used, (unsigned)c.live, (unsigned)c.voids, s->area[s->shift + 4]);
}

static void put_number(uint8_t *to, uint64_t number, int width)
{
    for (int i = 0; i < width; i++)
        to[i] = (uint8_t)(number >> 8 * i);
}

static void put_float(uint8_t *to, double number)
{
    uint64_t bits;
    memcpy(&bits, &number, sizeof bits);
    put_number(to, bits, 8);
}

/* The 56 bytes of a valve's certificate. The calibration is the gauge's 16 bytes, gain and offset together. */
static void write_certificate(uint8_t to[56], int valve, const uint8_t *calibration)
{
    put_number(to, serial_of(valve), 8);
    put_number(to + 8, test_of(valve), 8);
    put_number(to + 16, tests[valve].kind, 4);
    put_number(to + 20, tests[valve].counts, 4);
    memcpy(to + 24, calibration, 16);
    put_float(to + 40, tests[valve].low);
    put_float(to + 48, tests[valve].high);
}

/* Stage 1: a new list with the device tree, the gauge's calibration, the last valve's ticket and its certificate. */
static int loader(stage *s, int valve, int quiet)
{
    static const uint8_t calibration[16] = {0, 0, 0, 0, 0, 0, 0xd0, 0x3f, 0, 0, 0, 0, 0, 0, 0x59, 0xc0}; /* gain 0.25, offset -100 */
    uint8_t certificate[56];
    char ticket[64];
    s->shift = 0;
    tl_done d = tl_create(s->area, AREA_LEN, s->base, true);
    if (d.number != 0)
        return stopped(s, d.number, d.at, quiet);
    d = tl_add_aligned(s->area, AREA_LEN, s->base, TL_TAG_FDT, bench_dtb, sizeof bench_dtb, 6);
    if (d.number != 0)
        return stopped(s, d.number, d.at, quiet);
    snprintf(ticket, sizeof ticket, "valve %d, relief, bench 2, north field", valve - 1);
    write_certificate(certificate, valve - 1, calibration);
    if (!add(s, CALIBRATION, calibration, sizeof calibration, quiet) || !add(s, TICKET, ticket, strlen(ticket), quiet)
        || !add(s, TL_TAG_CERTIFICATE, certificate, sizeof certificate, quiet))
        return 0;
    line(s, "list made, with the last ticket and certificate", quiet);
    return 1;
}

static tl_found full_scale(const uint8_t *tree, size_t n)
{
    return tl_fdt_find(tree, n, (const uint8_t *)"/gauge@10", 9, (const uint8_t *)"full-scale", 10);
}

/* Reads the bench's name and its gauge's full scale in the device tree, which the check of the list does not look into. */
static int read_tree(stage *s, int quiet)
{
    tl_found entry = tl_find(list_of(s), length_of(s), base_of(s), TL_TAG_FDT, 0);
    if (entry.number != 0)
        return stopped(s, entry.number, entry.at, quiet);
    const uint8_t *tree = tl_data(list_of(s), entry);
    uint32_t number = tl_fdt_check(tree, entry.size);
    if (number != 0)
        return stopped(s, number, 0, quiet);
    tl_found model = tl_fdt_find(tree, entry.size, (const uint8_t *)"/", 1, (const uint8_t *)"model", 5);
    if (model.number != 0)
        return stopped(s, model.number, model.at, quiet);
    tl_found scale = full_scale(tree, entry.size);
    if (scale.number != 0)
        return stopped(s, scale.number, scale.at, quiet);
    if (scale.size != 4) {
        if (!quiet)
            printf("  %-10s stops: the full scale has not 4 bytes\n", s->name);
        return 0;
    }
    gauge_counts_to = 0;
    for (int i = 0; i < 4; i++) /* highest byte first */
        gauge_counts_to = gauge_counts_to << 8 | tl_data(tree, scale)[i];
    if (!quiet)
        printf("  %-10s reads the device tree: %.*s, its gauge counts to %u\n", s->name, (int)model.size, (const char *)tl_data(tree, model),
               gauge_counts_to);
    return 1;
}

/* Stage 2: the old ticket struck out, a shorter one put in its place; the device tree read. */
static int supervisor(stage *s, int valve, int quiet)
{
    char ticket[32];
    snprintf(ticket, sizeof ticket, "valve %d", valve);
    if (!replace(s, TICKET, ticket, strlen(ticket), quiet) || !read_tree(s, quiet))
        return 0;
    line(s, "old ticket struck out, shorter one in its place", quiet);
    return 1;
}

/* Stage 3: finds ticket and calibration, and puts the valve's certificate in the place of the last one's. */
static int bench(stage *s, int valve, int quiet)
{
    uint8_t certificate[56];
    tl_found f = tl_find(list_of(s), length_of(s), base_of(s), TICKET, 0);
    if (f.number != 0)
        return stopped(s, f.number, f.at, quiet);
    f = tl_find(list_of(s), length_of(s), base_of(s), CALIBRATION, 0);
    if (f.number != 0)
        return stopped(s, f.number, f.at, quiet);
    if (f.size != 16) { /* gain and offset */
        if (!quiet)
            printf("  %-10s stops: the calibration has not 16 bytes\n", s->name);
        return 0;
    }
    write_certificate(certificate, valve, tl_data(list_of(s), f));
    if (!replace(s, TL_TAG_CERTIFICATE, certificate, sizeof certificate, quiet))
        return 0;
    line(s, tests[valve].what, quiet);
    return 1;
}

/* Stage 4: signs the certificate of this valve and test, as passed or as failed. Only the number says whether it is refused. */
static int signer(stage *s, int valve, int quiet)
{
    tl_found ticket = tl_find(list_of(s), length_of(s), base_of(s), TICKET, 0);
    if (ticket.number != 0)
        return stopped(s, ticket.number, ticket.at, quiet);
    tl_certified c = tl_certificate(list_of(s), length_of(s), base_of(s), serial_of(valve), test_of(valve));
    if (c.number != 0)
        return stopped(s, c.number, c.at, quiet);
    verdicts[c.pass]++;
    line(s, "certificate read and signed", quiet);
    if (!quiet)
        printf("  signed: %.*s, serial %u, test %u: lifts at %.1f, %s\n", (int)ticket.size, (const char *)tl_data(list_of(s), ticket),
               (unsigned)serial_of(valve), (unsigned)test_of(valve), c.reading, c.pass ? "PASSED" : "FAILED");
    return 1;
}

static int run_stage(int i, int valve, int quiet)
{
    switch (i) {
    case 0: return loader(&stages[0], valve, quiet);
    case 1: return supervisor(&stages[1], valve, quiet);
    case 2: return bench(&stages[2], valve, quiet);
    default: return signer(&stages[3], valve, quiet);
    }
}

/* One bit of the list that stage `at` is handed, changed before it starts; and whether the list's checksum is put right again. */
typedef struct {
    int at;
    uint32_t byte;
    uint8_t mask;
    bool mended;
} damage;

static const damage none = {STAGES, 0, 0, false}; /* there is no such stage */

static void flip(uint8_t *list, damage d)
{
    list[d.byte] ^= d.mask;
    if (d.mended)
        list[4] ^= d.mask; /* the checksum is an exclusive or */
}

/* All four stages for one valve, with one bit damaged on the way. */
static int boot(int valve, damage d, int quiet)
{
    last_number = last_at = 0;
    for (int i = 0; i < STAGES; i++) {
        if (i == d.at)
            flip(list_of(&stages[i]), d);
        if (!run_stage(i, valve, quiet))
            return 0;
        if (i + 1 < STAGES && !hand_over(&stages[i], &stages[i + 1], quiet))
            return 0;
    }
    return 1;
}

/* Hands the supervisor a good list with a damaged tree: one bit of the full scale's length, and the list's checksum put right again. */
static int damaged_tree(void)
{
    stage *s = &stages[1];
    if (!loader(&stages[0], 1, 1) || !hand_over(&stages[0], s, 1))
        return 0;
    uint8_t *list = list_of(s);
    tl_found entry = tl_find(list, length_of(s), base_of(s), TL_TAG_FDT, 0);
    tl_found scale = full_scale(list + entry.offset, entry.size);
    if (entry.number != 0 || scale.number != 0)
        return 0;
    flip(list, (damage){1, entry.offset + scale.offset - 8, 0x10, true}); /* length, name and value, in this order */
    return tl_check(list, length_of(s), base_of(s)).number == 0 && !supervisor(s, 1, 0) && refusals[TL_FDT] == 1;
}

/* How many bytes the list that stage `at` is handed has. The stage before it keeps that list. */
static uint32_t handed(int at, int valve)
{
    boot(valve, none, 1);
    return tl_check(list_of(&stages[at - 1]), length_of(&stages[at - 1]), base_of(&stages[at - 1])).used;
}

/* One bit of one used byte damaged, at each hand-over: no boot may go on. */
static int damaged_bits(void)
{
    unsigned tried = 0, went_on = 0;
    memset(refusals, 0, sizeof refusals);
    for (int at = 1; at < STAGES; at++) {
        uint32_t used = handed(at, 1);
        for (uint32_t byte = 0; byte < used; byte++)
            for (unsigned bit = 0; bit < 8; bit++, tried++)
                went_on += (unsigned)boot(1, (damage){at, byte, (uint8_t)(1u << bit), false}, 1);
    }
    printf("\none bit of one used byte damaged at each hand-over: %u boots, %u went on\n", tried, went_on);
    for (uint32_t n = 1; n < NUMBERS; n++)
        if (refusals[n] != 0)
            printf("  %6u stopped with %2u %-11s %s\n", refusals[n], (unsigned)n, refusal_name(n), refusal_cause(n));
    printf("one of them, in full: byte 8 of the list that the bench is handed\n");
    boot(1, (damage){2, 8, 0x10, false}, 0);
    return went_on == 0;
}

/* What can come of a boot in which a bit of an entry's hdr_size or data_size is damaged and the checksum is right. */
enum { HDR_SIZE_THERE, DATA_SIZE_THERE, ENTRY_BEHIND, OTHERWISE, WENT_ON, OUTCOMES };

static unsigned outcomes[AREA_LEN / 8][OUTCOMES]; /* by the offset of the damaged entry */

/* Bits 0 to 7 are those of hdr_size, 8 to 39 those of data_size. Says whether the boot ended as the rules have it. */
static int damaged_header(int at, uint32_t entry, unsigned bit)
{
    int went_on = boot(1, (damage){at, entry + 3 + bit / 8, (uint8_t)(1u << bit % 8), true}, 1);
    int there = last_number == TL_ENTRY && last_at == entry, behind = last_number == TL_ENTRY && last_at > entry;
    int outcome = there ? (bit < 8 ? HDR_SIZE_THERE : DATA_SIZE_THERE) : behind ? ENTRY_BEHIND : went_on ? WENT_ON : OTHERWISE;
    outcomes[entry / 8][outcome]++;
    return bit < 8 ? there : there || behind || last_number == 0 || last_number > TL_ENTRY;
}

static void print_outcome(const unsigned *o)
{
    printf("  %21u  %22u  %16u  %9u  %7u\n", o[HDR_SIZE_THERE], o[DATA_SIZE_THERE], o[ENTRY_BEHIND], o[OTHERWISE], o[WENT_ON]);
}

static void print_outcomes(void)
{
    unsigned all[OUTCOMES] = {0};
    printf("  entry at  hdr_size: ENTRY there  data_size: ENTRY there  ENTRY further on  otherwise  went on\n");
    for (unsigned i = 0; i < AREA_LEN / 8; i++) {
        unsigned boots = 0;
        for (int n = 0; n < OUTCOMES; n++) {
            boots += outcomes[i][n];
            all[n] += outcomes[i][n];
        }
        if (boots != 0) {
            printf("  %8u", 8 * i);
            print_outcome(outcomes[i]);
        }
    }
    printf("       all");
    print_outcome(all);
    printf("  further on: a wrong data_size led to bytes that are no entry; otherwise, went on: no rule of the list is broken\n");
}

/* One bit of an entry's hdr_size or data_size damaged, at each hand-over, and the checksum put right again. */
static int damaged_headers(void)
{
    unsigned tried = 0, right = 0;
    for (int at = 1; at < STAGES; at++) {
        uint32_t used = handed(at, 1);
        for (uint32_t entry = 24; entry < used; entry = next_entry(list_of(&stages[at - 1]), entry))
            for (unsigned bit = 0; bit < 40; bit++, tried++)
                right += (unsigned)damaged_header(at, entry, bit);
    }
    printf("\none bit of an entry's hdr_size or data_size damaged at each hand-over, and the checksum put right again: %u boots\n", tried);
    print_outcomes();

    stage *s = &stages[2];
    tl_found ticket = tl_find(list_of(&stages[1]), length_of(&stages[1]), base_of(&stages[1]), TICKET, 0);
    if (ticket.number != 0)
        return 0;
    printf("one of them, in full: byte 1 of the ticket's data_size in the list that the bench is handed\n");
    boot(1, (damage){2, ticket.offset - 3, 0x01, true}, 0);
    printf("what the bench was handed:\n  ");
    return print_list(list_of(s), length_of(s), base_of(s)) == TL_ENTRY && last_at == ticket.offset - 8 && right == tried;
}

int main(void)
{
    for (int valve = 1; valve <= VALVES; valve++) {
        printf("valve %d\n", valve);
        boot(valve, none, 0);
        if (valve == 1) {
            printf("\nwhat the signer was handed:\n  ");
            print_list(list_of(&stages[3]), length_of(&stages[3]), base_of(&stages[3]));
            printf("\n");
        }
    }
    printf("its certificate asked for before the bench has put it in, while the list has the last valve's\n");
    signer(&stages[1], VALVES, 0);
    printf("one bit of the device tree damaged, in a length, and the list's checksum put right again\n");
    int right = damaged_tree() && gauge_counts_to == 8000 && verdicts[1] == 1 && verdicts[0] == 1 && refusals[TL_CONTENTS] == 1
        && refusals[TL_IDENTITY] == 1;
    right &= damaged_bits();
    right &= damaged_headers();
    return right && misplaced == 0 ? 0 : 1;
}
