/*
 * The paper's examples A to N (it has no L) and every refusal, through the header alone. For each call every field of the answer is
 * printed, how many bytes changed, and the bytes where any did. `make ctest` compares this with answers.expected, which was worked out
 * from the paper and not with this library. The examples of edition 0.9 are our own, since source 000 has none, and so are those of
 * document 02, requests 2, 3 and 5 to 9, but for the reading of 900. Examples I and J are as its request 7 amends them, and `at` of every
 * answer is as its request 8 has it.
 *
 * At most 65,536 bytes are lent, but for longer areas and targets that are all 0, are refused and stay so. So 65,537 of example I is not
 * here: it is a row of the proved table, and `make compare-large` has it.
 */
#include <float.h>
#include <inttypes.h>
#include <limits.h>
#include <stdio.h>
#include <stdlib.h>
#include <string.h>

#include "transfer_list.h"

#define MOST 65536u             /* the most that is lent here and may be accepted */
#define SPACE 65600u            /* a little more, so that a write beyond is seen */
#define LIMIT 16777216u         /* the most that an area or a target may have */
#define BEHIND 64u              /* bytes behind those, so that a write beyond is seen */
#define TOP ((uint64_t)1 << 48) /* addresses end here */

/* The first bytes of a buffer are lent to a call. All its bytes are kept as they were before. */
typedef struct {
    const char *name;
    uint8_t now[SPACE], before[SPACE];
} buffer;

static buffer area = {"area", {0}, {0}}, target = {"target", {0}, {0}}, journal = {"journal", {0}, {0}};
static uint8_t *zero_bytes; /* LIMIT + 1 bytes and BEHIND more, all 0, which take no memory as long as none is written */
static size_t len;    /* how many bytes of the area are lent */
static uint64_t base; /* where the area is said to stand */
static size_t journal_len; /* how many bytes of the journal are lent */

static const uint8_t zeros[SPACE];
static const uint8_t data[17] = {0xaa, 0xbb, 0xcc, 0xdd, 0xee, 0xff, 0x11, 0x22, 0x33, 0x44, 0x55, 0x66, 0x77, 0x88, 0x99, 0x10, 0x20};
static const uint8_t *source = data; /* where the adds take their data from */

static void title(const char *text)
{
    printf("\n== %s\n", text);
}

static void show_hex(const uint8_t *bytes, size_t n)
{
    for (size_t i = 0; i < n; i++)
        printf("%s%02x%s", i % 16 == 0 ? "    " : " ", bytes[i], i % 16 == 15 || i + 1 == n ? "\n" : "");
}

static size_t differences(const uint8_t *a, const uint8_t *b, size_t n)
{
    size_t count = 0;
    for (size_t i = 0; i < n; i++)
        count += a[i] != b[i];
    return count;
}

/* What is lent: the first bytes of a buffer; no bytes as NULL; over MOST of them those that are 0. */
static uint8_t *lend(buffer *b, size_t n)
{
    return n == 0 ? NULL : n > MOST ? zero_bytes : b->now;
}

/* What the call did to the bytes that are 0, beyond those that were lent too, and to the buffer in whose place they were. */
static void show_zero_bytes(const buffer *b, size_t lent)
{
    size_t inside = 0, beyond = differences(b->now, b->before, SPACE);
    for (size_t i = 0; i < lent; i++)
        inside += zero_bytes[i] != 0;
    for (size_t i = lent; i < LIMIT + 1 + BEHIND; i++)
        beyond += zero_bytes[i] != 0;
    printf("  %s: %zu of %zu bytes changed, %zu beyond them\n", b->name, inside, lent, beyond);
}

/* What the call did to a buffer. Of a big one only the header is shown, and a count. */
static void show_buffer(const buffer *b, size_t lent)
{
    if (lent > MOST) {
        show_zero_bytes(b, lent);
        return;
    }
    size_t inside = differences(b->now, b->before, lent);
    size_t beyond = differences(b->now + lent, b->before + lent, SPACE - lent);
    printf("  %s: %zu of %zu bytes changed, %zu beyond them\n", b->name, inside, lent, beyond);
    if (inside > 0)
        show_hex(b->now, lent <= 256 ? lent : 24);
    if (inside > 0 && lent > 256)
        printf("    then %zu bytes, %zu of them not 0\n", lent - 24, differences(b->now + 24, zeros, lent - 24));
}

static void show_done(tl_done d)
{
    printf("  number %" PRIu32 ", value %" PRIu32 ", at %" PRIu32 "\n", d.number, d.value, d.at);
    show_buffer(&area, len);
}

static void show_checked(tl_checked c)
{
    printf("  number %" PRIu32 ", version %" PRIu32 ", used %" PRIu32 ", total %" PRIu32, c.number, c.version, c.used, c.total);
    printf(", alignment %" PRIu32 ", live %" PRIu32 ", voids %" PRIu32 ", at %" PRIu32 "\n", c.alignment, c.live, c.voids, c.at);
    show_buffer(&area, len);
}

static void show_found(tl_found f)
{
    const uint8_t *part = tl_data(area.now, f);
    printf("  number %" PRIu32 ", offset %" PRIu32 ", size %" PRIu32 ", at %" PRIu32, f.number, f.offset, f.size, f.at);
    printf("; tl_data: area + %td\n", part - area.now);
    show_hex(part, f.size);
    show_buffer(&area, len);
}

/* The reading in decimal digits that tell it from its neighbours, and its 64 bits. */
static void show_certified(tl_certified c)
{
    uint64_t bits;
    memcpy(&bits, &c.reading, sizeof bits);
    printf("  number %" PRIu32 ", pass %" PRIu32 ", reading %.17g, bits %016" PRIx64, c.number, c.pass, c.reading, bits);
    printf(", at %" PRIu32 "\n", c.at);
    show_buffer(&area, len);
}

static void keep(void)
{
    memcpy(area.before, area.now, SPACE);
    memcpy(target.before, target.now, SPACE);
    memcpy(journal.before, journal.now, SPACE);
}

static void check(void)
{
    printf("tl_check: %zu bytes at 0x%" PRIx64 "\n", len, base);
    keep();
    show_checked(tl_check(lend(&area, len), len, base));
}

static void find(uint32_t tag, uint64_t n)
{
    printf("tl_find: tag 0x%" PRIx32 ", occurrence %" PRIu64 "\n", tag, n);
    keep();
    show_found(tl_find(lend(&area, len), len, base, tag, n));
}

/* The area is full of ee before, so that every byte written is seen; so is the target of a relocation or conversion. */
static void create(size_t new_len, uint64_t new_base, bool has_checksum)
{
    len = new_len;
    base = new_base;
    memset(area.now, 0xee, SPACE);
    printf("tl_create: %zu bytes at 0x%" PRIx64 ", checksum %s\n", len, base, has_checksum ? "yes" : "no");
    keep();
    show_done(tl_create(lend(&area, len), len, base, has_checksum));
}

/* Data without bytes are lent as NULL. */
static void add(uint32_t tag, size_t n, bool use_voids)
{
    printf("tl_add: tag 0x%" PRIx32 ", %zu bytes, voids %s\n", tag, n, use_voids ? "yes" : "no");
    keep();
    show_done(tl_add(lend(&area, len), len, base, tag, n == 0 ? NULL : source, n, use_voids));
}

static void add_aligned(uint32_t tag, size_t n, uint32_t exponent)
{
    printf("tl_add_aligned: tag 0x%" PRIx32 ", %zu bytes, exponent %" PRIu32 "\n", tag, n, exponent);
    keep();
    show_done(tl_add_aligned(lend(&area, len), len, base, tag, n == 0 ? NULL : source, n, exponent));
}

static void strike(uint32_t tag, uint64_t n)
{
    printf("tl_void: tag 0x%" PRIx32 ", occurrence %" PRIu64 "\n", tag, n);
    keep();
    show_done(tl_void(lend(&area, len), len, base, tag, n));
}

static void tidy(void)
{
    printf("tl_tidy: %zu bytes at 0x%" PRIx64 "\n", len, base);
    keep();
    show_done(tl_tidy(lend(&area, len), len, base));
}

static void relocate(size_t target_len, uint64_t target_base)
{
    memset(target.now, 0xee, SPACE);
    printf("tl_relocate: target of %zu bytes at 0x%" PRIx64 "\n", target_len, target_base);
    keep();
    show_done(tl_relocate(lend(&area, len), len, base, lend(&target, target_len), target_len, target_base));
    show_buffer(&target, target_len);
}

static void certificate(uint64_t serial, uint64_t test)
{
    printf("tl_certificate: %zu bytes at 0x%" PRIx64 ", serial 0x%" PRIx64 ", test 0x%" PRIx64 "\n", len, base, serial, test);
    keep();
    show_certified(tl_certificate(lend(&area, len), len, base, serial, test));
}

static void check09(void)
{
    printf("tl09_check: %zu bytes at 0x%" PRIx64 "\n", len, base);
    keep();
    show_checked(tl09_check(lend(&area, len), len, base));
}

static void find09(uint32_t tag, uint64_t n)
{
    printf("tl09_find: tag 0x%" PRIx32 ", occurrence %" PRIu64 "\n", tag, n);
    keep();
    show_found(tl09_find(lend(&area, len), len, base, tag, n));
}

static void convert09(size_t target_len, uint64_t target_base)
{
    memset(target.now, 0xee, SPACE);
    printf("tl09_convert: target of %zu bytes at 0x%" PRIx64 "\n", target_len, target_base);
    keep();
    show_done(tl09_convert(lend(&area, len), len, base, lend(&target, target_len), target_len, target_base));
    show_buffer(&target, target_len);
}

/* Not a call: bytes of the area set by hand. */
static void put(size_t at, size_t n, uint8_t byte)
{
    printf("by hand: %zu bytes from %zu on are %02x\n", n, at, byte);
    memset(area.now + at, byte, n);
}

/* Not a call: n voids without data. */
static void put_voids(size_t at, size_t n)
{
    printf("by hand: %zu voids without data from %zu on\n", n, at);
    memset(area.now + at, 0, 8 * n);
    for (size_t i = 0; i < n; i++)
        area.now[at + 8 * i + 3] = 8;
}

/* Not a call: a list made elsewhere. Every further byte of the area is ee. */
static void list(const char *what, const uint8_t *bytes, size_t n, size_t new_len, uint64_t new_base)
{
    len = new_len;
    base = new_base;
    memset(area.now, 0xee, SPACE);
    memcpy(area.now, bytes, n);
    printf("by hand: %s, %zu bytes at 0x%" PRIx64 ", the first %zu of them\n", what, len, base, n);
    show_hex(area.now, n);
}

/* Each call but create and the certificate, on the list as it is. */
static void every_call(void)
{
    check();
    find(1, 0);
    add(1, 3, false);
    add_aligned(4, 4, 4);
    strike(1, 0);
    tidy();
    relocate(128, 0x2000);
}

/* To a list with a void of 16 data of n bytes are added. Byte 79, behind the list, is not 0 before. */
static void add_to_void_of_16(size_t n)
{
    create(80, 0x1000, true);
    add(1, 16, false);
    strike(1, 0);
    put(79, 1, 0xee);
    add(2, n, true);
}

static void examples_a_to_h(void)
{
    title("A: base 0x1000, L 64, checksums on, create");
    create(64, 0x1000, true);
    title("B: to A add tag 1, data aa bb cc");
    add(1, 3, false);
    check();
    find(1, 0);
    title("C: void tag 1 in B; then there is none");
    strike(1, 0);
    find(1, 0);
    strike(1, 0);
    title("D: to C add tag 2, no data, voids allowed");
    add(2, 0, true);
    check();
    find(2, 0);
    title("E: a void of 16: data 17 does not fit and goes to the end; there is ROOM for it there only once");
    add_to_void_of_16(17);
    add(2, 17, true);
    title("E: 16 and 9 fill it, 8 leaves a void of size 0");
    add_to_void_of_16(16);
    add_to_void_of_16(9);
    add_to_void_of_16(8);
    check();
    title("F: total - used is 8: one byte is ROOM, no data is taken; at 0, no data is ROOM");
    create(32, 0x1000, true);
    add(1, 1, false);
    add(1, 0, false);
    add(1, 0, false);
    title("G: base 0x1000, used 24, tag 4, four bytes: exponent 6 with total 64 is ROOM; exponent 4: no padding");
    create(64, 0x1000, true);
    add_aligned(4, 4, 6);
    add_aligned(4, 4, 4);
    title("G: exponent 6: void of 24, data at 0x1040, used 72");
    create(128, 0x1000, true);
    add_aligned(4, 4, 6);
    check();
    title("H: that list, target base 0x2008: 200 gives shift 56, total 144; 128 gives total 72; 127 is ROOM");
    relocate(200, 0x2008);
    relocate(128, 0x2008);
    relocate(127, 0x2008);
}

static void examples_i_to_n(void)
{
    title("I: create: L 24 SHORT; 25 gives total 24; 65,536 accepted; 16,777,217 AREA");
    create(24, 0x1000, true);
    create(25, 0x1000, true);
    create(65536, 0x1000, true);
    create(LIMIT + 1, 0x1000, true);
    title("J: alignment field 2 and 22 are SIZES; 3, 12, 13 and 21 pass");
    create(64, 0x1000, false);
    put(7, 1, 2);
    check();
    put(7, 1, 22);
    every_call();
    put(7, 1, 3);
    check();
    put(7, 1, 12);
    check();
    put(7, 1, 13);
    check();
    put(7, 1, 21);
    check();
    title("J: relocated with alignment 21: shift 0; shift 32,768 into 32,792 bytes, and not into one less; shift 2^21 - 1 is ROOM");
    relocate(64, 0x201000);
    relocate(32792, 0x1f9000);
    relocate(32791, 0x1f9000);
    relocate(65536, 0x1001);
    title("K: an entry's data_size 0xffffffff: ENTRY");
    create(64, 0x1000, false);
    add(1, 0, false);
    put(28, 4, 0xff);
    every_call();
    title("M: used 24: no entries, accepted");
    create(64, 0x1000, true);
    check();
    title("N: version 2, bad checksum: add says READONLY, check says CHECKSUM");
    put(5, 1, 2);
    every_call();
    title("N: with the right checksum it can be read");
    put(4, 1, 0xbf);
    check();
}

static void other_refusals(void)
{
    title("1 AREA: base no multiple of 8; an area may end at 2^48, and not 8 bytes above");
    create(64, 0x1004, true);
    create(64, TOP - 64, true);
    check();
    base = TOP - 56;
    every_call();
    title("1 AREA: 16,777,217 bytes; 3 SIGNATURE: 16,777,216 and 65,537, which are all 0");
    len = LIMIT + 1;
    base = 0x1000;
    every_call();
    len = LIMIT;
    every_call();
    len = MOST + 1;
    every_call();
    title("2 SHORT; 4 VERSION; 3 SIGNATURE, though the version is 0 as well");
    create(64, 0x1000, true);
    len = 0;
    check();
    len = 23;
    every_call();
    len = 64;
    put(5, 1, 0);
    every_call();
    put(0, 1, 0x0a);
    every_call();
    title("9 TAG, 10 SHAPE, 11 ALIGN; exponent 12 passes");
    create(64, 0x1fe0, true);
    find(0x1000001, 0);
    strike(0, 0);
    strike(0x1000001, 0);
    add(0x800000, 3, false);
    add_aligned(0xffefff, 3, 3);
    add(6, 11, false);
    add(0x100, 9, false);
    add_aligned(0x104, 17, 4);
    add_aligned(4, 4, 2);
    add_aligned(4, 4, 22);
    add_aligned(4, 4, 12);
    title("12 TARGET: too long; 8 bytes above 2^48; one that ends there passes");
    create(64, 0x1000, true);
    relocate(LIMIT + 1, 0x2000);
    relocate(128, TOP - 120);
    relocate(65536, TOP - 65536);
    title("13 NONE: occurrences are counted from 0, in 64 bits");
    add(1, 1, false);
    add(1, 2, false);
    find(1, 1);
    find(1, (uint64_t)1 << 32);
    strike(1, (uint64_t)1 << 32);
    strike(1, 1);
}

/* To a list of 65,536 bytes data of n bytes are added. The bytes behind its header are not 0 before. */
static void add_far(uint64_t new_base, size_t n, uint32_t exponent)
{
    create(65536, new_base, true);
    put(24, 65512, 0xee);
    add_aligned(4, n, exponent);
}

static void great_exponents(void)
{
    title("exponent 13: a void of 4,056, all 0, data at 0x2000");
    add_far(0x1000, 4, 13);
    check();
    title("exponent 21: a void of 32,728, all 0, data at 0x200000; then, without padding, data at 0x200010 with exponent 4");
    add_far(0x1f8000, 4, 21);
    check();
    add_aligned(4, 8, 4);
    check();
    find(4, 1);
    title("exponent 21: no padding where data go to 0x200000 without it; the next one is ROOM");
    add_far(0x1fffe0, 4, 21);
    add_aligned(4, 0, 21);
    check();
    title("exponent 21: data at 0x200000 are the last 16 bytes; 17 bytes are ROOM; so is a void of some 2 MiB");
    add_far(0x1f0010, 17, 21);
    add_far(0x1f0010, 16, 21);
    check();
    add_far(0x1000, 0, 21);
}

/* Lists of edition 0.9, the bytes of their size. Padding and voids' data are not 0, so that they are seen to be copied. */
static const uint8_t empty_16[16] = {0xff, 0xd0, 0x6e, 0x00, 0x71, 0x01, 0x10, 0x03, 0x10, 0x00, 0x00, 0x00, 0x10, 0x00, 0x00, 0x00};
static const uint8_t empty_64[16] = {0xff, 0xd0, 0x6e, 0x00, 0xa1, 0x01, 0x10, 0x03, 0x10, 0x00, 0x00, 0x00, 0x40, 0x00, 0x00, 0x00};

/* tag 1 with aa bb cc; max_size 64 */
static const uint8_t one_entry[32] = {0xff, 0xd0, 0x6e, 0x00, 0xb0, 0x01, 0x10, 0x03, 0x20, 0x00, 0x00, 0x00, 0x40, 0x00, 0x00, 0x00,
                                      0x01, 0x00, 0x00, 0x08, 0x03, 0x00, 0x00, 0x00, 0xaa, 0xbb, 0xcc, 0x5a, 0x5a, 0x5a, 0x5a, 0x5a};

/* a void of 8; tag 6 with three bytes; tag 0x800001 and a void, without data; tag 6 with eight bytes; max_size 88 */
static const uint8_t two_voids[80] = {0xff, 0xd0, 0x6e, 0x00, 0x71, 0x01, 0x10, 0x03, 0x50, 0x00, 0x00, 0x00, 0x58, 0x00, 0x00, 0x00,
                                      0x00, 0x00, 0x00, 0x08, 0x08, 0x00, 0x00, 0x00, 0x5a, 0x5a, 0x5a, 0x5a, 0x5a, 0x5a, 0x5a, 0x5a,
                                      0x06, 0x00, 0x00, 0x08, 0x03, 0x00, 0x00, 0x00, 0x11, 0x22, 0x33, 0x5a, 0x5a, 0x5a, 0x5a, 0x5a,
                                      0x01, 0x00, 0x80, 0x08, 0x00, 0x00, 0x00, 0x00, 0x00, 0x00, 0x00, 0x08, 0x00, 0x00, 0x00, 0x00,
                                      0x06, 0x00, 0x00, 0x08, 0x08, 0x00, 0x00, 0x00, 0x77, 0x77, 0x77, 0x77, 0x77, 0x77, 0x77, 0x77};

/* version 2 with hdr_size 24; tag 1 with hdr_size 16 and aa bb; max_size 48 */
static const uint8_t version_2[48] = {0xff, 0xd0, 0x6e, 0x00, 0x16, 0x02, 0x18, 0x03, 0x30, 0x00, 0x00, 0x00, 0x30, 0x00, 0x00, 0x00,
                                      0xc1, 0xc2, 0xc3, 0xc4, 0xc5, 0xc6, 0xc7, 0xc8, 0x01, 0x00, 0x00, 0x10, 0x02, 0x00, 0x00, 0x00,
                                      0xd1, 0xd2, 0xd3, 0xd4, 0xd5, 0xd6, 0xd7, 0xd8, 0xaa, 0xbb, 0x5a, 0x5a, 0x5a, 0x5a, 0x5a, 0x5a};

/* the first bytes of one with size 65,536: tag 1 with 65,512 bytes, which are to be 5a */
static const uint8_t full[24] = {0xff, 0xd0, 0x6e, 0x00, 0xd3, 0x01, 0x10, 0x03, 0x00, 0x00, 0x01, 0x00,
                                 0x00, 0x00, 0x01, 0x00, 0x01, 0x00, 0x00, 0x08, 0xe8, 0xff, 0x00, 0x00};

/* Not a call: a list of edition 0.9, since the library makes none. */
static void list09(const uint8_t *bytes, size_t n, size_t new_len, uint64_t new_base)
{
    list("a list of edition 0.9", bytes, n, new_len, new_base);
}

/* Not a call: the area is now the target from the shift on, where a conversion has put its list. */
static void go_on(size_t target_len, uint64_t target_base, uint32_t shift)
{
    len = target_len - shift;
    base = target_base + shift;
    memcpy(area.now, target.now + shift, len);
    printf("by hand: the area is the target from %" PRIu32 " on\n", shift);
    show_hex(area.now, len);
}

static void every_call09(void)
{
    check09();
    find09(1, 0);
    convert09(48, 0x2000);
}

static void edition_09(void)
{
    title("edition 0.9: a new list of 16 bytes, which is SHORT for tl_check; converted");
    list09(empty_16, 16, 16, 0x1000);
    check09();
    find09(1, 0);
    check();
    convert09(23, 0x2000);
    convert09(24, 0x2000);
    go_on(24, 0x2000, 0);
    check();
    title("edition 0.9: a new list of 64 bytes; each call of the current edition says SIGNATURE");
    list09(empty_64, 16, 64, 0x1000);
    every_call09();
    every_call();
    title("edition 0.9: of the list of example B each of its calls says SIGNATURE");
    create(64, 0x1000, true);
    add(1, 3, false);
    every_call09();
    title("edition 0.9: with an entry; converted, it is found in the same way");
    list09(one_entry, 32, 64, 0x1000);
    every_call09();
    find09(1, 1);
    convert09(64, 0x2000);
    go_on(64, 0x2000, 0);
    check();
    find(1, 0);
    check09();
    title("edition 0.9: with voids; 9 TAG; 13 NONE, counted in 64 bits; a conversion judges no tag and no length of data");
    list09(two_voids, 80, 96, 0x1000);
    check09();
    find09(6, 0);
    find09(6, 1);
    find09(6, 2);
    find09(6, (uint64_t)1 << 32);
    find09(0x800001, 0);
    find09(0, 0);
    find09(0x1000006, 0);
    convert09(93, 0x2000);
    go_on(93, 0x2000, 0);
    check();
    find(6, 0);
    find(6, 1);
    title("edition 0.9: version 2 with hdr_size 24 is read; 5 READONLY comes before SIZES, CHECKSUM and ENTRY");
    list09(version_2, 48, 48, 0x1000);
    every_call09();
    put(6, 1, 15);
    every_call09();
    put(6, 1, 24);
    put(4, 1, 0x17);
    every_call09();
    put(27, 1, 7);
    put(28, 1, 17);
    put(4, 1, 0x1c);
    every_call09();
    title("edition 0.9: version 2 with hdr_size 17 starts at 24 too; with 48 it has no entries; 49 is SIZES");
    list09(version_2, 48, 48, 0x1000);
    put(6, 1, 17);
    put(4, 1, 0x0f);
    check09();
    find09(1, 0);
    put(6, 1, 48);
    put(4, 1, 0x2e);
    check09();
    put(6, 1, 49);
    put(4, 1, 0x2f);
    check09();
}

static void refusals_09(void)
{
    title("edition 0.9, 1 AREA: base no multiple of 8; no sum wraps; an area may end at 2^48, and not 8 bytes above; too long");
    list09(one_entry, 32, 64, 0x1004);
    every_call09();
    base = UINT64_MAX - 63;
    check09();
    base = TOP - 56;
    check09();
    base = TOP - 64;
    every_call09();
    len = LIMIT + 1;
    base = 0x1000;
    every_call09();
    title("edition 0.9, 3 SIGNATURE: 16,777,216 and 65,537 bytes, which are all 0");
    len = LIMIT;
    every_call09();
    len = MOST + 1;
    every_call09();
    title("edition 0.9, 2 SHORT; 4 VERSION; 3 SIGNATURE, though the version is 0 as well");
    len = 0;
    check09();
    len = 15;
    every_call09();
    len = 64;
    put(5, 1, 0);
    every_call09();
    put(0, 1, 0xfe);
    every_call09();
    title("edition 0.9, 6 SIZES: hdr_size 24; alignment 2 and 22, while 12, 13 and 21 pass");
    list09(one_entry, 32, 64, 0x1000);
    put(6, 1, 24);
    every_call09();
    put(6, 1, 16);
    put(7, 1, 2);
    check09();
    put(7, 1, 22);
    check09();
    put(7, 1, 12);
    put(4, 1, 0xb9);
    check09();
    put(7, 1, 13);
    put(4, 1, 0xba);
    check09();
    put(7, 1, 21);
    put(4, 1, 0xc2);
    check09();
    title("edition 0.9, 6 SIZES: size 8, 36 and 72; max_size 24, 60 and 72");
    list09(one_entry, 32, 64, 0x1000);
    put(8, 1, 8);
    check09();
    put(8, 1, 36);
    check09();
    put(8, 1, 72);
    check09();
    put(8, 1, 32);
    put(12, 1, 24);
    check09();
    put(12, 1, 60);
    check09();
    put(12, 1, 72);
    check09();
    title("edition 0.9, 7 CHECKSUM: the sum negated; a byte of padding changed; a byte behind size does not count");
    list09(one_entry, 32, 64, 0x1000);
    put(4, 1, 0x50);
    every_call09();
    put(4, 1, 0xb0);
    put(31, 1, 0x5b);
    check09();
    put(31, 1, 0x5a);
    put(32, 1, 0x00);
    check09();
    title("edition 0.9, 8 ENTRY: hdr_size 9; data_size 8 passes, 9, 0xfffffff8 and 0xffffffff exceed size; a void of 3");
    list09(one_entry, 32, 64, 0x1000);
    put(19, 1, 9);
    put(4, 1, 0xb1);
    every_call09();
    put(19, 1, 8);
    put(20, 1, 8);
    put(4, 1, 0xb5);
    check09();
    put(20, 1, 9);
    put(4, 1, 0xb6);
    check09();
    put(20, 1, 0xf8);
    put(21, 3, 0xff);
    put(4, 1, 0xa2);
    check09();
    put(20, 1, 0xff);
    put(4, 1, 0xa9);
    check09();
    list09(one_entry, 32, 64, 0x1000);
    put(16, 1, 0);
    put(4, 1, 0xaf);
    check09();
    title("edition 0.9, 12 TARGET: too long; 8 bytes above 2^48; no sum wraps; one that ends there passes; 14 ROOM without a target");
    list09(one_entry, 32, 64, 0x1000);
    convert09(LIMIT + 1, 0x2000);
    convert09(128, TOP - 120);
    convert09(8, UINT64_MAX - 7);
    convert09(65536, TOP - 65536);
    convert09(0, TOP + 1);
    convert09(0, TOP);
    title("edition 0.9: size 65,536 is ROOM in 65,536 bytes, TARGET in 16,777,217; 65,528 goes into 65,536, and not into one less");
    list09(full, 24, 65536, 0x1000);
    put(24, 65512, 0x5a);
    check09();
    find09(1, 1);
    convert09(65536, 0x2000);
    convert09(LIMIT + 1, 0x2000);
    put(4, 1, 0xf1);
    put(8, 1, 0xf8);
    put(9, 1, 0xff);
    put(10, 1, 0x00);
    put(20, 1, 0xe0);
    check09();
    convert09(65535, 0x2000);
    convert09(65536, 0x2000);
    convert09(65536, 0x1fff);
}

/* The list with an entry is converted into a target that has just enough bytes, after one that has one less, and is then read. */
static void convert_at(uint64_t old_base, uint8_t alignment, uint8_t checksum, uint64_t target_base, uint32_t shift)
{
    list09(one_entry, 32, 64, old_base);
    put(7, 1, alignment);
    put(4, 1, checksum);
    check09();
    convert09(shift + 39, target_base);
    convert09(shift + 40, target_base);
    go_on(shift + 40, target_base, shift);
    check();
    find(1, 0);
}

static void conversions_09(void)
{
    title("edition 0.9: converted from base 0, alignment 3: shift 0, and 7 where the target's base is 1");
    convert_at(0, 3, 0xb0, 0, 0);
    convert_at(0, 3, 0xb0, 1, 7);
    title("edition 0.9: from base 0, alignment 6: the new base is 56 modulo 64");
    convert_at(0, 6, 0xb3, 0, 56);
    convert_at(0, 6, 0xb3, 0x2039, 63);
    title("edition 0.9: from base 0, alignment 12: the new base is 4088 modulo 4096");
    convert_at(0, 12, 0xb9, 0, 4088);
    convert_at(0, 12, 0xb9, 0x2ff8, 0);
    title("edition 0.9: from base 0, alignment 13: 8184 modulo 8192; alignment 21: 0x1ffff8 modulo 2^21");
    convert_at(0, 13, 0xba, 0, 8184);
    convert_at(0, 21, 0xc2, 0x1ffff8, 0);
    title("edition 0.9: from base 0x1008, alignment 3; from base 8, alignment 6 and 12: the new base is 0 modulo 2^alignment");
    convert_at(0x1008, 3, 0xb0, 0x2005, 3);
    convert_at(8, 6, 0xb3, 0x2008, 56);
    convert_at(8, 12, 0xb9, 0x3000, 0);
    title("edition 0.9: data at 0x1040, alignment 6: then at 0x2040; data at 0x1000, alignment 12: then at 0x4000, shift 4095");
    convert_at(0x1028, 6, 0xb3, 0x2008, 24);
    convert_at(0xfe8, 12, 0xb9, 0x2fe1, 4095);
    title("edition 0.9: data at 0x200000, alignment 21: then at 0x400000, shift 0x7fff");
    convert_at(0x1fffe8, 21, 0xc2, 0x3f7fe1, 32767);
}

static void event_logs(void)
{
    title("event log, tag 5: 0 and 3 bytes are SHAPE, 4 and 5 are added, by either add");
    create(96, 0x1000, true);
    add(5, 0, false);
    add(5, 3, false);
    add(5, 4, false);
    add(5, 5, false);
    add_aligned(5, 0, 4);
    add_aligned(5, 3, 4);
    add_aligned(5, 4, 4);
    add_aligned(5, 5, 4);
    title("event log: SHAPE though a void serves, and before ALIGN and ROOM");
    create(48, 0x1000, true);
    add(1, 16, false);
    add(5, 3, false);
    add(5, 4, false);
    add_aligned(5, 3, 22);
    add_aligned(5, 4, 22);
    strike(1, 0);
    add(5, 0, true);
    add(5, 3, true);
    add(5, 4, true);
    title("event log: one of 3 bytes, made elsewhere, is read and struck out");
    create(64, 0x1000, false);
    add(4, 3, false);
    put(24, 1, 5);
    check();
    find(5, 0);
    strike(5, 0);
}

/* Lists to be tidied. Voids' data and padding are not 0. */

/* tags 1 to 5 with eight bytes each; total_size 112 */
static const uint8_t five[104] = {0x0b, 0xb1, 0x0f, 0x4a, 0xf5, 0x01, 0x18, 0x03, 0x68, 0x00, 0x00, 0x00, 0x70, 0x00, 0x00, 0x00,
                                  0x01, 0x00, 0x00, 0x00, 0x00, 0x00, 0x00, 0x00, 0x01, 0x00, 0x00, 0x08, 0x08, 0x00, 0x00, 0x00,
                                  0x11, 0x12, 0x13, 0x14, 0x15, 0x16, 0x17, 0x18, 0x02, 0x00, 0x00, 0x08, 0x08, 0x00, 0x00, 0x00,
                                  0x21, 0x22, 0x23, 0x24, 0x25, 0x26, 0x27, 0x28, 0x03, 0x00, 0x00, 0x08, 0x08, 0x00, 0x00, 0x00,
                                  0x31, 0x32, 0x33, 0x34, 0x35, 0x36, 0x37, 0x38, 0x04, 0x00, 0x00, 0x08, 0x08, 0x00, 0x00, 0x00,
                                  0x41, 0x42, 0x43, 0x44, 0x45, 0x46, 0x47, 0x48, 0x05, 0x00, 0x00, 0x08, 0x08, 0x00, 0x00, 0x00,
                                  0x51, 0x52, 0x53, 0x54, 0x55, 0x56, 0x57, 0x58};

/*
 * A void of 8 and one of 0; tag 1 with three bytes; voids of 0, 8 and 0; tag 0x800000 with eight bytes; a void of 0 and one of 8.
 * Two of the voids have data that look like an entry. Alignment 12, total_size 144, flags 0x80000003, reserved 0x5a5a5a5a.
 */
static const uint8_t mixed[136] = {0x0b, 0xb1, 0x0f, 0x4a, 0x79, 0x01, 0x18, 0x0c, 0x88, 0x00, 0x00, 0x00, 0x90, 0x00, 0x00, 0x00,
                                   0x03, 0x00, 0x00, 0x80, 0x5a, 0x5a, 0x5a, 0x5a, 0x00, 0x00, 0x00, 0x08, 0x08, 0x00, 0x00, 0x00,
                                   0x51, 0x5a, 0x5a, 0x5a, 0x5a, 0x5a, 0x5a, 0x5a, 0x00, 0x00, 0x00, 0x08, 0x00, 0x00, 0x00, 0x00,
                                   0x01, 0x00, 0x00, 0x08, 0x03, 0x00, 0x00, 0x00, 0xaa, 0xbb, 0xcc, 0x5a, 0x5a, 0x5a, 0x5a, 0x5a,
                                   0x00, 0x00, 0x00, 0x08, 0x00, 0x00, 0x00, 0x00, 0x00, 0x00, 0x00, 0x08, 0x08, 0x00, 0x00, 0x00,
                                   0x01, 0x00, 0x00, 0x08, 0x00, 0x00, 0x00, 0x00, 0x00, 0x00, 0x00, 0x08, 0x00, 0x00, 0x00, 0x00,
                                   0x00, 0x00, 0x80, 0x08, 0x08, 0x00, 0x00, 0x00, 0x77, 0x77, 0x77, 0x77, 0x77, 0x77, 0x77, 0x77,
                                   0x00, 0x00, 0x00, 0x08, 0x00, 0x00, 0x00, 0x00, 0x00, 0x00, 0x00, 0x08, 0x08, 0x00, 0x00, 0x00,
                                   0x07, 0x00, 0x00, 0x08, 0x08, 0x00, 0x00, 0x00};

/* three voids, tag 0x100, a void, tag 6, two voids, all without data; total_size 88 */
static const uint8_t no_data[88] = {0x0b, 0xb1, 0x0f, 0x4a, 0xe3, 0x01, 0x18, 0x03, 0x58, 0x00, 0x00, 0x00, 0x58, 0x00, 0x00, 0x00,
                                    0x01, 0x00, 0x00, 0x00, 0x00, 0x00, 0x00, 0x00, 0x00, 0x00, 0x00, 0x08, 0x00, 0x00, 0x00, 0x00,
                                    0x00, 0x00, 0x00, 0x08, 0x00, 0x00, 0x00, 0x00, 0x00, 0x00, 0x00, 0x08, 0x00, 0x00, 0x00, 0x00,
                                    0x00, 0x01, 0x00, 0x08, 0x00, 0x00, 0x00, 0x00, 0x00, 0x00, 0x00, 0x08, 0x00, 0x00, 0x00, 0x00,
                                    0x06, 0x00, 0x00, 0x08, 0x00, 0x00, 0x00, 0x00, 0x00, 0x00, 0x00, 0x08, 0x00, 0x00, 0x00, 0x00,
                                    0x00, 0x00, 0x00, 0x08, 0x00, 0x00, 0x00, 0x00};

/* Of the five entries those named are made voids, whose data stay. The list is tidied twice. */
static void tidy_five(const char *voids, uint8_t checksum)
{
    list("a list", five, sizeof five, 117, 0x1000);
    for (const char *v = voids; *v != '\0'; v++)
        put(24 + 16 * (size_t)(*v - '1'), 1, 0);
    put(4, 1, checksum);
    tidy();
    tidy();
    check();
}

static void tidy_runs(void)
{
    title("tidy: five entries, no voids: nothing changes, and the answer is used_size");
    tidy_five("", 0xf5);
    title("tidy: a void at the start; two");
    tidy_five("1", 0xf4);
    tidy_five("12", 0xf6);
    title("tidy: a void in the middle, whose data and checksum change though there is nothing to join; two; three");
    tidy_five("3", 0xf6);
    tidy_five("23", 0xf4);
    tidy_five("234", 0xf0);
    title("tidy: a void at the end, which is given back; two");
    tidy_five("5", 0xf0);
    tidy_five("45", 0xf4);
    title("tidy: a void at the start, in the middle and at the end; two at the start and two at the end");
    tidy_five("135", 0xf2);
    tidy_five("1245", 0xf7);
    title("tidy: nothing but voids");
    tidy_five("12345", 0xf4);
    title("tidy: voids without data count; one of them alone stays");
    list("a list", no_data, sizeof no_data, 88, 0x1000);
    check();
    tidy();
    tidy();
    check();
    title("tidy: no entries; the bytes behind used_size stay");
    create(64, 0x1000, true);
    tidy();
    put(24, 40, 0xee);
    tidy();
    create(25, 0x1000, false);
    tidy();
}

static void tidy_kept(void)
{
    title("tidy: offsets, padding, alignment, flags, reserved and the bytes behind used_size stay; the tags are not judged");
    list("a list", mixed, sizeof mixed, 150, 0x1000);
    check();
    tidy();
    check();
    find(1, 0);
    find(1, 1);
    find(0x800000, 0);
    tidy();
    title("tidy: without has_checksum the checksum byte is 0");
    list("a list", mixed, sizeof mixed, 150, 0x1000);
    put(4, 1, 0);
    put(16, 1, 2);
    tidy();
    check();
    title("tidy: the padding void of an aligned entry stays with the entry; the alignment stays without it");
    create(128, 0x1000, true);
    add_aligned(4, 4, 6);
    tidy();
    strike(4, 0);
    tidy();
    check();
    title("tidy: 65,536 bytes that end at 2^48: nothing but voids; before an entry they become one void of 65,496");
    create(65536, TOP - 65536, true);
    put_voids(24, 8189);
    put(8, 1, 0x00);
    put(10, 1, 0x01);
    put(4, 1, 0xec);
    check();
    tidy();
    check();
    put_voids(24, 8189);
    put(8, 1, 0x00);
    put(10, 1, 0x01);
    put(65528, 1, 1);
    put(4, 1, 0xed);
    check();
    tidy();
    check();
    find(1, 0);
}

static void tidy_for_room(void)
{
    title("tidy: three voids without data are ROOM for one byte; as one void they take 16 bytes, and not 17");
    create(72, 0x1000, true);
    add(1, 0, false);
    add(1, 0, false);
    add(1, 0, false);
    add(2, 16, false);
    strike(1, 0);
    strike(1, 0);
    strike(1, 0);
    add(3, 1, true);
    add(3, 16, true);
    tidy();
    add(3, 17, true);
    add(3, 16, false);
    add(3, 16, true);
    tidy();
    check();
    title("tidy: the voids at the end become room for adds that use none");
    create(72, 0x1000, true);
    add(1, 8, false);
    add(2, 8, false);
    add(2, 8, false);
    strike(2, 0);
    strike(2, 0);
    add(3, 8, false);
    add_aligned(3, 8, 4);
    tidy();
    add_aligned(3, 8, 4);
    add(3, 8, false);
    check();
}

static void tidy_refusals(void)
{
    title("tidy, 8 ENTRY: a void of 4; 7, 6, 5, 4, 3, 2 and 1 each come before it, the lower number first");
    list("a list", mixed, sizeof mixed, 150, 0x1000);
    put(76, 1, 4);
    put(4, 1, 0x75);
    tidy();
    put(4, 1, 0x74);
    tidy();
    put(7, 1, 2);
    tidy();
    put(5, 1, 2);
    tidy();
    put(5, 1, 0);
    tidy();
    put(0, 1, 0x0a);
    tidy();
    len = 23;
    tidy();
    base = 0x1004;
    tidy();
    title("tidy without an area: 1 AREA where the base is no multiple of 8, else 2 SHORT; too long, 1 AREA");
    len = 0;
    tidy();
    base = 0x1000;
    tidy();
    len = LIMIT + 1;
    tidy();
    title("tidy, 1 AREA: an area may end 2 bytes below 2^48, and not 6 bytes above");
    list("a list", mixed, sizeof mixed, 150, TOP - 144);
    tidy();
    base = TOP - 152;
    tidy();
    title("tidy, 5 READONLY: version 2 can be read");
    list("a list", mixed, sizeof mixed, 150, 0x1000);
    put(5, 1, 2);
    put(4, 1, 0x7a);
    check();
    tidy();
    title("tidy, 6 SIZES: the area is too short for total_size; used_size 16");
    list("a list", mixed, sizeof mixed, 143, 0x1000);
    tidy();
    len = 144;
    put(8, 1, 16);
    tidy();
    title("tidy, 7 CHECKSUM: without has_checksum the checksum byte is not 0");
    list("a list", mixed, sizeof mixed, 150, 0x1000);
    put(16, 1, 2);
    tidy();
    title("tidy, 8 ENTRY: the last void exceeds used_size; its data_size is 0xfffffff8; a live entry's hdr_size is 9");
    list("a list", mixed, sizeof mixed, 150, 0x1000);
    put(124, 1, 16);
    put(4, 1, 0x61);
    tidy();
    put(124, 1, 0xf8);
    put(125, 3, 0xff);
    put(4, 1, 0x76);
    tidy();
    list("a list", mixed, sizeof mixed, 150, 0x1000);
    put(51, 1, 9);
    put(4, 1, 0x78);
    tidy();
}

/* The list that the certificates below are in has the one entry, no has_checksum, and no byte to spare. Where its fields are: */
enum { CERTIFICATE_LEN = 88, KIND = 48, COUNTS = 52, GAIN = 56, OFFSET = 64, LOW = 72, HIGH = 80 };
static const uint8_t heads[32] = {0x0b, 0xb1, 0x0f, 0x4a, 0x00, 0x01, 0x18, 0x03, 0x58, 0x00, 0x00, 0x00, 0x58, 0x00, 0x00, 0x00,
                                  0x00, 0x00, 0x00, 0x00, 0x00, 0x00, 0x00, 0x00, 0x10, 0xf0, 0xff, 0x08, 0x38, 0x00, 0x00, 0x00};

#define SERIAL UINT64_C(0x8807060504030201)
#define TEST UINT64_C(0x9817161514131211)
enum { BAND = 1, CEILING = 2, FLOOR = 3 };

/* a band from 800 to 1000, 4000 counts, gain 0.25, offset -100; then a byte more */
static const uint8_t sound[57] = {0x01, 0x02, 0x03, 0x04, 0x05, 0x06, 0x07, 0x88, 0x11, 0x12, 0x13, 0x14, 0x15, 0x16, 0x17,
                                  0x98, 0x01, 0x00, 0x00, 0x00, 0xa0, 0x0f, 0x00, 0x00, 0x00, 0x00, 0x00, 0x00, 0x00, 0x00,
                                  0xd0, 0x3f, 0x00, 0x00, 0x00, 0x00, 0x00, 0x00, 0x59, 0xc0, 0x00, 0x00, 0x00, 0x00, 0x00,
                                  0x00, 0x89, 0x40, 0x00, 0x00, 0x00, 0x00, 0x00, 0x40, 0x8f, 0x40, 0x5a};

/* the same in a list of edition 0.9 */
static const uint8_t sound09[80] = {0xff, 0xd0, 0x6e, 0x00, 0xa8, 0x01, 0x10, 0x03, 0x50, 0x00, 0x00, 0x00, 0x50, 0x00, 0x00, 0x00,
                                    0x10, 0xf0, 0xff, 0x08, 0x38, 0x00, 0x00, 0x00, 0x01, 0x02, 0x03, 0x04, 0x05, 0x06, 0x07, 0x88,
                                    0x11, 0x12, 0x13, 0x14, 0x15, 0x16, 0x17, 0x98, 0x01, 0x00, 0x00, 0x00, 0xa0, 0x0f, 0x00, 0x00,
                                    0x00, 0x00, 0x00, 0x00, 0x00, 0x00, 0xd0, 0x3f, 0x00, 0x00, 0x00, 0x00, 0x00, 0x00, 0x59, 0xc0,
                                    0x00, 0x00, 0x00, 0x00, 0x00, 0x00, 0x89, 0x40, 0x00, 0x00, 0x00, 0x00, 0x00, 0x40, 0x8f, 0x40};

/* Numbers one step off. */
static const double above_900 = 900.0000000000001, below_900 = 899.9999999999999, above_1000 = 1000.0000000000001;
static const double above_1 = 1.0000000000000002;
/* Numbers that no float and no reading may be: infinite, negative infinite, two that are no number. */
static const uint64_t not_finite[4] = {UINT64_C(0x7ff0000000000000), UINT64_C(0xfff0000000000000), UINT64_C(0x7ff8000000000000),
                                       UINT64_C(0xfff0000000000001)};

static void write_number(size_t at, size_t n, uint64_t number)
{
    for (size_t i = 0; i < n; i++)
        area.now[at + i] = (uint8_t)(number >> 8 * i);
}

static void write_float(size_t at, double number)
{
    uint64_t bits;
    memcpy(&bits, &number, sizeof bits);
    write_number(at, 8, bits);
}

/* Not a call: a number in the area. */
static void put_number(size_t at, size_t n, uint64_t number)
{
    printf("by hand: %zu bytes from %zu on are 0x%" PRIx64 "\n", n, at, number);
    write_number(at, n, number);
}

/* Not a call: the list with this certificate. */
static void put_certificate(uint32_t kind, uint32_t counts, double gain, double offset, double low, double high)
{
    len = CERTIFICATE_LEN;
    base = 0x1000;
    memset(area.now, 0xee, SPACE);
    memcpy(area.now, heads, sizeof heads);
    memcpy(area.now + sizeof heads, sound, 16);
    write_number(KIND, 4, kind);
    write_number(COUNTS, 4, counts);
    write_float(GAIN, gain);
    write_float(OFFSET, offset);
    write_float(LOW, low);
    write_float(HIGH, high);
    printf("by hand: a certificate: kind %" PRIu32 ", counts %" PRIu32 ", gain %.17g, offset %.17g", kind, counts, gain, offset);
    printf(", low %.17g, high %.17g\n", low, high);
}

static void judge(uint32_t kind, uint32_t counts, double gain, double offset, double low, double high)
{
    put_certificate(kind, counts, gain, offset, low, high);
    certificate(SERIAL, TEST);
}

/* A certificate that reads 900 within its gate, but for one number of n bytes. */
static void judge_but(uint32_t kind, size_t at, size_t n, uint64_t number)
{
    put_certificate(kind, 4000, 0.25, -100, kind == CEILING ? 0 : 800, kind == FLOOR ? 0 : 1000);
    put_number(at, n, number);
    certificate(SERIAL, TEST);
}

static void certificate_gates(void)
{
    title("certificate: gain 0.25, offset -100, counts 4000 reads exactly 900");
    put_certificate(BAND, 4000, 0.25, -100, 800, 1000);
    show_hex(area.now, len);
    check();
    find(TL_TAG_CERTIFICATE, 0);
    certificate(SERIAL, TEST);
    title("certificate, a band: a limit that is just met is a pass, one missed by one step a fail");
    judge(BAND, 4000, 0.25, -100, 900, 1000);
    judge(BAND, 4000, 0.25, -100, above_900, 1000);
    judge(BAND, 4000, 0.25, -100, below_900, 1000);
    judge(BAND, 4000, 0.25, -100, 800, 900);
    judge(BAND, 4000, 0.25, -100, 800, below_900);
    judge(BAND, 4000, 0.25, -100, 800, above_900);
    judge(BAND, 4000, 0.25, -100, 900, 900);
    judge(BAND, 4000, 0.25, -100, below_900, below_900);
    title("certificate, a ceiling, likewise; below 0");
    judge(CEILING, 4000, 0.25, -100, 0, 900);
    judge(CEILING, 4000, 0.25, -100, 0, below_900);
    judge(CEILING, 4000, 0.25, -100, 0, above_900);
    judge(CEILING, 0, 0.25, -100, 0, -100);
    judge(CEILING, 1, 0.25, -100, 0, -100);
    title("certificate, a floor, likewise; below 0");
    judge(FLOOR, 4000, 0.25, -100, 900, 0);
    judge(FLOOR, 4000, 0.25, -100, above_900, 0);
    judge(FLOOR, 4000, 0.25, -100, below_900, 0);
    judge(FLOOR, 0, 0.25, -100, -100, 0);
    judge(FLOOR, 0, 0.25, -101, -100, 0);
    title("certificate: a gate's limit may be 0 or -0, which are equal; a reading is never -0; a fail may read 0 too");
    judge(BAND, 400, 0.25, -100, 0.0, -0.0);
    judge(BAND, 400, 0.25, -100, -0.0, 0.0);
    judge(CEILING, 0, 0.25, -0.0, 0, -0.0);
    judge(CEILING, 400, 0.25, -100, 0, 0);
    judge(CEILING, 4000, 0.25, -100, 0, 0);
    judge(FLOOR, 0, 0.25, -0.0, -0.0, 0);
    judge(FLOOR, 400, 0.25, -100, 0, 0);
    judge(FLOOR, 0, 0.25, -100, 0, 0);
    judge(FLOOR, 400, 0.25, -100, 1, 0);
}

static void certificate_readings(void)
{
    title("certificate: the product is rounded and then the sum: 2^-54 and 0, where one rounding would give 2^-55 and 2^-54");
    judge(FLOOR, 3, 0.1, -0.3, 0, 0);
    judge(FLOOR, 10, 0.1, -1, 0, 0);
    title("certificate: each to the nearest, a tie to the even one: the product");
    judge(FLOOR, 3, above_1, 0, 0, 0);
    judge(FLOOR, 5, above_1, 0, 0, 0);
    judge(FLOOR, 6, above_1, 0, 0, 0);
    judge(FLOOR, 7, above_1, 0, 0, 0);
    judge(FLOOR, 16777215, 0.1, 0, 0, 0);
    title("certificate: the sum, with 2^-53, one step more, and -2^-54");
    judge(FLOOR, 1, 1, 1.1102230246251565e-16, 0, 0);
    judge(FLOOR, 1, above_1, 1.1102230246251565e-16, 0, 0);
    judge(FLOOR, 1, 1, 1.1102230246251568e-16, 0, 0);
    judge(FLOOR, 1, 1, -5.551115123125783e-17, 0, 0);
    title("certificate: the least numbers are not taken for 0, as gain, offset, limit and reading");
    judge(CEILING, 1, 4.9406564584124654e-324, 0, 0, 4.9406564584124654e-324);
    judge(CEILING, 1, 4.9406564584124654e-324, 0, 0, 0);
    judge(FLOOR, 16777216, 4.9406564584124654e-324, 0, 0, 0);
    judge(BAND, 1, DBL_MIN, -2.225073858507201e-308, 4.9406564584124654e-324, 4.9406564584124654e-324);
    judge(FLOOR, 0, 4.9406564584124654e-324, -4.9406564584124654e-324, 0, 0);
    title("certificate: the greatest numbers, a sum and a product just under and just over; 20 also where the product alone is infinite");
    judge(CEILING, 1, DBL_MAX, 0, 0, DBL_MAX);
    judge(CEILING, 1, DBL_MAX, 9.979201547673598e+291, 0, DBL_MAX);
    judge(CEILING, 1, DBL_MAX, 9.9792015476736e+291, 0, DBL_MAX);
    judge(CEILING, 16777216, 1.0715086071862672e+301, 0, 0, DBL_MAX);
    judge(CEILING, 16777216, 1.0715086071862673e+301, 0, 0, DBL_MAX);
    judge(CEILING, 2, DBL_MAX, -DBL_MAX, 0, DBL_MAX);
    judge(CEILING, 1, DBL_MAX, -DBL_MAX, 0, 0);
    judge(FLOOR, 0, DBL_MAX, -DBL_MAX, -DBL_MAX, 0);
}

static void certificate_contents(void)
{
    title("certificate, 20 CONTENTS: the kind, all four bytes of it");
    judge_but(BAND, KIND, 4, 0);
    judge_but(BAND, KIND, 4, 4);
    judge_but(BAND, KIND, 4, 257);
    judge_but(CEILING, KIND, 4, 0x10002);
    judge_but(FLOOR, KIND, 4, 0x1000003);
    judge_but(BAND, KIND, 4, 0xffffffff);
    title("certificate: counts of 2^24 are read, 2^24 + 1 are 20 CONTENTS");
    judge_but(BAND, COUNTS, 4, 0x1000000);
    judge_but(BAND, COUNTS, 4, 0x1000001);
    judge_but(BAND, COUNTS, 4, 0xffffffff);
    title("certificate, 20 CONTENTS: gain 0, -0, -0.25, the least below 0; the least above 0 is read; not finite");
    judge_but(BAND, GAIN, 8, 0);
    judge_but(BAND, GAIN, 8, UINT64_C(0x8000000000000000));
    judge_but(BAND, GAIN, 8, UINT64_C(0xbfd0000000000000));
    judge_but(BAND, GAIN, 8, UINT64_C(0x8000000000000001));
    judge_but(BAND, GAIN, 8, 1);
    for (size_t i = 0; i < 4; i++)
        judge_but(BAND, GAIN, 8, not_finite[i]);
    title("certificate, 20 CONTENTS: offset not finite; the greatest is read");
    for (size_t i = 0; i < 4; i++)
        judge_but(BAND, OFFSET, 8, not_finite[i]);
    judge_but(BAND, OFFSET, 8, UINT64_C(0x7fefffffffffffff));
    title("certificate, 20 CONTENTS: a used limit not finite: a band's low, a band's high, a ceiling's, a floor's");
    for (size_t i = 0; i < 4; i++)
        judge_but(BAND, LOW, 8, not_finite[i]);
    for (size_t i = 0; i < 4; i++)
        judge_but(BAND, HIGH, 8, not_finite[i]);
    for (size_t i = 0; i < 4; i++)
        judge_but(CEILING, HIGH, 8, not_finite[i]);
    for (size_t i = 0; i < 4; i++)
        judge_but(FLOOR, LOW, 8, not_finite[i]);
    title("certificate, 20 CONTENTS: an unused limit -0, or with any byte not 0, or not finite: a ceiling's low, a floor's high");
    for (size_t at = LOW; at <= HIGH; at += 8) {
        uint32_t kind = at == LOW ? CEILING : FLOOR;
        judge_but(kind, at, 8, UINT64_C(0x8000000000000000));
        for (size_t i = 0; i < 8; i++)
            judge_but(kind, at + i, 1, 1);
        for (size_t i = 0; i < 4; i++)
            judge_but(kind, at, 8, not_finite[i]);
    }
    title("certificate, 20 CONTENTS: a band's low one step over its high, below 0, at 0; equal they are read");
    judge(BAND, 4000, 0.25, -100, above_1000, 1000);
    judge(BAND, 4000, 0.25, -100, 1000, 1000);
    judge(BAND, 4000, 0.25, -100, -800, -1000);
    judge(BAND, 4000, 0.25, -100, -1000, -800);
    judge(BAND, 400, 0.25, -100, 4.9406564584124654e-324, -0.0);
    judge(BAND, 400, 0.25, -100, 0, -4.9406564584124654e-324);
    judge(BAND, 4000, 0.25, -100, DBL_MAX, -DBL_MAX);
    judge(BAND, 4000, 0.25, -100, -DBL_MAX, DBL_MAX);
}

static void certificate_identity(void)
{
    static const int bits[4] = {0, 31, 32, 63};
    title("certificate, 19 IDENTITY: one bit of the serial or of the test, in its lower and in its upper half; one for the other");
    put_certificate(BAND, 4000, 0.25, -100, 800, 1000);
    for (size_t i = 0; i < 4; i++) {
        certificate(SERIAL ^ (uint64_t)1 << bits[i], TEST);
        certificate(SERIAL, TEST ^ (uint64_t)1 << bits[i]);
    }
    certificate(TEST, SERIAL);
    certificate(0, 0);
    title("certificate: 19 comes before 20");
    put_number(KIND, 4, 4);
    certificate(SERIAL, TEST + 1);
    certificate(SERIAL, TEST);
    title("certificate: serial and test 0, and 2^64 - 1, are numbers as others");
    put_certificate(BAND, 4000, 0.25, -100, 800, 1000);
    put(32, 16, 0);
    certificate(0, 0);
    put(32, 16, 0xff);
    certificate(UINT64_MAX, UINT64_MAX);
    certificate(SERIAL, TEST);
}

/* An entry of tag 0xfff001 with the first n bytes of the certificate, and then, by hand, of tag 0xfff010: the adds take no such length. */
static void add_wrong_length(size_t at, size_t n)
{
    add(0xfff001, n, false);
    put(at, 1, 0x10);
}

/* Not a call: the certificate's entry in the area. */
static void put_entry(size_t at)
{
    printf("by hand: a certificate's entry from %zu on\n", at);
    memcpy(area.now + at, heads + 24, 8);
    memcpy(area.now + at + 8, sound, 56);
}

static void certificate_one(void)
{
    source = sound;
    title("certificate, 18 CERTIFICATE: no entry; none with this tag");
    create(256, 0x1000, true);
    certificate(SERIAL, TEST);
    add(0xfff011, 56, false);
    add(0x7ff010, 56, false);
    add(0x10, 56, false);
    certificate(SERIAL, TEST);
    title("certificate, 18 CERTIFICATE: two; voids do not count, and neither does what a void has for data");
    create(160, 0x1000, true);
    add(TL_TAG_CERTIFICATE, 56, false);
    certificate(SERIAL, TEST);
    add(TL_TAG_CERTIFICATE, 56, false);
    certificate(SERIAL, TEST);
    strike(TL_TAG_CERTIFICATE, 0);
    certificate(SERIAL, TEST);
    tidy();
    certificate(SERIAL, TEST);
    add(TL_TAG_CERTIFICATE, 56, true);
    certificate(SERIAL, TEST);
    strike(TL_TAG_CERTIFICATE, 1);
    certificate(SERIAL, TEST);
    strike(TL_TAG_CERTIFICATE, 0);
    certificate(SERIAL, TEST);
    put_certificate(BAND, 4000, 0.25, -100, 800, 1000);
    put(24, 3, 0);
    check();
    certificate(SERIAL, TEST);
    title("certificate, 18 CERTIFICATE: one of 56 and one of 12, either first");
    create(128, 0x1000, false);
    add(TL_TAG_CERTIFICATE, 56, false);
    add_wrong_length(88, 12);
    certificate(SERIAL, TEST);
    create(128, 0x1000, false);
    add_wrong_length(24, 12);
    add(TL_TAG_CERTIFICATE, 56, false);
    certificate(SERIAL, TEST);
    title("certificate, 18 CERTIFICATE: one of 55, 57 and 0; it comes before 19");
    create(96, 0x1000, false);
    add_wrong_length(24, 55);
    check();
    certificate(SERIAL, TEST);
    create(96, 0x1000, false);
    add_wrong_length(24, 57);
    certificate(SERIAL, TEST);
    certificate(SERIAL + 1, TEST);
    create(96, 0x1000, false);
    add_wrong_length(24, 0);
    certificate(0, 0);
    title("certificate: 65,536 bytes that end at 2^48, the certificate last, behind voids; then 18, another one first");
    create(65536, TOP - 65536, true);
    put_voids(24, 8181);
    put_entry(65472);
    put(8, 1, 0x00);
    put(10, 1, 0x01);
    put(4, 1, 0x5d);
    check();
    certificate(SERIAL, TEST);
    put_entry(24);
    put(4, 1, 0xec);
    check();
    certificate(SERIAL, TEST);
    source = data;
}

static void certificate_refusals(void)
{
    title("certificate, 8 ENTRY: a data_size that exceeds used_size; 7, 6, 4, 3, 2 and 1 each come before it, the lower number first");
    put_certificate(4, 4000, 0.25, -100, 800, 1000);
    put(28, 1, 57);
    certificate(SERIAL, TEST);
    put(4, 1, 1);
    certificate(SERIAL, TEST);
    put(7, 1, 2);
    certificate(SERIAL, TEST);
    put(5, 1, 2);
    certificate(SERIAL, TEST);
    put(5, 1, 0);
    certificate(SERIAL, TEST);
    put(0, 1, 0x0a);
    certificate(SERIAL, TEST);
    len = 23;
    certificate(SERIAL, TEST);
    base = 0x1004;
    certificate(SERIAL, TEST);
    title("certificate without an area: 1 AREA where the base is no multiple of 8, else 2 SHORT; too long, 1 AREA");
    len = 0;
    certificate(SERIAL, TEST);
    base = 0x1000;
    certificate(SERIAL, TEST);
    len = LIMIT + 1;
    certificate(SERIAL, TEST);
    title("certificate, 1 AREA: an area may end at 2^48, and not 8 bytes above; no sum wraps; 6 SIZES: the area is too short");
    put_certificate(BAND, 4000, 0.25, -100, 800, 1000);
    base = TOP - 88;
    certificate(SERIAL, TEST);
    base = TOP - 80;
    certificate(SERIAL, TEST);
    base = UINT64_MAX - 87;
    certificate(SERIAL, TEST);
    base = 0x1000;
    len = 87;
    certificate(SERIAL, TEST);
    title("certificate, 7 CHECKSUM: one bit of the serial damaged, which is the one asked for");
    source = sound;
    create(88, 0x1000, true);
    add(TL_TAG_CERTIFICATE, 56, false);
    source = data;
    put(32, 1, 0);
    certificate(SERIAL - 1, TEST);
    title("certificate, 3 SIGNATURE: of a list of edition 0.9; converted, it is read");
    list09(sound09, 80, 80, 0x1000);
    certificate(SERIAL, TEST);
    convert09(96, 0x2000);
    go_on(96, 0x2000, 0);
    certificate(SERIAL, TEST);
    title("certificate: relocated, it is read");
    relocate(96, 0x3001);
    go_on(96, 0x3001, 7);
    certificate(SERIAL, TEST);
}

/* Not a call: a list of this version and hdr_size, its one entry the certificate, with this hdr_size. What the headers have more is c1. */
static void put_later(uint8_t version, uint8_t hdr_size, uint8_t entry_hdr_size)
{
    size_t first = (hdr_size + 7u) / 8 * 8, used = (first + entry_hdr_size + 56 + 7) / 8 * 8;
    memset(area.now, 0xee, SPACE);
    memset(area.now, 0xc1, used);
    memcpy(area.now, heads, 24);
    memcpy(area.now + first, heads + 24, 8);
    memcpy(area.now + first + entry_hdr_size, sound, 56);
    area.now[5] = version;
    area.now[6] = hdr_size;
    area.now[first + 3] = entry_hdr_size;
    write_number(8, 4, used);
    write_number(12, 4, used);
    len = used;
    base = 0x1000;
    printf("by hand: version %u, hdr_size %u, a certificate with hdr_size %u\n", version, hdr_size, entry_hdr_size);
    show_hex(area.now, used);
}

static void certificate_versions(void)
{
    title("certificate: version 2, an entry's hdr_size 9: the data are from 33 on; with a checksum too");
    put_later(2, 24, 9);
    check();
    find(TL_TAG_CERTIFICATE, 0);
    certificate(SERIAL, TEST);
    certificate(SERIAL ^ (uint64_t)1 << 63, TEST);
    put(16, 1, 1);
    certificate(SERIAL, TEST);
    put(4, 1, 0x57);
    certificate(SERIAL, TEST);
    title("certificate: version 2 as version 1; version 5 with longer headers; version 255 with the longest");
    put_later(2, 24, 8);
    certificate(SERIAL, TEST);
    put_later(5, 25, 15);
    certificate(SERIAL, TEST);
    put(63, 1, 4);
    certificate(SERIAL, TEST);
    put_later(255, 255, 255);
    certificate(SERIAL, TEST);
    title("certificate: an entry's hdr_size of 9 in version 1 and of 7 in version 2 are 8 ENTRY");
    put_later(1, 24, 9);
    certificate(SERIAL, TEST);
    put_later(2, 24, 8);
    put(27, 1, 7);
    certificate(SERIAL, TEST);
}

static void certificate_adds(void)
{
    source = sound;
    title("certificate, tag 0xfff010: 0, 55 and 57 bytes are SHAPE, 56 are added, by either add; the tags beside it take any length");
    create(256, 0x1000, true);
    add(TL_TAG_CERTIFICATE, 0, false);
    add(TL_TAG_CERTIFICATE, 55, false);
    add(TL_TAG_CERTIFICATE, 57, false);
    add(TL_TAG_CERTIFICATE, 56, false);
    certificate(SERIAL, TEST);
    add_aligned(TL_TAG_CERTIFICATE, 0, 4);
    add_aligned(TL_TAG_CERTIFICATE, 55, 4);
    add_aligned(TL_TAG_CERTIFICATE, 57, 4);
    add_aligned(TL_TAG_CERTIFICATE, 56, 4);
    certificate(SERIAL, TEST);
    add(0xfff00f, 55, false);
    add_aligned(0xfff011, 0, 3);
    title("certificate: SHAPE though a void serves, and before ALIGN and ROOM");
    create(88, 0x1000, true);
    add(TL_TAG_CERTIFICATE, 56, false);
    add(TL_TAG_CERTIFICATE, 55, false);
    add(TL_TAG_CERTIFICATE, 56, false);
    add_aligned(TL_TAG_CERTIFICATE, 57, 22);
    add_aligned(TL_TAG_CERTIFICATE, 56, 22);
    strike(TL_TAG_CERTIFICATE, 0);
    add(TL_TAG_CERTIFICATE, 55, true);
    add(TL_TAG_CERTIFICATE, 56, true);
    certificate(SERIAL, TEST);
    title("certificate: the adds do not judge what it says");
    source = zeros;
    create(88, 0x1000, true);
    add(TL_TAG_CERTIFICATE, 56, false);
    certificate(SERIAL, TEST);
    certificate(0, 0);
    source = data;
}

/* A device tree by hand, each number's highest byte first. */
static const uint8_t hand_tree[176] = {
    0xd0, 0x0d, 0xfe, 0xed, 0x00, 0x00, 0x00, 0xb0, /*   0 magic; totalsize 176 */
    0x00, 0x00, 0x00, 0x48, 0x00, 0x00, 0x00, 0xac, /*   8 the structure is at 72, the strings at 172 */
    0x00, 0x00, 0x00, 0x28, 0x00, 0x00, 0x00, 0x11, /*  16 the reservations at 40; version 17 */
    0x00, 0x00, 0x00, 0x10, 0x00, 0x00, 0x00, 0x00, /*  24 last compatible 16; boot cpu 0 */
    0x00, 0x00, 0x00, 0x04, 0x00, 0x00, 0x00, 0x64, /*  32 the strings have 4 bytes, the structure 100 */
    0x00, 0x00, 0x00, 0x00, 0x80, 0x00, 0x00, 0x00, /*  40 a reservation: address */
    0x00, 0x00, 0x00, 0x00, 0x00, 0x00, 0x10, 0x00, /*  48 and size */
    0x00, 0x00, 0x00, 0x00, 0x00, 0x00, 0x00, 0x00, /*  56 the pair of zeros */
    0x00, 0x00, 0x00, 0x00, 0x00, 0x00, 0x00, 0x00, /*  64 */
    0x00, 0x00, 0x00, 0x01, 0x00, 0x00, 0x00, 0x00, /*  72 the root */
    0x00, 0x00, 0x00, 0x03, 0x00, 0x00, 0x00, 0x03, /*  80   a property of 3 bytes */
    0x00, 0x00, 0x00, 0x00, 0xaa, 0xbb, 0xcc, 0x00, /*  88   p = aa bb cc */
    0x00, 0x00, 0x00, 0x03, 0x00, 0x00, 0x00, 0x00, /*  96   a property without bytes */
    0x00, 0x00, 0x00, 0x02, 0x00, 0x00, 0x00, 0x01, /* 104   q; a node */
    0x61, 0x00, 0x00, 0x00, 0x00, 0x00, 0x00, 0x03, /* 112   a */
    0x00, 0x00, 0x00, 0x04, 0x00, 0x00, 0x00, 0x00, /* 120     a property of 4 bytes: p */
    0x11, 0x22, 0x33, 0x44, 0x00, 0x00, 0x00, 0x01, /* 128     = 11 22 33 44; a node */
    0x62, 0x40, 0x31, 0x00, 0x00, 0x00, 0x00, 0x03, /* 136     b@1 */
    0x00, 0x00, 0x00, 0x01, 0x00, 0x00, 0x00, 0x03, /* 144       a property of 1 byte, whose name is the empty one at the last zero */
    0x55, 0x00, 0x00, 0x00, 0x00, 0x00, 0x00, 0x02, /* 152       = 55 */
    0x00, 0x00, 0x00, 0x02, 0x00, 0x00, 0x00, 0x02, /* 160 the nodes' ends */
    0x00, 0x00, 0x00, 0x09, 0x70, 0x00, 0x71, 0x00, /* 168 END; the strings p and q */
};

static void fdt_check(void)
{
    printf("tl_fdt_check: %zu bytes\n", len);
    keep();
    printf("  number %" PRIu32 "\n", tl_fdt_check(lend(&area, len), len));
    show_buffer(&area, len);
}

static void show_text(const char *text, size_t n)
{
    putchar('"');
    for (size_t i = 0; i < n; i++)
        text[i] == 0 ? printf("\\0") : putchar(text[i]);
    putchar('"');
}

/* A path or name without bytes is lent as NULL. */
static void fdt_find_bytes(const char *path, size_t path_len, const char *name, size_t name_len)
{
    const uint8_t *p = (const uint8_t *)path, *n = (const uint8_t *)name;
    printf("tl_fdt_find: ");
    show_text(path, path_len);
    putchar(' ');
    show_text(name, name_len);
    putchar('\n');
    keep();
    show_found(tl_fdt_find(lend(&area, len), len, path_len == 0 ? NULL : p, path_len, name_len == 0 ? NULL : n, name_len));
}

static void fdt_find(const char *path, const char *name)
{
    fdt_find_bytes(path, strlen(path), name, strlen(name));
}

/* Not a call: the tree by hand. Every further byte of the area is ee. */
static void put_hand_tree(size_t new_len)
{
    len = new_len;
    memset(area.now, 0xee, SPACE);
    memcpy(area.now, hand_tree, sizeof hand_tree);
    printf("by hand: the device tree of 176 bytes, %zu lent\n", len);
}

static void write_word(size_t at, uint32_t word)
{
    for (size_t i = 0; i < 4; i++)
        area.now[at + i] = (uint8_t)(word >> (24 - 8 * i));
}

/* Not a call: a number of the tree, its highest byte first. */
static void put_word(size_t at, uint32_t word)
{
    printf("by hand: the number at %zu is 0x%" PRIx32 "\n", at, word);
    write_word(at, word);
}

/* The tree by hand with another number at one place. */
static void fdt_but(size_t at, uint32_t word)
{
    put_hand_tree(176);
    put_word(at, word);
    fdt_check();
}

enum { TOTAL = 4, STRUCT = 8, STRINGS = 12, RESERVED = 16, VERSION = 20, COMPATIBLE = 24, CPU = 28, STRINGS_SIZE = 32, STRUCT_SIZE = 36 };

static void fdt_header(void)
{
    title("device tree by hand: accepted, and what is in it; 13 NONE");
    put_hand_tree(176);
    show_hex(area.now, len);
    fdt_check();
    fdt_find("/", "p");
    fdt_find("/", "q");
    fdt_find("/a", "p");
    fdt_find("/a/b@1", "");
    fdt_find("/a/b@1", "p");
    fdt_find("/a", "q");
    fdt_find("/b@1", "");
    title("device tree, 21: no bytes, lent as NULL; 39 bytes; one too few; more than totalsize are accepted");
    len = 0;
    fdt_check();
    fdt_find("/", "p");
    fdt_find("", "");
    len = 39;
    fdt_check();
    fdt_find("/", "p");
    len = 40;
    fdt_check();
    len = 175;
    fdt_check();
    len = 177;
    fdt_check();
    fdt_find("/a", "p");
    len = 65536;
    fdt_check();
    title("device tree, 21: the magic number; version and last compatible are exactly 17 and 16; the boot cpu is not judged");
    fdt_but(0, 0xd10dfeed);
    fdt_but(0, 0xd00cfeed);
    fdt_but(0, 0xd00dfeec);
    fdt_but(0, 0xedfe0dd0);
    fdt_but(VERSION, 16);
    fdt_but(VERSION, 18);
    fdt_but(VERSION, 0x11000000);
    fdt_but(VERSION, 0x10011);
    fdt_but(COMPATIBLE, 15);
    fdt_but(COMPATIBLE, 17);
    fdt_but(COMPATIBLE, 0x01000010);
    fdt_but(CPU, 0xffffffff);
    title("device tree: totalsize reaches to the strings' end and not over the length; what is behind the strings is not judged");
    fdt_but(TOTAL, 175);
    fdt_but(TOTAL, 177);
    fdt_but(TOTAL, 0);
    fdt_but(TOTAL, 0xffffffff);
    put_hand_tree(200);
    put_word(TOTAL, 200);
    fdt_check();
    fdt_find("/a/b@1", "");
    put_word(TOTAL, 201);
    fdt_check();
}

/* The tree by hand with bytes ee between its blocks and behind them; order 0 is the right one. */
static void put_spread(int order, size_t before, size_t between, size_t behind)
{
    static const size_t fields[3] = {RESERVED, STRUCT, STRINGS}, sizes[3] = {32, 100, 4}, starts[3] = {40, 72, 172};
    static const int orders[4][3] = {{0, 1, 2}, {0, 2, 1}, {1, 0, 2}, {2, 0, 1}};
    size_t at = 40 + before;
    put_hand_tree(176);
    memset(area.now + 40, 0xee, SPACE - 40);
    for (size_t i = 0; i < 3; i++) {
        int k = orders[order][i];
        memcpy(area.now + at, hand_tree + starts[k], sizes[k]);
        write_word(fields[k], (uint32_t)at);
        at += sizes[k] + (i < 2 ? between : behind);
    }
    write_word(TOTAL, (uint32_t)at);
    len = at;
    printf("by hand: its blocks in order %d, %zu bytes before them, %zu between them, %zu behind\n", order, before, between, behind);
    show_hex(area.now, len);
    fdt_check();
    fdt_find("/", "p");
}

static void fdt_blocks(void)
{
    title("device tree: gaps of any bytes between the blocks; offsets that are no multiples, 21");
    put_spread(0, 8, 4, 3);
    put_spread(0, 0, 8, 0);
    put_spread(0, 4, 4, 0);
    put_spread(0, 8, 2, 0);
    title("device tree, 21: another order of the blocks");
    put_spread(1, 0, 0, 0);
    put_spread(2, 0, 4, 0);
    put_spread(3, 0, 4, 0);
    title("device tree: the reservations' offset: over the header, no multiple of 8, at the pair of zeros, behind it");
    fdt_but(RESERVED, 0);
    fdt_but(RESERVED, 32);
    fdt_but(RESERVED, 44);
    fdt_but(RESERVED, 48);
    fdt_but(RESERVED, 56);
    fdt_but(RESERVED, 57);
    fdt_but(RESERVED, 60);
    fdt_but(RESERVED, 64);
    fdt_but(RESERVED, 72);
    fdt_but(RESERVED, 176);
    fdt_but(RESERVED, 0xfffffff8);
    title("device tree, 21: the structure's offset and size");
    fdt_but(STRUCT, 68);
    fdt_but(STRUCT, 71);
    fdt_but(STRUCT, 74);
    fdt_but(STRUCT, 76);
    fdt_but(STRUCT, 0xfffffffc);
    fdt_but(STRUCT_SIZE, 0);
    fdt_but(STRUCT_SIZE, 96);
    fdt_but(STRUCT_SIZE, 99);
    fdt_but(STRUCT_SIZE, 101);
    fdt_but(STRUCT_SIZE, 104);
    fdt_but(STRUCT_SIZE, 0xffffffb8);
    fdt_but(STRUCT_SIZE, 0xfffffffc);
    title("device tree, 21: the strings' offset, one byte inside the structure, one too late; their size, one too small, one too great");
    fdt_but(STRINGS, 171);
    fdt_but(STRINGS, 173);
    fdt_but(STRINGS, 40);
    fdt_but(STRINGS, 0xfffffffc);
    fdt_but(STRINGS_SIZE, 3);
    fdt_but(STRINGS_SIZE, 5);
    fdt_but(STRINGS_SIZE, 0);
    fdt_but(STRINGS_SIZE, 0xffffffff);
    fdt_but(STRINGS_SIZE, 0xffffff54);
    title("device tree: strings up to totalsize, and not one byte more");
    put_hand_tree(200);
    put_word(TOTAL, 200);
    put_word(STRINGS_SIZE, 28);
    fdt_check();
    fdt_find("/", "q");
    put_word(STRINGS_SIZE, 29);
    fdt_check();
    title("device tree, 21: the strings begin at the structure's last byte, and each name is said to be one later");
    put_hand_tree(176);
    put_word(STRINGS, 171);
    put_word(STRINGS_SIZE, 5);
    put_word(88, 1);
    put_word(104, 3);
    put_word(124, 1);
    put_word(148, 4);
    fdt_check();
}

static void fdt_reservations(void)
{
    title("device tree: a pair with one half zero does not end the reservations; sixteen zero bytes do, at a step of 16 only");
    put_hand_tree(176);
    put(40, 8, 0);
    fdt_check();
    put_hand_tree(176);
    put(48, 8, 0);
    fdt_check();
    put_hand_tree(176);
    put(40, 16, 0);
    put(56, 16, 0xee);
    fdt_check();
    fdt_but(60, 1);
    fdt_but(68, 1);
    fdt_but(56, 0x80000000);
    fdt_but(64, 0x80000000);
    put_hand_tree(176);
    put(40, 32, 0xee);
    put(48, 16, 0);
    fdt_check();
    put_hand_tree(176);
    put(40, 32, 0xee);
    fdt_check();
}

/* Not a call: a tree whose structure is these words. The strings are p and q. */
static void put_words(const uint32_t *words, size_t n)
{
    static const uint8_t strings[4] = {'p', 0, 'q', 0};
    len = 60 + 4 * n;
    memset(area.now, 0xee, SPACE);
    memcpy(area.now, hand_tree, 40);
    memset(area.now + 40, 0, 16);
    write_word(TOTAL, (uint32_t)len);
    write_word(STRUCT, 56);
    write_word(STRINGS, (uint32_t)(56 + 4 * n));
    write_word(STRUCT_SIZE, (uint32_t)(4 * n));
    printf("by hand: a tree of");
    for (size_t i = 0; i < n; i++) {
        printf(" %" PRIx32, words[i]);
        write_word(56 + 4 * i, words[i]);
    }
    printf("\n");
    memcpy(area.now + 56 + 4 * n, strings, 4);
}

#define WORDS(...) put_words((const uint32_t[]){__VA_ARGS__}, sizeof((const uint32_t[]){__VA_ARGS__}) / 4)
#define JUDGE(...) (WORDS(__VA_ARGS__), fdt_check())
#define P 3, 4, 0, 0x11223344 /* the property p of four bytes */
#define Q 3, 0, 2             /* the property q without bytes */
#define A 1, 0x61000000       /* a node of one letter */
#define B 1, 0x62000000

static void fdt_tokens(void)
{
    title("device tree: a root and END, and no less");
    JUDGE(1, 0, 2, 9);
    JUDGE(9);
    JUDGE(4);
    JUDGE(4, 9);
    JUDGE(2, 9);
    JUDGE(1, 0, 2);
    JUDGE(1, 0, 2, 4);
    JUDGE(1, 0, 9);
    JUDGE(1, 0);
    JUDGE(1);
    WORDS(1, 0, 2, 9);
    put_word(STRUCT_SIZE, 0);
    fdt_check();
    title("device tree: nothing behind END, one root, no property outside it");
    JUDGE(1, 0, 2, 9, 4);
    JUDGE(1, 0, 2, 9, 9);
    JUDGE(1, 0, 2, 9, 0);
    JUDGE(1, 0, 2, 1, 0, 2, 9);
    JUDGE(1, 0, 2, 4, 1, 0, 2, 9);
    JUDGE(P, 1, 0, 2, 9);
    JUDGE(4, Q, 1, 0, 2, 9);
    JUDGE(1, 0, 2, P, 9);
    JUDGE(1, 0, 2, 2, 9);
    JUDGE(1, 0, A, 2, 9);
    JUDGE(1, 0, A, 2, 2, 2, 9);
    JUDGE(1, 0, 9, 2, 9);
    JUDGE(1, 0, A, 9, 2, 2, 9);
    title("device tree: NOP before any token: the root, a property, a node, END_NODE, END; by twos");
    JUDGE(4, 1, 0, P, A, Q, 2, 2, 9);
    JUDGE(1, 0, 4, P, A, Q, 2, 2, 9);
    JUDGE(1, 0, P, 4, A, Q, 2, 2, 9);
    JUDGE(1, 0, P, A, 4, Q, 2, 2, 9);
    JUDGE(1, 0, P, A, Q, 4, 2, 2, 9);
    JUDGE(1, 0, P, A, Q, 2, 4, 2, 9);
    JUDGE(1, 0, P, A, Q, 2, 2, 4, 9);
    JUDGE(4, 4, 1, 0, 4, 4, P, 4, 4, A, 4, 4, Q, 4, 4, 2, 4, 4, 2, 4, 4, 9);
    fdt_find("/", "p");
    fdt_find("/a", "q");
    title("device tree: a property behind a subnode is 21, with a NOP between too; one in the subnode, and one before it, are accepted");
    JUDGE(1, 0, P, Q, A, P, 2, B, Q, P, 2, 2, 9);
    JUDGE(1, 0, A, 2, P, 2, 9);
    JUDGE(1, 0, A, 2, 4, Q, 2, 9);
    JUDGE(1, 0, Q, A, P, 2, Q, 2, 9);
    JUDGE(1, 0, A, B, 2, P, 2, 2, 9);
    JUDGE(1, 0, A, P, B, 2, 2, P, 2, 9);
    title("device tree, 21: any other token");
    for (uint32_t token = 0; token <= 10; token++)
        JUDGE(1, 0, token, 2, 9);
    JUDGE(1, 0, 0x01000000, 0, 2, 2, 9);
    JUDGE(1, 0, 0x04000000, 2, 9);
    JUDGE(0x01000000, 0, 2, 9);
    JUDGE(1, 0, 0x02000000, 9);
    JUDGE(1, 0, 2, 0x09000000);
    JUDGE(1, 0, 0xffffffff, 2, 9);
    JUDGE(1, 0, 0x10002, 9);
    JUDGE(1, 0, 0x104, 2, 9);
}

static void fdt_names(void)
{
    title("device tree, 21: the root's name is not empty; a node's name does not end in the structure; no name at all");
    JUDGE(1, 0x61000000, 2, 9);
    JUDGE(1, 0x2f000000, 2, 9);
    JUDGE(1, 0, 1, 0x61626364, 0, 2, 2, 9);
    JUDGE(1, 0, 1, 0x61626364, 2, 2, 9);
    JUDGE(1, 0, 1, 0x61626300, 2, 2, 9);
    JUDGE(1, 0, 1, 0x61626364);
    JUDGE(1, 0, 1);
    title("device tree: no letter is judged; what is behind the first zero is padding, and must be zero, each byte of it");
    JUDGE(1, 0, 1, 0x01ff2f00, 2, 1, 0x2f2f0000, 2, 2, 9);
    JUDGE(1, 0, 1, 0x61010000, 2, 2, 9);
    JUDGE(1, 0, 1, 0x61000100, 2, 2, 9);
    JUDGE(1, 0, 1, 0x61000001, 2, 2, 9);
    JUDGE(1, 0, 1, 0x61620001, 2, 2, 9);
    JUDGE(1, 0, 1, 0x61626364, 0x00000001, 2, 2, 9);
    JUDGE(1, 0, 1, 0x61626364, 0x00010000, 2, 2, 9);
    JUDGE(1, 0x00010000, 2, 9);
    JUDGE(1, 0x00000001, 2, 9);
    title("device tree: empty names below the root, equal siblings and equal properties are accepted");
    JUDGE(1, 0, 1, 0, 2, 1, 0, 2, 2, 9);
    JUDGE(1, 0, P, P, Q, P, A, P, 2, A, P, 2, 2, 9);
    title("device tree: a property's name: at the last zero byte, accepted; at the strings' size, and beyond, 21");
    JUDGE(1, 0, 3, 0, 1, 2, 9);
    JUDGE(1, 0, 3, 0, 3, 2, 9);
    fdt_find("/", "");
    JUDGE(1, 0, 3, 0, 4, 2, 9);
    JUDGE(1, 0, 3, 0, 5, 2, 9);
    JUDGE(1, 0, 3, 0, 0x80000000, 2, 9);
    JUDGE(1, 0, 3, 0, 0xffffffff, 2, 9);
    JUDGE(1, 0, 3, 0, 0xffffffb4, 2, 9);
    title("device tree: a property's name must end inside the strings block: a zero byte behind it does not serve");
    WORDS(1, 0, Q, 2, 9);
    put_word(STRINGS_SIZE, 3);
    fdt_check();
    WORDS(1, 0, 3, 0, 0, 2, 9);
    put_word(STRINGS_SIZE, 3);
    fdt_check();
    fdt_find("/", "p");
    put_word(STRINGS_SIZE, 2);
    fdt_check();
    put_word(STRINGS_SIZE, 1);
    fdt_check();
    put_word(STRINGS_SIZE, 0);
    fdt_check();
    title("device tree: an empty strings block, at the structure's end, at totalsize; not before, not behind");
    WORDS(1, 0, A, 2, 2, 9);
    put_word(STRINGS_SIZE, 0);
    fdt_check();
    put_word(STRINGS, 88);
    fdt_check();
    put_word(STRINGS, 89);
    fdt_check();
    put_word(STRINGS, 83);
    fdt_check();
    put_word(STRINGS, 0);
    fdt_check();
}

static void fdt_values(void)
{
    title("device tree: values of 0 to 8 bytes; padding behind them is zero, each byte of it");
    JUDGE(1, 0, 3, 0, 0, 3, 1, 0, 0xa1000000, 3, 2, 0, 0xa1a20000, 3, 3, 0, 0xa1a2a300, 3, 4, 0, 0xa1a2a3a4, 2, 9);
    JUDGE(1, 0, 3, 5, 0, 0xa1a2a3a4, 0xa5000000, 3, 6, 0, 0xa1a2a3a4, 0xa5a60000, 3, 7, 0, 0xa1a2a3a4, 0xa5a6a700, 3, 8, 0, 1, 2, 2, 9);
    JUDGE(1, 0, 3, 1, 0, 0xa1000001, 2, 9);
    JUDGE(1, 0, 3, 1, 0, 0xa1000100, 2, 9);
    JUDGE(1, 0, 3, 1, 0, 0xa1010000, 2, 9);
    JUDGE(1, 0, 3, 2, 0, 0xa1a20001, 2, 9);
    JUDGE(1, 0, 3, 2, 0, 0xa1a20100, 2, 9);
    JUDGE(1, 0, 3, 3, 0, 0xa1a2a301, 2, 9);
    JUDGE(1, 0, 3, 5, 0, 0xa1a2a3a4, 0xa5000001, 2, 9);
    JUDGE(1, 0, A, 3, 7, 2, 0xa1a2a3a4, 0xa5a6a780, 2, 2, 9);
    title("device tree: tokens inside a value are no tokens; a value over the rest is 21, and no sum wraps");
    JUDGE(1, 0, 3, 16, 0, 1, 2, 2, 9, 2, 9);
    JUDGE(1, 0, 3, 12, 0, 1, 2, 2, 9, 2, 9);
    JUDGE(1, 0, 3, 24, 0, 1, 2, 2, 9, 2, 9);
    JUDGE(1, 0, 3, 25, 0, 1, 2, 2, 9, 2, 9);
    JUDGE(1, 0, 3, 28, 0, 1, 2, 2, 9, 2, 9);
    JUDGE(1, 0, 3, 0x7fffffff, 0, 2, 9);
    JUDGE(1, 0, 3, 0x80000000, 0, 2, 9);
    JUDGE(1, 0, 3, 0xfffffff4, 0, 2, 9);
    JUDGE(1, 0, 3, 0xfffffff8, 0, 2, 9);
    JUDGE(1, 0, 3, 0xfffffffc, 0, 2, 9);
    JUDGE(1, 0, 3, 0xffffffff, 0, 2, 9);
    JUDGE(1, 0, 3, 0, 0);
    JUDGE(1, 0, 3, 0);
    JUDGE(1, 0, 3);
}

/* Not a call: n nodes inside each other, the root counted, `times` such trees side by side below one root; p in the innermost. */
static void put_nested(size_t n, size_t times)
{
    static const uint32_t p[4] = {P};
    uint32_t words[256] = {1, 0};
    size_t at = 2;
    for (size_t t = 0; t < times; t++) {
        for (size_t i = 1; i < n; i++) {
            words[at++] = 1;
            words[at++] = 0x61000000;
        }
        memcpy(words + at, p, sizeof p);
        at += 4;
        for (size_t i = 1; i < n; i++)
            words[at++] = 2;
    }
    words[at++] = 2;
    words[at++] = 9;
    put_words(words, at);
}

static void fdt_nesting(void)
{
    static const char deep[] = "/a/a/a/a/a/a/a/a/a/a/a/a/a/a/a/a/a";
    title("device tree: 16 nodes inside each other, the root counted, are accepted, 17 are 21; paths of 14 to 17 names");
    put_nested(16, 1);
    fdt_check();
    for (size_t n = 14; n <= 17; n++)
        fdt_find_bytes(deep, 2 * n, "p", 1);
    put_nested(17, 1);
    fdt_check();
    fdt_find_bytes(deep, 32, "p", 1);
    put_nested(15, 1);
    fdt_check();
    put_nested(16, 3);
    fdt_check();
    fdt_find_bytes(deep, 30, "p", 1);
    put_nested(18, 1);
    fdt_check();
}

/* A tree of 65,536 bytes: a NOP, the root, 5,452 nodes a without anything, and b with p. */
static void fdt_flat(void)
{
    title("device tree: 65,536 bytes, of nodes side by side, the one asked for last");
    len = 65536;
    memset(area.now, 0xee, SPACE);
    memcpy(area.now, hand_tree, 40);
    memset(area.now + 40, 0, 16);
    write_word(TOTAL, 65536);
    write_word(STRUCT, 56);
    write_word(STRINGS, 65528);
    write_word(STRINGS_SIZE, 2);
    write_word(STRUCT_SIZE, 65472);
    write_word(56, 4);
    write_word(60, 1);
    write_word(64, 0);
    for (size_t at = 68; at < 65492; at += 12) {
        write_word(at, 1);
        write_word(at + 4, 0x61000000);
        write_word(at + 8, 2);
    }
    write_word(65492, 1);
    write_word(65496, 0x62000000);
    write_word(65500, 3);
    write_word(65504, 4);
    write_word(65508, 0);
    write_word(65512, 0x11223344);
    write_word(65516, 2);
    write_word(65520, 2);
    write_word(65524, 9);
    write_word(65528, 0x7000eeee);
    printf("by hand: a tree of 65536 bytes, 5452 nodes a and one b with p\n");
    fdt_check();
    fdt_find("/b", "p");
    fdt_find("/a", "p");
    put_word(65524, 4);
    fdt_check();
    fdt_find("/b", "p");
}

#define X(byte) 3, 1, 0, (uint32_t)(byte) << 24 /* the property p of this byte */
#define Y(byte) 3, 1, 2, (uint32_t)(byte) << 24 /* the property q of this byte */

static void fdt_paths(void)
{
    title("device tree: paths are / or / before each name, none empty; any other finds nothing");
    JUDGE(1, 0, X(0), A, X(1), B, X(2), 2, 2, 1, 0, X(3), 2, 2, 9);
    fdt_find("/", "p");
    fdt_find("/a", "p");
    fdt_find("/a/b", "p");
    fdt_find("", "p");
    fdt_find("a", "p");
    fdt_find("a/b", "p");
    fdt_find("//", "p");
    fdt_find("///", "p");
    fdt_find("/a/", "p");
    fdt_find("//a", "p");
    fdt_find("/a//b", "p");
    fdt_find("/a/b/", "p");
    fdt_find("/b", "p");
    fdt_find("/a/a", "p");
    fdt_find("/a/b/b", "p");
    fdt_find("/aa", "p");
    fdt_find("/A", "p");
    fdt_find("/.", "p");
    fdt_find(" /a", "p");
    title("device tree: a zero byte in a path or a name never matches; the empty name is no property here");
    fdt_find_bytes("/a\0", 3, "p", 1);
    fdt_find_bytes("/\0", 2, "p", 1);
    fdt_find_bytes("\0", 1, "p", 1);
    fdt_find_bytes("/a\0b", 4, "p", 1);
    fdt_find_bytes("/a", 2, "p\0", 2);
    fdt_find_bytes("/a", 2, "\0", 1);
    fdt_find_bytes("/a", 2, "p\0q", 3);
    fdt_find("/a", "");
    fdt_find("", "");
    title("device tree: full names, with the unit address; no part of one, and none longer");
    JUDGE(1, 0, 1, 0x67403130, 0, X(1), 2, 1, 0x67000000, X(2), 2, 1, 0x67403100, X(3), 2, 2, 9);
    fdt_find("/g@10", "p");
    fdt_find("/g", "p");
    fdt_find("/g@1", "p");
    fdt_find("/g@", "p");
    fdt_find("/g@100", "p");
    fdt_find("/@10", "p");
    JUDGE(1, 0, 1, 0x67403130, 0, X(1), 2, 2, 9);
    fdt_find("/g", "p");
    fdt_find("/g@10", "p");
    title("device tree: nodes with an empty or a slashed name, and all below, cannot be reached; one with these names can");
    JUDGE(1, 0, 1, 0x612f6200, X(1), 2, 1, 0, X(2), A, X(3), 2, 2, 1, 0x2f610000, X(4), 2, 1, 0x622f0000, X(5), A, X(6), 2, 2, 2, 9);
    fdt_find("/a/b", "p");
    fdt_find("/", "p");
    fdt_find("//", "p");
    fdt_find("/a", "p");
    fdt_find("//a", "p");
    fdt_find("/b/", "p");
    fdt_find("/b//a", "p");
    fdt_find("/b/a", "p");
    JUDGE(1, 0, 1, 0x612f6200, X(1), 2, A, X(2), B, X(3), 2, 2, 2, 9);
    fdt_find("/a/b", "p");
}

static void fdt_first(void)
{
    title("device tree: of equal siblings all are looked into, in block order: of a{p} a{q}, q under /a is the second's");
    JUDGE(1, 0, A, X(1), 2, A, Y(2), 2, 2, 9);
    fdt_find("/a", "p");
    fdt_find("/a", "q");
    title("device tree: the first of equal siblings that has it; of equal properties the first; behind another node; NOPs between");
    JUDGE(1, 0, A, 2, B, X(9), 2, 4, A, 4, X(1), X(2), 2, A, X(3), 2, 2, 9);
    fdt_find("/a", "p");
    fdt_find("/a", "q");
    title("device tree: equal siblings on two levels; an earlier one that has the name deeper, or not so deep, does not count");
    JUDGE(1, 0, A, X(1), B, X(2), 2, 2, A, B, 2, B, Y(3), 2, 2, B, Y(4), A, Y(5), 2, 2, 2, 9);
    fdt_find("/a/b", "p");
    fdt_find("/a/b", "q");
    fdt_find("/b", "q");
    fdt_find("/b/a", "q");
    fdt_find("/a", "q");
    fdt_find("/", "q");
    title("device tree: block order: what stands deeper in the first sibling comes before the second sibling");
    JUDGE(1, 0, A, B, A, X(1), 2, 2, 2, A, B, X(2), A, X(3), 2, 2, 2, 2, 9);
    fdt_find("/a/b/a", "p");
    fdt_find("/a/b", "p");
    title("device tree: an empty value answers its offset and size 0, also as the last thing in its node");
    JUDGE(1, 0, Q, A, Q, 2, 2, 9);
    fdt_find("/", "q");
    fdt_find("/a", "q");
    title("device tree: 21 comes before 13, and is said even if what is asked for stands before the damage");
    WORDS(1, 0, X(1), A, X(2), 2, X(3), 2, 9);
    fdt_find("/", "p");
    fdt_find("/a", "p");
    fdt_find("", "p");
    fdt_find("/b", "p");
}

/* Not a call: a tree that dtc made, from the file; `make ctest` runs in the repository's root. */
static void put_file(const char *name)
{
    FILE *f = fopen(name, "rb");
    memset(area.now, 0xee, SPACE);
    len = f == NULL ? 0 : fread(area.now, 1, MOST, f);
    if (f != NULL)
        fclose(f);
    printf("by hand: %s, %zu bytes\n", name, len);
}

static void fdt_files(void)
{
    static const char nested[] = "/n2/n3/n4/n5/n6/n7/n8/n9/n10/n11/n12/n13/n14/n15/n16";
    title("device tree: the bench's, which dtc made");
    put_file("fdt/trees/bench.dtb");
    fdt_check();
    fdt_find("/", "model");
    fdt_find("/", "compatible");
    fdt_find("/chosen", "bootargs");
    fdt_find("/memory@80000000", "reg");
    fdt_find("/gauge@10", "reg");
    fdt_find("/gauge@10", "limits");
    fdt_find("/gauge@10", "certified");
    fdt_find("/gauge@20", "limits");
    fdt_find("/gauge@20", "certified");
    fdt_find("/gauge", "reg");
    fdt_find("gauge0", "reg");
    fdt_find("/gauge@10/", "reg");
    len--;
    fdt_check();
    fdt_find("/", "model");
    title("device tree: values of 0 to 8 bytes, which dtc made");
    put_file("fdt/trees/values.dtb");
    fdt_check();
    for (char digit = '0'; digit <= '8'; digit++)
        fdt_find("/", (const char[]){'v', digit, 0});
    fdt_find("/a", "only");
    fdt_find("/ab", "v0");
    fdt_find("/ab", "v1");
    fdt_find("/abcd", "v8");
    fdt_find("/abcde", "v0");
    title("device tree: 16 nodes inside each other, which dtc made");
    put_file("fdt/trees/nested.dtb");
    fdt_check();
    fdt_find(nested, "level");
    fdt_find("/", "level");
    title("device tree: reservations, which dtc made");
    put_file("fdt/trees/reserved.dtb");
    fdt_check();
    fdt_find("/log@80000000", "kept");
    title("device tree: an overlay applied by fdtoverlay, its padding cleaned by dtc");
    put_file("fdt/trees/overlaid.dtb");
    fdt_check();
    fdt_find("/bus@0", "status");
    fdt_find("/bus@0/gauge@10", "power");
    fdt_find("/bus@0/gauge@20", "unit");
    fdt_find("/bus@0/gauge@20", "spare");
}

/*
 * Where the bad entry is. The entries of `five` are at 24, 40, 56, 72 and 88, voids of `mixed` at 24, 72 and 120, and in edition 0.9 the
 * entries of `two_voids` at 16, 32, 48, 56 and 64. Byte 3 of an entry is its hdr_size, 4 to 7 its data_size.
 */

/*
 * Version 2 with hdr_size 25: at 32 tag 1 with hdr_size 16 and eight bytes; without data, at 56 a void with hdr_size 9 and at 72 tag 2 with
 * hdr_size 16; total_size 96. What the headers have more is not 0.
 */
static const uint8_t later[88] = {0x0b, 0xb1, 0x0f, 0x4a, 0x67, 0x02, 0x19, 0x03, 0x58, 0x00, 0x00, 0x00, 0x60, 0x00, 0x00, 0x00,
                                  0x01, 0x00, 0x00, 0x00, 0x00, 0x00, 0x00, 0x00, 0xc1, 0xc2, 0xc3, 0xc4, 0xc5, 0xc6, 0xc7, 0xc8,
                                  0x01, 0x00, 0x00, 0x10, 0x08, 0x00, 0x00, 0x00, 0xd1, 0xd2, 0xd3, 0xd4, 0xd5, 0xd6, 0xd7, 0xd8,
                                  0x11, 0x12, 0x13, 0x14, 0x15, 0x16, 0x17, 0x18, 0x00, 0x00, 0x00, 0x09, 0x00, 0x00, 0x00, 0x00,
                                  0xe1, 0x5a, 0x5a, 0x5a, 0x5a, 0x5a, 0x5a, 0x5a, 0x02, 0x00, 0x00, 0x10, 0x00, 0x00, 0x00, 0x00,
                                  0xf1, 0xf2, 0xf3, 0xf4, 0xf5, 0xf6, 0xf7, 0xf8};

/* Not a call: one byte is changed, and the checksum byte is put right, as else 7 CHECKSUM would come first. */
static void spoil(size_t at, uint8_t byte, uint8_t checksum)
{
    put(at, 1, byte);
    put(4, 1, checksum);
}

static void spoil_five(size_t at, uint8_t byte, uint8_t checksum)
{
    list("a list", five, sizeof five, 112, 0x1000);
    spoil(at, byte, checksum);
}

static void spoil_mixed(size_t at, uint8_t byte, uint8_t checksum)
{
    list("a list", mixed, sizeof mixed, 150, 0x1000);
    spoil(at, byte, checksum);
}

static void spoil_later(size_t at, uint8_t byte, uint8_t checksum)
{
    list("a list", later, sizeof later, 96, 0x1000);
    spoil(at, byte, checksum);
}

static void spoil_two_voids(size_t at, uint8_t byte, uint8_t checksum)
{
    list09(two_voids, sizeof two_voids, 96, 0x1000);
    spoil(at, byte, checksum);
}

static void spoil_version_2(size_t at, uint8_t byte, uint8_t checksum)
{
    list09(version_2, sizeof version_2, 48, 0x1000);
    spoil(at, byte, checksum);
}

/* Each call that makes the check, on the list as it is. */
static void every_check(void)
{
    every_call();
    certificate(SERIAL, TEST);
}

static void bad_sizes(void)
{
    title("bad entry, 8 ENTRY and where: hdr_size 9 of the first of five, of the middle one, of the last");
    spoil_five(27, 9, 0xf4);
    check();
    spoil_five(59, 9, 0xf4);
    every_check();
    spoil_five(91, 9, 0xf4);
    check();
    title("bad entry: hdr_size 0, 7, 16 and 255 of the middle one; 8 passes, and at is 0");
    spoil_five(59, 0, 0xfd);
    check();
    spoil(59, 7, 0xfa);
    check();
    spoil(59, 16, 0xed);
    check();
    spoil(59, 255, 0x02);
    check();
    spoil(59, 8, 0xf5);
    check();
    title("bad entry: a data_size up to used_size passes, one byte more does not: the first, the middle one, the last");
    spoil_five(28, 72, 0xb5);
    check();
    spoil(28, 73, 0xb4);
    check();
    spoil_five(60, 40, 0xd5);
    check();
    spoil(60, 41, 0xd4);
    every_check();
    spoil_five(92, 9, 0xf4);
    check();
    title("bad entry: data_size 0xfffffff8 and 0xffffffff of the middle one; no sum wraps");
    list("a list", five, sizeof five, 112, 0x1000);
    put(61, 3, 0xff);
    spoil(60, 0xf8, 0xfa);
    check();
    spoil(60, 0xff, 0xfd);
    check();
}

static void bad_voids(void)
{
    title("bad entry: a void's data_size 4: the first, the middle one, the last; 4 of an entry that is no void passes");
    spoil_mixed(28, 4, 0x75);
    check();
    spoil_mixed(76, 4, 0x75);
    every_check();
    spoil_mixed(124, 4, 0x75);
    check();
    spoil_mixed(52, 4, 0x7e);
    check();
}

static void bad_places(void)
{
    title("bad entry, two of them: the first in list order counts, whatever rule each breaks; without it the second");
    list("a list", five, sizeof five, 112, 0x1000);
    put(43, 1, 9);
    spoil(76, 57, 0xc5);
    every_check();
    spoil(43, 8, 0xc4);
    check();
    put(44, 1, 57);
    put(75, 1, 9);
    spoil(76, 8, 0xc5);
    check();
    put(40, 1, 0);
    spoil(44, 7, 0xf9);
    check();
    spoil(44, 8, 0xf6);
    check();
    title("bad entry: after a data_size of 0 what was data is read as an entry, which is the bad one");
    spoil_five(60, 0, 0xfd);
    every_check();
    title("bad entry: the offset is that in the area, whatever its base; in the last 8 of 65,536 bytes");
    list("a list", five, sizeof five, 112, 0);
    spoil(91, 9, 0xf4);
    check();
    list("a list", five, sizeof five, 112, TOP - 112);
    spoil(91, 9, 0xf4);
    check();
    create(65536, 0x1000, true);
    put_voids(24, 8189);
    put(8, 1, 0x00);
    put(10, 1, 0x01);
    spoil(65531, 9, 0xed);
    every_check();
}

static void bad_beside_others(void)
{
    title("bad entry: 7 CHECKSUM comes before it, with 0 there");
    list("a list", five, sizeof five, 112, 0x1000);
    put(59, 1, 9);
    every_check();
    title("bad entry: it comes before 9 TAG, 10 SHAPE, 11 ALIGN, 12 TARGET, 13 NONE, 14 ROOM and 18 CERTIFICATE");
    spoil(59, 9, 0xf4);
    find(0, 0);
    find(9, 0);
    add(0x800000, 3, false);
    add(6, 11, true);
    add(4, 17, true);
    add_aligned(0, 4, 4);
    add_aligned(5, 3, 4);
    add_aligned(4, 4, 22);
    add_aligned(4, 4, 12);
    strike(0, 0);
    strike(9, 0);
    relocate(LIMIT + 1, 0x2000);
    relocate(8, 0x2000);
    certificate(0, 0);
}

static void bad_beside_certificate(void)
{
    title("bad entry, and the certificate: behind it; its own entry, by hdr_size; behind one of 57 bytes, where 18 would be next");
    source = sound;
    create(128, 0x1000, true);
    add(TL_TAG_CERTIFICATE, 56, false);
    add(1, 8, false);
    add(2, 8, false);
    source = data;
    certificate(SERIAL, TEST);
    spoil(91, 9, 0xaf);
    certificate(SERIAL, TEST);
    spoil(27, 7, 0xa0);
    certificate(SERIAL, TEST);
    put(27, 1, 8);
    put(91, 1, 8);
    spoil(28, 57, 0xaf);
    certificate(SERIAL, TEST);
    spoil(28, 56, 0xae);
    certificate(SERIAL, TEST);
}

static void bad_later(void)
{
    title("bad entry, version 2: hdr_size 9 and 16 pass, 7 does not: the first, whose place is 32, the middle one, the last");
    list("a list", later, sizeof later, 96, 0x1000);
    check();
    spoil(35, 7, 0x70);
    check();
    spoil_later(59, 7, 0x69);
    every_check();
    spoil_later(75, 7, 0x70);
    check();
    title("bad entry, version 2: a hdr_size of 16 with 8 bytes left, and of 9; 8 passes; a hdr_size of 255");
    spoil_later(8, 80, 0x67);
    every_check();
    spoil(75, 9, 0x7e);
    check();
    spoil(75, 8, 0x7f);
    check();
    spoil(75, 255, 0x88);
    check();
    title("bad entry, version 2: a data_size of 1 too many; a void of 4; version 255 likewise");
    spoil_later(76, 1, 0x66);
    check();
    spoil_later(60, 4, 0x63);
    check();
    spoil(5, 255, 0x9e);
    check();
}

static void bad_09(void)
{
    title("bad entry, edition 0.9: hdr_size 9 of the first of five, of the middle one, of the last");
    spoil_two_voids(19, 9, 0x72);
    check09();
    spoil_two_voids(51, 9, 0x72);
    every_call09();
    spoil_two_voids(67, 9, 0x72);
    check09();
    title("bad entry, edition 0.9: a data_size one too many: the first, the middle one, the last; 0xffffffff");
    spoil_two_voids(20, 57, 0xa2);
    check09();
    spoil_two_voids(52, 25, 0x8a);
    every_call09();
    spoil_two_voids(68, 9, 0x72);
    check09();
    put(69, 3, 0xff);
    spoil(68, 0xff, 0x65);
    check09();
    title("bad entry, edition 0.9: a void's data_size 4: the first, the second void, the last entry made one");
    spoil_two_voids(20, 4, 0x6d);
    check09();
    spoil_two_voids(60, 4, 0x75);
    every_call09();
    list09(two_voids, sizeof two_voids, 96, 0x1000);
    put(64, 1, 0);
    spoil(68, 4, 0x67);
    check09();
}

static void bad_09_beside_others(void)
{
    title("bad entry, edition 0.9, two of them: the first counts; 7 CHECKSUM comes before them, with 0 there");
    spoil_two_voids(35, 7, 0x70);
    check09();
    spoil(51, 7, 0x6f);
    every_call09();
    put(4, 1, 0x6e);
    every_call09();
    title("bad entry, edition 0.9: it comes before 9 TAG, 12 TARGET, 13 NONE and 14 ROOM");
    spoil(51, 8, 0x70);
    find09(0, 0);
    find09(9, 0);
    convert09(LIMIT + 1, 0x2000);
    convert09(0, 0x2000);
    title("bad entry, edition 0.9, version 2: 7 is bad; a header of 16 with 8 bytes left; the second entry; 5 READONLY with 0 there");
    spoil_version_2(27, 7, 0x0d);
    every_call09();
    spoil_version_2(8, 32, 0xe1);
    every_call09();
    spoil_version_2(28, 0, 0x14);
    check09();
    put(40, 8, 0);
    spoil(43, 16, 0xa3);
    every_call09();
    spoil(43, 9, 0x9c);
    check09();
    spoil(43, 7, 0x9a);
    check09();
    spoil(43, 8, 0x9b);
    check09();
}

static void no_list_check(void)
{
    title("bad entry: create and the device tree's lookup look at no list, and have 0 there");
    create(112, 0x1000, true);
    create(24, 0x1000, true);
    put_hand_tree(176);
    fdt_find("/a", "p");
    fdt_find("/a", "r");
    len = 175;
    fdt_find("/a", "p");
}

/*
 * Power cuts. Each edit and each recovery is made as a whole call; then in steps, from the same bytes; then it is cut after each number of
 * stores, from none to all, and recovered, where the recovery is also cut after each number of its stores and made again.
 */

#define SMALL 512u /* the most that is lent of an area and of a journal where this is done */

typedef struct {
    uint8_t area[SMALL], journal[SMALL];
} pair;

/* What is asked for, whether as a whole call or in steps. */
typedef struct {
    enum { ADD, ADD_ALIGNED, STRIKE, RECOVER } what;
    uint32_t tag;
    size_t n;            /* of an add, how many bytes of data */
    bool use_voids;      /* of an add that is not aligned */
    uint32_t exponent;   /* of an aligned add */
    uint64_t occurrence; /* of a void */
} job;

static const job recovery = {RECOVER, 0, 0, false, 0, 0};

static const uint8_t *data_of(job j)
{
    return j.n == 0 ? NULL : source;
}

static tl_done whole(job j, uint8_t *a, uint8_t *records)
{
    switch (j.what) {
    case ADD: return tl_add_journalled(a, len, base, j.tag, data_of(j), j.n, j.use_voids, records, journal_len);
    case ADD_ALIGNED: return tl_add_aligned_journalled(a, len, base, j.tag, data_of(j), j.n, j.exponent, records, journal_len);
    case STRIKE: return tl_void_journalled(a, len, base, j.tag, j.occurrence, records, journal_len);
    default: return tl_recover(a, len, records, journal_len);
    }
}

static tl_stepped decide(job j, const uint8_t *a, const uint8_t *records)
{
    switch (j.what) {
    case ADD: return tl_add_steps(a, len, base, j.tag, data_of(j), j.n, j.use_voids, records, journal_len);
    case ADD_ALIGNED: return tl_add_aligned_steps(a, len, base, j.tag, data_of(j), j.n, j.exponent, records, journal_len);
    case STRIKE: return tl_void_steps(a, len, base, j.tag, j.occurrence, records, journal_len);
    default: return tl_recover_steps(a, len, records, journal_len);
    }
}

static tl_stepped step(job j, tl_steps state, uint8_t *a, uint8_t *records)
{
    return tl_step(state, a, len, data_of(j), j.n, records, journal_len);
}

static bool same_done(tl_done a, tl_done b)
{
    return a.number == b.number && a.value == b.value && a.at == b.at;
}

/* Whether an answer that has not ended has only zeros, as it must. */
static bool well_formed(tl_stepped s)
{
    return s.ended == 1 || (s.ended == 0 && same_done(s.done, (tl_done){0, 0, 0}));
}

/* Makes at most so many steps, and counts them. `right` is cleared if an answer on the way is not as it must be, or deciding stored. */
static unsigned run(job j, pair *p, unsigned most, tl_stepped *s, bool *right)
{
    const pair given = *p;
    uint8_t *a = len == 0 ? NULL : p->area, *records = journal_len == 0 ? NULL : p->journal;
    unsigned stores = 0;
    *s = decide(j, a, records);
    *right &= well_formed(*s) && memcmp(&given, p, sizeof given) == 0;
    for (; s->ended == 0 && stores < most; stores++) {
        *s = step(j, s->state, a, records);
        *right &= well_formed(*s);
    }
    return stores;
}

enum { OLD, NEW, OTHER, SIDES };

/* What a recovery gives: the area as it was before the call, or as it is now. It must answer 0 and leave every kind 0. */
static int recovered(pair p)
{
    tl_done d = tl_recover(len == 0 ? NULL : p.area, len, journal_len == 0 ? NULL : p.journal, journal_len);
    for (size_t i = 0; i < journal_len / 16; i++)
        if (p.journal[16 * i] != 0)
            return OTHER;
    if (!same_done(d, (tl_done){0, 0, 0}))
        return OTHER;
    return memcmp(p.area, area.now, SMALL) == 0 ? NEW : memcmp(p.area, area.before, SMALL) == 0 ? OLD : OTHER;
}

/* The same, the recovery being cut after each number of its stores and made again. */
static void recovered_twice(const pair *p, unsigned count[SIDES])
{
    tl_stepped s;
    bool right = true;
    unsigned most = 0;
    do {
        pair q = *p;
        run(recovery, &q, most++, &s, &right);
        count[right ? recovered(q) : OTHER]++;
    } while (s.ended == 0);
}

static pair both_before(void)
{
    pair p;
    memcpy(p.area, area.before, SMALL);
    memcpy(p.journal, journal.before, SMALL);
    return p;
}

static void cut_everywhere(job j, unsigned stores)
{
    unsigned once[SIDES] = {0}, twice[SIDES] = {0}, first_new = 0;
    for (unsigned cut = 0; cut <= stores; cut++) {
        pair p = both_before();
        tl_stepped s;
        bool right = true;
        run(j, &p, cut, &s, &right);
        int side = right ? recovered(p) : OTHER;
        if (side == NEW && once[NEW] == 0)
            first_new = cut;
        once[side]++;
        recovered_twice(&p, twice);
    }
    printf("  cut after 0 to %u stores and recovered: %u old, %u new, %u other", stores, once[OLD], once[NEW], once[OTHER]);
    printf("; the first new one after %u\n", first_new);
    printf("  the recovery cut too: %u old, %u new, %u other\n", twice[OLD], twice[NEW], twice[OTHER]);
}

/* The whole call has been made. */
static void in_steps(job j, tl_done d)
{
    pair p = both_before();
    tl_stepped s;
    bool right = true;
    unsigned stores = run(j, &p, UINT_MAX, &s, &right);
    right &= s.ended == 1 && same_done(s.done, d);
    right &= memcmp(p.area, area.now, SMALL) == 0 && memcmp(p.journal, journal.now, SMALL) == 0;
    printf("  in steps: %u stores, %s\n", stores, right ? "the same answer and bytes" : "NOT THE SAME");
    if (stores > 0)
        cut_everywhere(j, stores);
}

static void print_job(const char *form, job j)
{
    switch (j.what) {
    case ADD:
        printf("tl_add%s: tag 0x%" PRIx32 ", %zu bytes, voids %s", form, j.tag, j.n, j.use_voids ? "yes" : "no");
        break;
    case ADD_ALIGNED:
        printf("tl_add_aligned%s: tag 0x%" PRIx32 ", %zu bytes, exponent %" PRIu32, form, j.tag, j.n, j.exponent);
        break;
    case STRIKE:
        printf("tl_void%s: tag 0x%" PRIx32 ", occurrence %" PRIu64, form, j.tag, j.occurrence);
        break;
    default:
        printf("tl_recover%s: area of %zu bytes", form, len);
    }
    printf(", journal of %zu bytes\n", journal_len);
}

static void make(job j)
{
    print_job(j.what == RECOVER ? "" : "_journalled", j);
    keep();
    tl_done d = whole(j, lend(&area, len), lend(&journal, journal_len));
    show_done(d);
    show_buffer(&journal, journal_len);
    if (len <= SMALL && journal_len <= SMALL)
        in_steps(j, d);
}

static void add_journalled(uint32_t tag, size_t n, bool use_voids)
{
    make((job){ADD, tag, n, use_voids, 0, 0});
}

static void add_aligned_journalled(uint32_t tag, size_t n, uint32_t exponent)
{
    make((job){ADD_ALIGNED, tag, n, false, exponent, 0});
}

static void strike_journalled(uint32_t tag, uint64_t occurrence)
{
    make((job){STRIKE, tag, 0, false, 0, occurrence});
}

static void recover(void)
{
    make(recovery);
}

/* Not a call: a journal in which every kind is 0. All its other bytes are ee, so that every byte written is seen. */
static void put_journal(size_t n)
{
    journal_len = n;
    memset(journal.now, 0xee, SPACE);
    for (size_t i = 0; i < n / 16; i++)
        journal.now[16 * i] = 0;
    printf("by hand: a journal of %zu bytes, ee but for the kinds of its %zu records, which are 0\n", n, n / 16);
}

static void put_kind(size_t record, uint8_t kind)
{
    printf("by hand: record %zu has kind %u\n", record, kind);
    journal.now[16 * record] = kind;
}

/* Bytes 1 to 3 stay ee, and so do all bytes of a commit but its kind: a recovery does not judge them. */
static void put_record(size_t record, uint32_t offset, uint8_t byte)
{
    uint8_t *to = journal.now + 16 * record;
    *to = 1;
    for (int i = 0; i < 4; i++)
        to[4 + i] = (uint8_t)(offset >> 8 * i);
    memset(to + 8, byte, 8);
    printf("by hand: record %zu is a word at %" PRIu32 ", eight times %02x\n", record, offset, byte);
}

static void journal_adds(void)
{
    title("journal: to A add tag 1, data aa bb cc: four words, exactly five records; the area is B's");
    create(64, 0x1000, true);
    put_journal(80);
    add_journalled(1, 3, false);
    check();
    title("journal: a record more, whose kind is stored too; 15 bytes more, which stay; a byte and a record too few are 16 JOURNAL");
    create(64, 0x1000, true);
    put_journal(96);
    add_journalled(1, 3, false);
    create(64, 0x1000, true);
    put_journal(79);
    add_journalled(1, 3, false);
    put_journal(64);
    add_journalled(1, 3, false);
    put_journal(95);
    add_journalled(1, 3, false);
    title("journal: a second edit with the same journal, whose spent records keep their bytes");
    add_journalled(0xfff001, 8, false);
    title("journal: a kind that is not 0 is 16 JOURNAL, in a record that the edit would not use too, but not behind the whole records");
    create(64, 0x1000, true);
    put_journal(111);
    put_kind(5, 1);
    add_journalled(1, 3, false);
    put_kind(5, 2);
    add_journalled(1, 3, true);
    put_kind(5, 0);
    put_kind(0, 255);
    add_journalled(1, 3, false);
    add_aligned_journalled(4, 3, 4);
    put_kind(0, 3);
    add_journalled(1, 3, false);
    put_kind(0, 0);
    put_kind(6, 1);
    add_journalled(1, 3, false);
    put_kind(2, 1);
    strike_journalled(1, 0);
}

static void journal_lengths(void)
{
    title("journal: of 0, 15, 16, 31 and 32 bytes, 16 JOURNAL where two or three words change");
    static const size_t lengths[] = {0, 15, 16, 31, 32};
    create(64, 0x1000, true);
    add(4, 0, false);
    for (size_t i = 0; i < sizeof lengths / sizeof *lengths; i++) {
        put_journal(lengths[i]);
        add_journalled(1, 0, true);
        add_aligned_journalled(1, 0, 3);
        strike_journalled(4, 0);
    }
    title("journal: 32 bytes are enough where one word changes, 31 are not: without a checksum; with one that stays as it is");
    create(64, 0x1000, false);
    add(1, 0, false);
    put_journal(31);
    strike_journalled(1, 0);
    put_journal(32);
    strike_journalled(1, 0);
    create(64, 0x1000, true);
    add(0x101, 0, false);
    put_journal(32);
    strike_journalled(0x101, 0);
    check();
}

static void journal_refusals(void)
{
    title("journal: 14 ROOM, 13 NONE, 11 ALIGN, 10 SHAPE and 9 TAG come before 16 JOURNAL, which two causes would have");
    create(32, 0x1000, true);
    put_journal(16);
    put_kind(0, 1);
    add_journalled(1, 1, true);
    add_aligned_journalled(4, 4, 6);
    strike_journalled(1, 0);
    add_aligned_journalled(4, 4, 2);
    add_aligned_journalled(4, 4, 22);
    add_journalled(6, 11, false);
    add_aligned_journalled(0x104, 17, 4);
    add_journalled(0x800000, 3, false);
    add_aligned_journalled(0, 4, 4);
    strike_journalled(0, 0);
    add_journalled(1, 0, false);
    title("journal: 8 ENTRY with its place comes before 16 JOURNAL");
    spoil_five(59, 9, 0xf4);
    put_journal(0);
    add_journalled(1, 3, false);
    add_aligned_journalled(4, 4, 4);
    strike_journalled(1, 0);
    title("journal: 7 CHECKSUM, 6 SIZES, 5 READONLY, 4 VERSION, 3 SIGNATURE, 2 SHORT and 1 AREA do");
    put(4, 1, 0xf5);
    add_journalled(1, 3, false);
    put(7, 1, 22);
    add_aligned_journalled(4, 4, 4);
    put(5, 1, 2);
    strike_journalled(1, 0);
    put(5, 1, 0);
    add_journalled(1, 3, true);
    put(0, 1, 0x0a);
    add_aligned_journalled(4, 4, 4);
    len = 23;
    strike_journalled(1, 0);
    len = 0;
    add_journalled(1, 0, false);
    base = 0x1004;
    add_aligned_journalled(4, 0, 4);
}

/* To a list with a void of 8 tag 2 with n bytes is added, with exactly so many records. */
static void add_to_void_of_8(size_t n, size_t records)
{
    create(64, 0x1000, true);
    add(1, 3, false);
    strike(1, 0);
    put_journal(16 * records - 1);
    add_journalled(2, n, true);
    put_journal(16 * records);
    add_journalled(2, n, true);
}

static void journal_voids_used(void)
{
    title("journal: to C add tag 2, no data, voids allowed: three words; the area is D's, with a void behind");
    add_to_void_of_8(0, 4);
    check();
    title("journal: eight bytes, which fill the void: three words");
    add_to_void_of_8(8, 4);
    title("journal: eight bytes 0 there, which do not change: two words");
    source = zeros;
    add_to_void_of_8(8, 3);
    title("journal: nine bytes 0, for which the void is too small: at the end, where the data do not change");
    add_to_void_of_8(9, 4);
    source = data;
}

static void journal_aligned(void)
{
    title("journal: G, exponent 6: the header of a void of 24, data at 0x1040: five words; exponent 4, no padding: four");
    create(128, 0x1000, true);
    put_journal(95);
    add_aligned_journalled(4, 4, 6);
    put_journal(96);
    add_aligned_journalled(4, 4, 6);
    check();
    create(64, 0x1000, true);
    put_journal(80);
    add_aligned_journalled(4, 4, 4);
    title("journal: the same with exponent 6 where the bytes behind used are not 0: three words more, the void's data");
    create(128, 0x1000, true);
    put(24, 104, 0xee);
    put_journal(143);
    add_aligned_journalled(4, 4, 6);
    put_journal(144);
    add_aligned_journalled(4, 4, 6);
}

static void journal_strikes(void)
{
    title("journal: void tag 1 in B: three words; the area is C's; then there is none");
    create(64, 0x1000, true);
    add(1, 3, false);
    put_journal(63);
    strike_journalled(1, 0);
    put_journal(64);
    strike_journalled(1, 0);
    strike_journalled(1, 0);
    title("journal: an area of 70 bytes, of which the last six belong to no word");
    create(70, 0x1000, true);
    put(64, 6, 0xee);
    put_journal(100);
    add_journalled(1, 17, false);
    put_journal(128);
    add_journalled(1, 17, false);
    strike_journalled(1, 0);
}

/* Which bytes a step changed, in what was lent or beyond it. */
static unsigned show_changes(const buffer *b)
{
    unsigned count = 0;
    for (size_t i = 0; i < SPACE; i++)
        if (b->now[i] != b->before[i]) {
            printf(" %s byte %zu, %02x to %02x", b->name, i, b->before[i], b->now[i]);
            count++;
        }
    return count;
}

static void show_stepped(tl_stepped s)
{
    unsigned changes = show_changes(&area);
    changes += show_changes(&journal);
    printf("%s; ended %" PRIu32 ", number %" PRIu32, changes == 0 ? " no byte changed" : "", s.ended, s.done.number);
    printf(", value %" PRIu32 ", at %" PRIu32 "\n", s.done.value, s.done.at);
}

/* The steps one by one, and two more after the end. */
static void make_steps(job j)
{
    unsigned stores = 0, after = 0;
    print_job("_steps", j);
    keep();
    tl_stepped s = decide(j, lend(&area, len), lend(&journal, journal_len));
    printf("  decided:");
    show_stepped(s);
    while (after < 2) {
        if (s.ended == 0)
            printf("  store %u:", ++stores);
        else
            printf("  step %u after the end:", ++after);
        keep();
        s = step(j, s.state, lend(&area, len), lend(&journal, journal_len));
        show_stepped(s);
    }
}

/* Striking out an entry without data changes two words, at 0 and 24; the commit's kind is store 48, of 68 in all. */
static const job small_strike = {STRIKE, 1, 0, false, 0, 0};

static void put_small(void)
{
    create(64, 0x1000, true);
    add(1, 0, false);
    put_journal(64);
}

/* Not a call: so many stores of the small edit are made. */
static void run_small(unsigned stores)
{
    put_small();
    pair p = {{0}, {0}};
    tl_stepped s;
    bool right = true;
    memcpy(p.area, area.now, SMALL);
    memcpy(p.journal, journal.now, SMALL);
    printf("by steps: %u stores of striking out tag 1\n", run(small_strike, &p, stores, &s, &right));
    memcpy(area.now, p.area, SMALL);
    memcpy(journal.now, p.journal, SMALL);
}

/* The area and the journal are shown as the cut leaves them. */
static void cut_small(unsigned stores)
{
    run_small(stores);
    show_hex(area.now, len);
    show_hex(journal.now, journal_len);
    check();
    recover();
    check();
}

static void journal_steps(void)
{
    title("journal: striking out an entry without data, store by store, with four records: two words; the commit is store 48");
    put_small();
    make_steps(small_strike);
    title("journal: cut one store before the commit: the old area; with the commit, in the second word, after the first kind: the new one");
    cut_small(47);
    cut_small(48);
    cut_small(60);
    cut_small(65);
    title("journal: a recovery store by store, of what a cut behind the commit left; of an empty journal; without a record");
    run_small(48);
    make_steps(recovery);
    make_steps(recovery);
    put_journal(15);
    make_steps(recovery);
    put_journal(0);
    make_steps(recovery);
    title("journal: a refusal comes with no step, and again with each step that is made all the same");
    put_journal(0);
    make_steps((job){STRIKE, 1, 0, false, 0, 0});
    make_steps((job){ADD, 2, 3, true, 0, 0});
    make_steps((job){ADD_ALIGNED, 2, 17, false, 6, 0});
    put_journal(32);
    put_kind(0, 3);
    make_steps(recovery);
    spoil_five(59, 9, 0xf4);
    make_steps((job){ADD, 2, 3, true, 0, 0});
}

/* An area in which no list is: n bytes, each ee. */
static void put_bytes(size_t n)
{
    len = n;
    memset(area.now, 0xee, SPACE);
    printf("by hand: an area of %zu bytes, all ee\n", n);
}

static void recoveries(void)
{
    title("recovery: an empty journal; no whole record; none and no area");
    put_bytes(24);
    put_journal(50);
    recover();
    put_journal(15);
    recover();
    put_journal(0);
    recover();
    put_bytes(0);
    recover();
    put_journal(32);
    recover();
    title("recovery: words and a commit, though no list is there and bytes 1 to 3 and the commit's are not 0; again, nothing changes");
    put_bytes(27);
    put_journal(64);
    put_record(0, 16, 0x11);
    put_record(1, 0, 0x22);
    put_kind(2, 2);
    recover();
    recover();
    title("recovery: a commit alone, first and behind an empty record; words behind an empty record are not applied");
    put_journal(48);
    put_kind(0, 2);
    recover();
    put_kind(1, 2);
    put_kind(2, 2);
    recover();
    put_record(1, 8, 0x33);
    put_kind(2, 2);
    recover();
    title("recovery: words and no commit: an empty record behind them; none behind them; a commit only in the odd bytes");
    put_record(0, 8, 0x33);
    recover();
    put_record(0, 8, 0x33);
    put_record(1, 0, 0x44);
    put_record(2, 16, 0x55);
    recover();
    put_journal(47);
    put_record(0, 8, 0x33);
    put_record(1, 0, 0x44);
    put_kind(2, 2);
    recover();
    title("recovery: words behind the commit are not applied; nor behind an empty record a second row with its commit");
    put_journal(96);
    put_record(0, 8, 0x66);
    put_kind(1, 2);
    put_record(2, 0, 0x77);
    put_kind(3, 2);
    put_record(4, 16, 0x88);
    put_kind(5, 2);
    recover();
    put_record(0, 0, 0x99);
    put_record(2, 8, 0xaa);
    put_kind(3, 2);
    recover();
    title("recovery: equal offsets: the later one stays");
    put_record(0, 8, 0x12);
    put_record(1, 0, 0x34);
    put_record(2, 8, 0x56);
    put_kind(3, 2);
    recover();
}

/* A journal of four records: two words, the second at this offset, and a commit behind them. */
static void recover_at(uint32_t offset)
{
    put_journal(64);
    put_record(0, 0, 0x11);
    put_record(1, offset, 0x22);
    put_kind(2, 2);
    recover();
}

static void recoveries_refused(void)
{
    title("recovery, 17 FOREIGN: kind 3 behind the commit, kind 255 alone, kind 128 in the place of the commit; behind the whole records not");
    put_bytes(24);
    put_journal(64);
    put_record(0, 0, 0x11);
    put_kind(1, 2);
    put_kind(3, 3);
    recover();
    put_journal(64);
    put_kind(3, 255);
    recover();
    put_journal(64);
    put_record(0, 0, 0x11);
    put_kind(1, 128);
    recover();
    put_journal(63);
    put_record(0, 0, 0x11);
    put_kind(1, 2);
    put_kind(3, 3);
    recover();
    title("recovery, 17 FOREIGN: an offset that is no multiple of 8, though the word before it is good");
    put_bytes(24);
    recover_at(4);
    recover_at(1);
    recover_at(15);
    title("recovery, 17 FOREIGN: 16 + 8 exceeds 23, and not 24; 24 + 8 and 0x10000 + 8 exceed 24; no sum wraps; no area");
    put_bytes(23);
    recover_at(16);
    put_bytes(24);
    recover_at(16);
    recover_at(24);
    recover_at(0x10000);
    recover_at(0xfffffff8);
    recover_at(0xffffffff);
    put_bytes(0);
    recover_at(0);
    title("recovery: such words are not judged behind the commit, nor without one");
    put_bytes(24);
    put_journal(64);
    put_record(0, 8, 0x33);
    put_kind(1, 2);
    put_record(2, 4, 0x44);
    put_record(3, 0xfffffff8, 0x55);
    recover();
    put_record(0, 4, 0x66);
    put_record(1, 24, 0x77);
    recover();
    title("recovery: the area may have any length: of 16,777,217 bytes, all 0, the last word is stored as 0; behind it 17 FOREIGN");
    len = LIMIT + 1;
    put_journal(32);
    put_record(0, LIMIT - 8, 0x00);
    put_kind(1, 2);
    recover();
    put_record(0, LIMIT, 0x00);
    put_kind(1, 2);
    recover();
}

/* A step on the area and journal as they are, with so many of their bytes lent. */
static tl_stepped show_step(const char *what, tl_steps state, size_t area_lent, size_t journal_lent)
{
    printf("tl_step: %s, %zu bytes of area, %zu of journal\n ", what, area_lent, journal_lent);
    keep();
    tl_stepped s = tl_step(state, lend(&area, area_lent), area_lent, NULL, 0, lend(&journal, journal_lent), journal_lent);
    show_stepped(s);
    return s;
}

/* What came of steps with states that no step left. */
static unsigned tried, stored_more, stored_and_refused, not_refused_again, ill_formed;

static void try_state(tl_steps state, size_t area_lent, size_t journal_lent)
{
    uint8_t *a = lend(&area, area_lent), *records = lend(&journal, journal_lent);
    memcpy(area.now, area.before, SMALL);
    memcpy(journal.now, journal.before, SMALL);
    tl_stepped s = tl_step(state, a, area_lent, NULL, 0, records, journal_lent);
    size_t inside = differences(area.now, area.before, area_lent) + differences(journal.now, journal.before, journal_lent);
    size_t all = differences(area.now, area.before, SMALL) + differences(journal.now, journal.before, SMALL);
    bool refused = s.ended == 1 && same_done(s.done, (tl_done){TL_FOREIGN, 0, 0});
    tried++;
    stored_more += inside > 1 || all > inside;
    stored_and_refused += refused && all > 0;
    ill_formed += !well_formed(s);
    if (!refused)
        return;
    tl_stepped again = tl_step(s.state, a, area_lent, NULL, 0, records, journal_lent);
    tl_stepped elsewhere = tl_step(s.state, NULL, 0, NULL, 0, NULL, 0);
    bool same = again.ended == 1 && same_done(again.done, s.done) && elsewhere.ended == 1 && same_done(elsewhere.done, s.done);
    not_refused_again += !same || differences(area.now, area.before, SMALL) + differences(journal.now, journal.before, SMALL) > 0;
}

/* States with other places in them, on the buffers as they were kept. */
static void try_states(tl_steps state)
{
    static const uint64_t wide[] = {0, 1, 2, 3, 4, 23, 24, 63, 64, (uint64_t)1 << 32, UINT64_MAX / 16, UINT64_MAX - 7, UINT64_MAX};
    static const uint32_t narrow[] = {0, 1, 2, 7, 8, 9, 15, 16, 17, 255, 256, UINT32_MAX};
    for (uint32_t phase = 0; phase < 10; phase++)
        for (size_t i = 0; i < sizeof wide / sizeof *wide; i++)
            for (size_t w = 0; w < sizeof wide / sizeof *wide; w++)
                for (size_t b = 0; b < sizeof narrow / sizeof *narrow; b++) {
                    state.phase = phase;
                    state.index = wide[i];
                    state.word = wide[w];
                    state.byte = narrow[b];
                    try_state(state, 64, 64);
                    try_state(state, 20, 40);
                    try_state(state, 0, 64);
                    try_state(state, 64, 0);
                }
    memset(&state, 0, sizeof state);
    try_state(state, 64, 64);
    memset(&state, 0xff, sizeof state);
    try_state(state, 64, 64);
}

static void foreign_states(void)
{
    title("foreign state: phase 99 is 17 FOREIGN, and again, with any buffers");
    put_small();
    tl_steps state = decide(small_strike, area.now, journal.now).state;
    state.phase = 99;
    tl_stepped s = show_step("phase 99", state, 64, 64);
    s = show_step("the state that it gave", s.state, 64, 64);
    s = show_step("the state that it gave", s.state, 0, 0);
    s = show_step("the state that it gave", s.state, 17, 33);
    show_step("the state that it gave", s.state, 64, 64);
    title("foreign states: at most one byte is stored, and none where 17 FOREIGN is given, which stays");
    put_small();
    keep();
    try_states(decide(small_strike, area.now, journal.now).state);
    run_small(48);
    keep();
    try_states(state);
    printf("%u states: %u stored more than one byte, %u stored and gave 17, %u did not give 17 again, %u had numbers before the end\n", tried,
           stored_more, stored_and_refused, not_refused_again, ill_formed);
}

/* Every step is handed other buffers: of the area or the journal one byte is changed before it. */
static void foreign_buffers(void)
{
    unsigned calls = 0, more = 0, refused_and_stored = 0;
    title("foreign buffers: any byte changed before any step, or fewer lent: at most one byte is stored, and none with 17 FOREIGN");
    put_small();
    keep();
    for (unsigned cut = 0; cut < 68; cut++)
        for (size_t byte = 0; byte < 64 + 64 + 4; byte++) {
            pair p = both_before();
            tl_stepped s;
            bool right = true;
            run(small_strike, &p, cut, &s, &right);
            if (byte < 128)
                (byte < 64 ? p.area : p.journal)[byte % 64] ^= 0x81;
            size_t area_lent = byte < 128 ? 64 : byte == 128 ? 0 : byte == 129 ? 63 : 64;
            size_t journal_lent = byte < 128 ? 64 : byte == 130 ? 0 : byte == 131 ? 63 : 64;
            const pair given = p;
            s = tl_step(s.state, area_lent == 0 ? NULL : p.area, area_lent, NULL, 0, journal_lent == 0 ? NULL : p.journal, journal_lent);
            size_t inside = differences(p.area, given.area, area_lent) + differences(p.journal, given.journal, journal_lent);
            size_t all = differences(p.area, given.area, SMALL) + differences(p.journal, given.journal, SMALL);
            calls++;
            more += inside > 1 || all > inside || !right;
            refused_and_stored += s.ended == 1 && s.done.number == TL_FOREIGN && all > 0;
        }
    printf("%u steps: %u stored more than one byte, %u stored and gave 17\n", calls, more, refused_and_stored);
}

int main(void)
{
    zero_bytes = calloc(LIMIT + 1 + BEHIND, 1);
    if (zero_bytes == NULL) {
        fprintf(stderr, "no memory for %u bytes\n", LIMIT + 1 + BEHIND);
        return 2;
    }
    examples_a_to_h();
    examples_i_to_n();
    other_refusals();
    great_exponents();
    edition_09();
    refusals_09();
    conversions_09();
    event_logs();
    tidy_runs();
    tidy_kept();
    tidy_for_room();
    tidy_refusals();
    certificate_gates();
    certificate_readings();
    certificate_contents();
    certificate_identity();
    certificate_one();
    certificate_refusals();
    certificate_versions();
    certificate_adds();
    fdt_header();
    fdt_blocks();
    fdt_reservations();
    fdt_tokens();
    fdt_names();
    fdt_values();
    fdt_nesting();
    fdt_flat();
    fdt_paths();
    fdt_first();
    fdt_files();
    bad_sizes();
    bad_voids();
    bad_places();
    bad_beside_others();
    bad_beside_certificate();
    bad_later();
    bad_09();
    bad_09_beside_others();
    no_list_check();
    journal_adds();
    journal_lengths();
    journal_refusals();
    journal_voids_used();
    journal_aligned();
    journal_strikes();
    journal_steps();
    recoveries();
    recoveries_refused();
    foreign_states();
    foreign_buffers();
    free(zero_bytes);
    return 0;
}
