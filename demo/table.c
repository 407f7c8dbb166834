#include "table.h"

#include <stdio.h>

#include "transfer_list.h"

/* There is no 15. */
static const char *const names[] = {
    "accepted", "AREA",     "SHORT", "SIGNATURE", "VERSION", "READONLY", "SIZES", "CHECKSUM",
    "ENTRY",    "TAG",      "SHAPE", "ALIGN",     "TARGET",  "NONE",     "ROOM",
    [TL_JOURNAL] = "JOURNAL", [TL_FOREIGN] = "FOREIGN",
    [TL_CERTIFICATE] = "CERTIFICATE", [TL_IDENTITY] = "IDENTITY", [TL_CONTENTS] = "CONTENTS",
    [TL_FDT] = "FDT"};

static const char *const causes[] = {
    "",
    "the area is not usable: base no multiple of 8, too long, or above 2^48",
    "the area is too short for a list",
    "this is not a transfer list of this edition",
    "version 0 is illegal",
    "a later version may be read, not edited or converted",
    "a size or the alignment in the header is wrong",
    "the checksum rule is broken",
    "an entry breaks a rule",
    "the tag is 0, too large or reserved",
    "this tag may not carry data of this length",
    "the exponent is outside 3 to 21",
    "the target is too long or above 2^48",
    "no such occurrence of the tag, or no such property",
    "there is no room for it",
    [TL_JOURNAL] = "the journal has a record that is not empty, or too few records for this edit",
    [TL_FOREIGN] = "the journal is none that an edit of this area left, or the state none that the step before left",
    [TL_CERTIFICATE] = "the list has not exactly one test certificate of 56 bytes",
    [TL_IDENTITY] = "the certificate is that of another valve or another test",
    [TL_CONTENTS] = "the certificate's kind, counts, calibration, limits or reading is not allowed",
    [TL_FDT] = "the device tree breaks a rule of its format, or its nodes are nested too deep",
};

const char *refusal_name(uint32_t number)
{
    return number < sizeof names / sizeof *names && names[number] != NULL ? names[number] : "unknown";
}

const char *refusal_cause(uint32_t number)
{
    return number < sizeof causes / sizeof *causes && causes[number] != NULL ? causes[number] : "";
}

void print_refusal(uint32_t number, uint32_t at)
{
    printf("refused %u %s", (unsigned)number, refusal_name(number));
    if (at != 0)
        printf(" at offset %u", (unsigned)at);
    printf(": %s\n", refusal_cause(number));
}

static uint32_t number_at(const uint8_t *bytes, size_t at, int width)
{
    uint32_t n = 0;
    while (width-- > 0)
        n = n << 8 | bytes[at + (size_t)width];
    return n;
}

uint32_t next_entry(const uint8_t *area, uint32_t at)
{
    return at + (area[at + 3] + number_at(area, at + 4, 4) + 7) / 8 * 8;
}

static const char *tag_name(uint32_t tag)
{
    switch (tag) {
    case 0: return "void";
    case TL_TAG_FDT: return "device tree";
    case 2: return "HOB block";
    case 3: return "HOB list";
    case 4: return "ACPI tables";
    case 5: return "TPM event log";
    case 6: return "TPM CRB base";
    case 0x100: return "OP-TEE pageable part";
    case 0x101: return "SPMC manifest";
    case 0x102: return "entry point";
    case 0x104: return "memory layout";
    case TL_TAG_CERTIFICATE: return "test certificate";
    default: return tag >= 0xfff000 ? "own use" : "other";
    }
}

/* The data's first bytes, in hex; of a device tree also whether it is accepted. */
static void print_data(uint32_t tag, const uint8_t *data, uint32_t size)
{
    uint32_t shown = size < 12 ? size : 12;
    for (uint32_t i = 0; i < shown; i++)
        printf(" %02x", data[i]);
    printf("%s%s\n", shown < size ? " .." : "",
           tag != TL_TAG_FDT ? "" : tl_fdt_check(data, size) == 0 ? "  tree accepted" : "  tree refused 21");
}

/* A row's columns up to the data's size. */
static void print_entry(const char *mark, const uint8_t *area, uint32_t at)
{
    uint32_t tag = number_at(area, at, 3), size = number_at(area, at + 4, 4);
    printf("%s%8u  %06x  %-20s  %10u  ", mark, (unsigned)at, (unsigned)tag, tag_name(tag), (unsigned)size);
}

/* The row of the bad entry, with its fault in the place of address and data. Only its 8 header bytes are read, which used_size covers. */
static void print_bad_entry(const uint8_t *area, uint32_t at, uint32_t used)
{
    uint32_t version = area[5], hdr_size = area[at + 3];
    uint64_t end = at + ((uint64_t)hdr_size + number_at(area, at + 4, 4) + 7) / 8 * 8;
    print_entry("->", area, at);
    if (version == 1 ? hdr_size != 8 : hdr_size < 8)
        printf("BAD: its header size is %u, not 8%s\n", (unsigned)hdr_size, version == 1 ? "" : " or more");
    else if (end > used)
        printf("BAD: it reaches %llu bytes beyond used_size\n", (unsigned long long)(end - used));
    else
        printf("BAD: a void's size is no multiple of 8\n");
}

/* The answer of either edition's check; in both, the header's fields up to total_size and the entries are alike. */
static uint32_t print_checked(tl_checked c, const uint8_t *area, uint64_t base, const char *checksum)
{
    if (c.number != 0)
        print_refusal(c.number, c.at);
    if (c.number != 0 && c.number != TL_ENTRY)
        return c.number;
    uint32_t used = number_at(area, 8, 4), total = number_at(area, 12, 4);
    printf("%sversion %u, used %u of %u, alignment 2^%u, checksum %02x (%s)", c.number == 0 ? "" : "  ", area[5], (unsigned)used,
           (unsigned)total, area[7], area[4], checksum);
    if (c.number == 0)
        printf(", %u live, %u void", (unsigned)c.live, (unsigned)c.voids);
    printf("\n    offset  tag     kind                        size  address         data\n");
    for (uint32_t at = (area[6] + 7u) / 8 * 8; at < (c.number == 0 ? used : c.at); at = next_entry(area, at)) {
        uint32_t tag = number_at(area, at, 3), hdr_size = area[at + 3], size = number_at(area, at + 4, 4);
        print_entry("  ", area, at);
        printf("0x%012llx ", (unsigned long long)(base + at + hdr_size));
        print_data(tag, area + at + hdr_size, size);
    }
    if (c.number != 0)
        print_bad_entry(area, c.at, used);
    return c.number;
}

uint32_t print_list(const uint8_t *area, size_t len, uint64_t base)
{
    tl_checked c = tl_check(area, len, base);
    return print_checked(c, area, base, (c.number == 0 || c.number == TL_ENTRY) && (area[16] & 1) ? "on" : "off");
}

uint32_t print_list09(const uint8_t *area, size_t len, uint64_t base)
{
    return print_checked(tl09_check(area, len, base), area, base, "a sum");
}

void print_hex(const uint8_t *bytes, size_t n)
{
    for (size_t i = 0; i < n; i += 16) {
        printf("  %6zu ", i);
        for (size_t j = i; j < n && j < i + 16; j++)
            printf(" %02x", bytes[j]);
        printf("\n");
    }
}
