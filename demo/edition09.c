/*
 * A bench that still boots on edition 0.9 hands its list to a stage of the current edition, which checks it, converts it into
 * its own area, and goes on with it there. The data stay aligned, though the new header is 8 bytes longer.
 */
#include <stdio.h>
#include <string.h>

#include "table.h"
#include "transfer_list.h"

enum { DEVICE_TREE = 1, TICKET = 0xfff002, READING = 0xfff003 };
enum { OLD_BASE = 0x1000, TARGET_BASE = 0x24008 };

/* The bench's list, made by hand, since the library makes none of edition 0.9. Its device tree is aligned to 64 bytes. */
static uint8_t old_area[128] = {
    [0] = 0xff, 0xd0, 0x6e, 0x00, 0xaa, 1, 16, 6, 88, 0, 0, 0, 128, 0, 0, 0, /* checksum aa, version 1, size 88, max_size 128 */
    [16] = 0, 0, 0, 8, 32, 0, 0, 0,                                          /* a void of 32 */
    [56] = 1, 0, 0, 8, 8, 0, 0, 0, 0xd0, 0x0d, 0xfe, 0xed, 0, 0, 0, 8,       /* the device tree, its data at 0x1040 */
    [72] = 0x02, 0xf0, 0xff, 8, 7, 0, 0, 0, 'v', 'a', 'l', 'v', 'e', ' ', '7' /* the ticket */
};
static uint8_t new_area[192];

/* An entry's data in the old list and in the new one: the same bytes, at addresses that are equal modulo 64. */
static int kept(uint32_t tag, const uint8_t *list, size_t len, uint64_t base)
{
    tl_found old = tl09_find(old_area, sizeof old_area, OLD_BASE, tag, 0), now = tl_find(list, len, base, tag, 0);
    uint64_t from = OLD_BASE + old.offset, to = base + now.offset;
    int same = old.number == 0 && now.number == 0 && old.size == now.size && from % 64 == to % 64
        && memcmp(tl_data(old_area, old), tl_data(list, now), old.size) == 0;
    printf("  tag %06x: %u bytes at 0x%05llx, now at 0x%05llx, modulo 64 %2u and %2u: %s\n", (unsigned)tag, (unsigned)now.size,
           (unsigned long long)from, (unsigned long long)to, (unsigned)(from % 64), (unsigned)(to % 64), same ? "kept" : "NOT KEPT");
    return same;
}

int main(void)
{
    printf("what a bench on edition 0.9 hands over:\n  ");
    if (print_list09(old_area, sizeof old_area, OLD_BASE) != 0)
        return 1;
    print_hex(old_area, 88);
    printf("as a list of the current edition it is\n  ");
    if (print_list(old_area, sizeof old_area, OLD_BASE) != TL_SIGNATURE)
        return 1;

    tl_done d = tl09_convert(old_area, sizeof old_area, OLD_BASE, new_area, sizeof new_area, TARGET_BASE);
    printf("\nconverted into %zu bytes at 0x%05x: number %u, shift %u\n  ", sizeof new_area, (unsigned)TARGET_BASE, (unsigned)d.number,
           (unsigned)d.value);
    uint8_t *list = new_area + d.value;
    size_t len = sizeof new_area - d.value;
    uint64_t base = TARGET_BASE + d.value;
    if (d.number != 0 || print_list(list, len, base) != 0)
        return 1;
    print_hex(list, 96);
    if (!kept(DEVICE_TREE, list, len, base) || !kept(TICKET, list, len, base))
        return 1;

    d = tl_add(list, len, base, READING, (const uint8_t *)"lifts at 9.5", 12, true);
    printf("and extended as a list of the current edition: number %u, value %u\n  ", (unsigned)d.number, (unsigned)d.value);
    if (d.number != 0 || print_list(list, len, base) != 0)
        return 1;

    old_area[80] ^= 0x20;
    d = tl09_convert(old_area, sizeof old_area, OLD_BASE, new_area, sizeof new_area, TARGET_BASE);
    printf("\nwith one bit of the bench's ticket damaged the conversion is\n  ");
    print_refusal(d.number, d.at);
    return d.number == TL_CHECKSUM ? 0 : 1;
}
