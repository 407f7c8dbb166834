/*
 * The paper's examples A to D, made with the library: a list is made, extended, voided and reused, each as a table and in hex. Then, on
 * from D, an add is refused since the space for it is in two small voids; the list is tidied, and the add is accepted.
 */
#include <stdio.h>
#include <string.h>

#include "table.h"
#include "transfer_list.h"

#define BASE 0x1000u

static uint8_t area[64];

/* What a call answered, and the list as it then is; a refused call has left it as it was. */
static void show(const char *what, tl_done d)
{
    printf("%s: ", what);
    if (d.number != 0) {
        print_refusal(d.number, d.at);
    } else {
        printf("number %u, value %u\n  ", (unsigned)d.number, (unsigned)d.value);
        print_list(area, sizeof area, BASE);
        print_hex(area, sizeof area);
    }
    printf("\n");
}

int main(void)
{
    static const uint8_t data[3] = {0xaa, 0xbb, 0xcc}, more[16] = {0x11, 0x22, 0x33};
    static uint8_t example_b[sizeof area];
    show("A, a new list of 64 bytes", tl_create(area, sizeof area, BASE, true));
    show("B, tag 1 with aa bb cc added", tl_add(area, sizeof area, BASE, 1, data, sizeof data, false));
    memcpy(example_b, area, sizeof area);
    show("C, that entry voided", tl_void(area, sizeof area, BASE, 1, 0));
    show("D, tag 2 without data in its place", tl_add(area, sizeof area, BASE, 2, NULL, 0, true));

    show("on from D, tag 4 with 16 bytes added, and the list is full", tl_add(area, sizeof area, BASE, 4, more, sizeof more, true));
    show("tag 2 voided: two voids without data stand side by side", tl_void(area, sizeof area, BASE, 2, 0));
    tl_done refused = tl_add(area, sizeof area, BASE, 1, data, sizeof data, true);
    show("tag 1 with aa bb cc, which needs the 16 bytes that the two voids have together", refused);
    tl_done tidied = tl_tidy(area, sizeof area, BASE);
    show("tidied: they are one void, of 8", tidied);
    tl_done added = tl_add(area, sizeof area, BASE, 1, data, sizeof data, true);
    show("tag 1 with aa bb cc in its place", added);
    show("tag 4 voided", tl_void(area, sizeof area, BASE, 4, 0));
    show("tidied: the void at the end is given back, and the list is that of B", tl_tidy(area, sizeof area, BASE));
    int right = refused.number == TL_ROOM && tidied.number == 0 && added.number == 0 && memcmp(area, example_b, sizeof area) == 0;
    return right ? 0 : 1;
}
