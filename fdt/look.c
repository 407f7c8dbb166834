/* look FILE [PATH NAME]: what the library says of a device tree in a file, and of a property in it. Exit status 0 if accepted and found. */
#include <inttypes.h>
#include <stdio.h>
#include <string.h>

#include "transfer_list.h"

int main(int argc, char **argv)
{
    static uint8_t data[1 << 24];
    FILE *f = argc == 2 || argc == 4 ? fopen(argv[1], "rb") : NULL;
    if (f == NULL) {
        fprintf(stderr, "look FILE [PATH NAME]\n");
        return 2;
    }
    size_t len = fread(data, 1, sizeof data, f);
    fclose(f);
    if (argc == 2) {
        uint32_t number = tl_fdt_check(data, len);
        printf("%s: %zu bytes, %" PRIu32 "\n", argv[1], len, number);
        return number == 0 ? 0 : 1;
    }
    tl_found found = tl_fdt_find(data, len, (const uint8_t *)argv[2], strlen(argv[2]), (const uint8_t *)argv[3], strlen(argv[3]));
    printf("%s: %s of %s: %" PRIu32 ", offset %" PRIu32 ", size %" PRIu32 "\n", argv[1], argv[3], argv[2], found.number, found.offset,
           found.size);
    return found.number == 0 ? 0 : 1;
}
