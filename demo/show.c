/*
 * Shows a transfer list of either edition: show [FILE [BASE]]. Without a file, a sample, and then one with a bad entry. Exit status 0 if
 * accepted (of the samples the first counts), 1 if refused, 2 if the file cannot be read or there is no memory for it.
 */
#include <stdio.h>
#include <stdlib.h>

#include "table.h"

#define MOST 16777217u /* one byte more than a list may have; of a longer file so many are read, and refused */

/* Example B of the paper: one entry, tag 1, aa bb cc. */
static const uint8_t sample[64] = {0x0b, 0xb1, 0x0f, 0x4a, 0x5b, 0x01, 0x18, 0x03, 0x28, 0x00, 0x00, 0x00, 0x40, 0x00,
                                   0x00, 0x00, 0x01, 0x00, 0x00, 0x00, 0x00, 0x00, 0x00, 0x00, 0x01, 0x00, 0x00, 0x08,
                                   0x03, 0x00, 0x00, 0x00, 0xaa, 0xbb, 0xcc};

/* The same with a second entry, tag 4 with four bytes, whose data_size is said to be 36. The checksum is right. */
static const uint8_t bad_sample[64] = {0x0b, 0xb1, 0x0f, 0x4a, 0x27, 0x01, 0x18, 0x03, 0x38, 0x00, 0x00, 0x00, 0x40, 0x00,
                                       0x00, 0x00, 0x01, 0x00, 0x00, 0x00, 0x00, 0x00, 0x00, 0x00, 0x01, 0x00, 0x00, 0x08,
                                       0x03, 0x00, 0x00, 0x00, 0xaa, 0xbb, 0xcc, 0x00, 0x00, 0x00, 0x00, 0x00, 0x04, 0x00,
                                       0x00, 0x08, 0x24, 0x00, 0x00, 0x00, 0x11, 0x22, 0x33, 0x44, 0x00, 0x00, 0x00, 0x00};

/* The file's first MOST bytes, to be freed, and how many they are; NULL after a message where they cannot be read. */
static uint8_t *read_file(const char *name, size_t *len)
{
    FILE *f = fopen(name, "rb");
    uint8_t *bytes = f == NULL ? NULL : malloc(MOST);
    if (bytes != NULL)
        *len = fread(bytes, 1, MOST, f);
    if (bytes == NULL || ferror(f)) {
        perror(name);
        free(bytes);
        bytes = NULL;
    }
    if (f != NULL)
        fclose(f);
    return bytes;
}

static uint32_t show(const char *name, const uint8_t *area, size_t len, uint64_t base)
{
    int old = len >= 16 && area[0] == 0xff && area[1] == 0xd0 && area[2] == 0x6e && area[3] == 0x00;
    printf("%s, %s%zu bytes at 0x%llx: ", name, len == MOST ? "at least " : "", len, (unsigned long long)base);
    return old ? print_list09(area, len, base) : print_list(area, len, base);
}

int main(int argc, char **argv)
{
    uint64_t base = argc > 2 ? strtoull(argv[2], NULL, 0) : 0x1000;
    if (argc < 2) {
        uint32_t number = show("sample", sample, sizeof sample, base);
        show("sample with a bad entry", bad_sample, sizeof bad_sample, base);
        return number == 0 ? 0 : 1;
    }
    size_t len = 0;
    uint8_t *area = read_file(argv[1], &len);
    if (area == NULL)
        return 2;
    uint32_t number = show(argv[1], area, len, base);
    free(area);
    return number == 0 ? 0 : 1;
}
