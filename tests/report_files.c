/* Writes files for the program `report` into a folder, always the same: random blocks, such with a byte changed, random
 * bytes, and files about the longest that the program takes. */
#include "mizdrek.h"

#include <stdio.h>
#include <stdlib.h>

/* How many files of each random kind. */
#define FILES 48

/* The longest file, and the most blocks and places of one. */
#define BYTES 65537
#define BLOCKS 64
#define PLACES (17 * 1024)

static uint8_t bytes[BYTES];
static uint32_t numbers[BLOCKS];
static size_t sides[2 * BLOCKS];
static int32_t levels[PLACES];

/* A random number below `end` (splitmix64). */
static size_t below(size_t end)
{
    static uint64_t state = 1;
    state += 0x9e3779b97f4a7c15;
    uint64_t z = state;
    z = (z ^ (z >> 30)) * 0xbf58476d1ce4e5b9;
    z = (z ^ (z >> 27)) * 0x94d049bb133111eb;
    return (z ^ (z >> 31)) % end;
}

/* The same, shifted right by less than `shifts`, so that small ones come up too. */
static size_t shifted(size_t end, size_t shifts)
{
    size_t number = below(end);
    return number >> below(shifts);
}

static int32_t any_level(void)
{
    int32_t magnitude = 1 + (int32_t)shifted((size_t)1 << 30, 30);
    return below(2) ? magnitude : -magnitude;
}

/* The records of the first `count` blocks, as bytes. */
static size_t written(size_t count)
{
    int64_t length = mizdrek_write_records(count, numbers, BLOCKS, sides, 2 * BLOCKS, levels, PLACES, bytes, BYTES);
    if (length < 0) {
        fprintf(stderr, "mizdrek_write_records refuses by %d\n", (int)-length);
        exit(1);
    }
    return (size_t)length;
}

/* Up to 15 blocks of any size, or up to 64 with sides of 4 and 8: at most 65536 bytes. */
static size_t any_blocks(void)
{
    size_t small = below(2), count = below(small ? 65 : 16), often = below(5), place = 0;
    uint32_t number = 0;
    for (size_t i = 0; i < count; i++) {
        number += 1 + (uint32_t)shifted(1 << 25, 26);
        numbers[i] = number;
        sides[2 * i] = (size_t)4 << below(small ? 2 : 4);
        sides[2 * i + 1] = (size_t)4 << below(small ? 2 : 4);
        for (size_t end = place + sides[2 * i] * sides[2 * i + 1]; place < end; place++) {
            levels[place] = below(4) < often ? any_level() : 0;
        }
    }
    return written(count);
}

/* Blocks of 32x32, with levels of 2^30 and -2^30 in turn at so many places. */
static size_t largest(size_t count, size_t standing)
{
    for (size_t i = 0; i < count; i++) {
        numbers[i] = (uint32_t)i;
        sides[2 * i] = sides[2 * i + 1] = 32;
    }
    for (size_t place = 0; place < count * 1024; place++) {
        levels[place] = place >= standing ? 0 : place % 2 ? -(1 << 30) : 1 << 30;
    }
    return written(count);
}

static size_t any_bytes(void)
{
    size_t length = shifted(BYTES, 17);
    for (size_t i = 0; i < length; i++) {
        bytes[i] = (uint8_t)below(256);
    }
    return length;
}

static void save(const char *folder, const char *name, int i, size_t length)
{
    char path[4096];
    snprintf(path, sizeof path, "%s/%s-%d", folder, name, i);
    FILE *file = fopen(path, "wb");
    if (!file || fwrite(bytes, 1, length, file) != length || fclose(file) != 0) {
        perror(path);
        exit(1);
    }
}

int main(int argc, char **argv)
{
    if (argc != 2) {
        fputs("report_files FOLDER\n", stderr);
        return 2;
    }
    for (int i = 0; i < FILES; i++) {
        size_t length = any_blocks();
        save(argv[1], "blocks", i, length);
        if (length > 0) {
            size_t place = shifted(length, 16);
            bytes[place] ^= (uint8_t)(1 + below(255));
            save(argv[1], "damaged", i, length);
        }
        save(argv[1], "random", i, any_bytes());
    }
    save(argv[1], "largest", 65536, largest(16, 15852));
    save(argv[1], "largest", 65537, largest(17, 15819));
    return 0;
}
