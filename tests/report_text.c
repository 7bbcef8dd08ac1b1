/* Prints what the program `report` must print for a file: the numbers of mizdrek_report, once they are seen to be the
 * totals over the list of blocks that mizdrek_read_records gives. */
#include "mizdrek.h"

#include <inttypes.h>
#include <stdio.h>
#include <stdlib.h>

/* The longest file that the program takes. No record has fewer than 7 bytes, and no byte more than 8 places. */
#define LONGEST 65536
#define BLOCKS (LONGEST / 7)
#define PLACES (LONGEST * 8)

static uint8_t bytes[LONGEST + 1];
static uint32_t numbers[BLOCKS];
static size_t sides[2 * BLOCKS];
static int32_t levels[PLACES];

struct report {
    int64_t answer;
    uint64_t levels, magnitude;
};

static struct report by_list(size_t length)
{
    struct report report = {0, 0, 0};
    size_t places = 0;
    report.answer = mizdrek_read_records(bytes, length, numbers, BLOCKS, sides, 2 * BLOCKS, levels, PLACES);
    for (int64_t i = 0; i < report.answer; i++) {
        places += sides[2 * i] * sides[2 * i + 1];
    }
    for (size_t i = 0; i < places; i++) {
        report.levels += levels[i] != 0;
        report.magnitude += (uint64_t)llabs(levels[i]);
    }
    return report;
}

static int print(struct report report)
{
    if (report.answer < 0) {
        return printf("refused %" PRId64 "\n", -report.answer);
    }
    return printf("blocks %" PRId64 "\nlevels %" PRIu64 "\nmagnitude %" PRIu64 "\n",
                  report.answer, report.levels, report.magnitude);
}

int main(int argc, char **argv)
{
    FILE *file = argc == 2 ? fopen(argv[1], "rb") : NULL;
    if (!file) {
        fputs("report_text FILE\n", stderr);
        return 2;
    }
    size_t length = fread(bytes, 1, sizeof bytes, file);
    struct report report = {-MIZDREK_BAD_FILE, 0, 0};
    if (length <= LONGEST) {
        struct report list = by_list(length);
        report.answer = mizdrek_report(bytes, length, &report.levels, &report.magnitude);
        if (report.answer != list.answer || report.levels != list.levels || report.magnitude != list.magnitude) {
            fprintf(stderr, "mizdrek_report of %s gives other totals than the list that is read\n", argv[1]);
            return 1;
        }
    }
    fclose(file);
    return print(report) < 0;
}
