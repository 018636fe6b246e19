/* A filter as slotplan is one, in C: a sheet on standard input, its text on standard output. tests/header builds and runs it. */
#include "slotplan.h"

#include <stdio.h>
#include <string.h>

/* One byte more than a sheet may have shows that it is too long. */
static uint8_t file[32769];
static uint8_t out[SLOTPLAN_LONGEST];

static int fails(const char *what) {
    fprintf(stderr, "header: %s\n", what);
    return 1;
}

int main(void) {
    if (slotplan_longest() != SLOTPLAN_LONGEST) return fails("the longest listing has another length");

    size_t length = fread(file, 1, sizeof file, stdin);
    size_t end = slotplan_print(file, length, out, sizeof out);
    if (end == 0) return fails("an output of the longest listing's length is too short");

    /* One byte less than the text is too short, and left as it was. */
    static uint8_t less[SLOTPLAN_LONGEST], blank[SLOTPLAN_LONGEST];
    if (slotplan_print(file, length, less, end - 1) != 0) return fails("an output that is too short was taken");
    if (memcmp(less, blank, sizeof less) != 0) return fails("an output that is too short was written");

    /* Settled an even number of times, the masks join to nothing. */
    uint64_t once = slotplan_runs(file, length, 1);
    if (slotplan_runs(file, length, 3) != once || slotplan_runs(file, length, 2) != 0) return fails("the same sheet settles in another box");

    if (slotplan_loads(file, length, 2) != 2) return fails("a sheet that settles is not loaded");

    /* A job of steps: two sensors on three slots, a sensor that is not there, and one slot for sensor 1. */
    static const struct slotplan_step job[] = {{0, 0, 0, 2, 3, 0}, {1, 0, 1, 2, 0, 0}, {4, 0, 1, 1, 0, 0}};
    static const char wanted[] = "sensor 0: 0 1 2\nsensor 1: 2\n";
    static uint8_t answers[3], listing[SLOTPLAN_LONGEST];
    if (slotplan_listing(job, 3, answers, sizeof answers, listing, sizeof listing) != sizeof wanted - 1) return fails("a job's listing has another length");
    if (memcmp(listing, wanted, sizeof wanted - 1) != 0) return fails("a job has another listing");
    if (answers[0] != 0 || answers[1] != 2 || answers[2] != 0) return fails("a job has other answers");
    if (slotplan_jobs(job, 3, 1) != 7 || slotplan_settles(job, 3, 3) != 7) return fails("a job settles in another box");

    return fwrite(out, 1, end, stdout) == end ? 0 : fails("standard output is closed");
}
