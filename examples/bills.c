/* Each function of the library once, from C: what it answers, and how a refusal is told. */
#include <inttypes.h>
#include <stdio.h>
#include <string.h>

#include "pekstuvna.h"

/* A short first month that is put off, an estimate, and a read that the dial passed all nines for. */
static const char SHEET[] =
    "1 PREMISE\n"
    "E-12 5 100 99500 7\n"
    "3 CALLS\n"
    "M 108\n"
    "M 138\n"
    "R 168 800\n";

static void list_sheet(void) {
    uint8_t listing[PEKSTUVNA_LISTING_BYTES];
    int64_t bytes =
        pekstuvna_list_sheet((const uint8_t *)SHEET, strlen(SHEET), listing, sizeof listing);
    if (bytes < 0) {
        printf("no listing: %" PRId64 "\n", -bytes);
        return;
    }
    fwrite(listing, 1, (size_t)bytes, stdout);
}

/* 100 kWh over three months by their usage days; the second was read, and keeps its own. */
static void share_out(void) {
    struct pekstuvna_portion months[] = {{1, 30, 0}, {0, 31, 77}, {1, 30, 0}, {1, 31, 0}};
    size_t count = sizeof months / sizeof months[0];
    printf("shared out: %" PRId64, pekstuvna_share_out(100, months, count));
    for (size_t i = 0; i < count; i++) {
        printf(" %" PRIu32, months[i].share);
    }
    printf("\n");
}

static void fill(void) {
    uint32_t reference[24];
    struct pekstuvna_interval day[24];
    for (int slot = 0; slot < 24; slot++) {
        reference[slot] = 10;
        day[slot] = (struct pekstuvna_interval){5, 0, 0};
    }
    day[3].mark = 1;
    day[7].mark = 1;
    struct pekstuvna_month month = {24, 2, 121};
    uint32_t no_holiday = 0;
    int64_t filled = pekstuvna_fill(&month, reference, 24, reference, 24, &no_holiday, 0, day, 24);
    printf("filled: %" PRId64 ", with %" PRIu32 " and %" PRIu32 " Wh\n", filled, day[3].wh, day[7].wh);
}

static void demand(void) {
    struct pekstuvna_reading book = {8, 59, 41, 1, 0};
    struct pekstuvna_period period = {7, 100, 600, 30, 0};
    uint64_t tenths = 0;
    int64_t answer = pekstuvna_demand(&book, 0, &period, (const uint8_t *)"ECT-1R", 6, &tenths);
    printf("demand: answer %" PRId64 ", %" PRIu64 " tenths of a kW\n", answer, tenths);
}

int main(void) {
    list_sheet();
    share_out();
    printf("estimate: %" PRId64 "\n", pekstuvna_estimate(350, 30, 31));
    printf("estimate from no days: %" PRId64 "\n", pekstuvna_estimate(350, 0, 31));
    fill();
    demand();
    return 0;
}
