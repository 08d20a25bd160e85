/* Pekstuvna from C: estimated electricity bills, by the rules in docs/RULES.md.
 *
 * Every function answers a number of 0 or more where the call is accepted, and the number of the refusal, negative,
 * where it is not: -29 for refusal 29. A refused call writes nothing. Functions keep no state.
 *
 * No pointer may be NULL, not even before a count of 0, and what a function writes may not overlap with anything else
 * that it is lent.
 */
#ifndef PEKSTUVNA_H
#define PEKSTUVNA_H

#include <stddef.h>
#include <stdint.h>

#ifdef __cplusplus
extern "C" {
#endif

/* The fewest bytes of the buffer for a listing. A listing never has more than 15,624. */
#define PEKSTUVNA_LISTING_BYTES 16384

/* Answered, negative, where there is no memory for the calls of a sheet. It is no refusal of the sheet. */
#define PEKSTUVNA_NO_MEMORY 255

/* Plays a sheet, and writes its listing, or the line of its refusal, to the front of the buffer.
 * Answers how many bytes it wrote. Refused: 10 for a buffer of under PEKSTUVNA_LISTING_BYTES. */
int64_t pekstuvna_list_sheet(const uint8_t *sheet, size_t sheet_length, uint8_t *listing, size_t listing_length);

/* A record that a total is shared out over. 0 for takes_part: it takes no part, and its share stays. */
struct pekstuvna_portion {
    uint32_t takes_part;
    uint32_t weight;
    uint32_t share;
};

/* Shares a total out over the records that take part, by their weights. Answers 0. Refused: 29, 28. */
int64_t pekstuvna_share_out(uint32_t total, struct pekstuvna_portion *portions, size_t count);

/* The estimate for so many usage days from a basis of so many kWh in so many days, rounded down.
 * Refused: 30 for over 1,000,000,000 kWh, or days that are not 1 to 999. */
int64_t pekstuvna_estimate(uint32_t kwh, uint32_t days, uint32_t usage_days);

/* One interval of a meter. Mark 0 is valid, 1 missing, and any other filled. */
struct pekstuvna_interval {
    uint32_t wh;
    uint32_t weight;
    uint32_t mark;
};

/* The slots of a day, the first day of a list of intervals, and the register total in Wh. */
struct pekstuvna_month {
    uint32_t slots;
    uint32_t first_day;
    uint32_t total;
};

/* Fills the missing intervals of a month by its reference days. Answers how many. Refused: 21 to 28. */
int64_t pekstuvna_fill(const struct pekstuvna_month *month, const uint32_t *weekday, size_t weekday_count,
                       const uint32_t *weekend, size_t weekend_count, const uint32_t *holidays, size_t holiday_count,
                       struct pekstuvna_interval *intervals, size_t count);

/* One entry of a demand book. Mark 1 is read and reset, 2 read and not reset, any other estimated; initial is 0 for no. */
struct pekstuvna_reading {
    uint32_t customer;
    uint32_t end_day;
    uint32_t tenths;
    uint32_t mark;
    uint32_t initial;
};

/* A period without a reading of its demand; initial is 0 for no. */
struct pekstuvna_period {
    uint32_t customer;
    uint32_t end_day;
    uint32_t kwh;
    uint32_t usage_days;
    uint32_t initial;
};

/* The demand of a period on a rate, which is told by its name. Answers the number of the answer, 0 to 6, and writes its
 * tenths of a kW. Refused: 6 for bytes that are no rate's name; then 4, 31, 32, 14. */
int64_t pekstuvna_demand(const struct pekstuvna_reading *book, size_t count, const struct pekstuvna_period *period,
                         const uint8_t *rate, size_t rate_length, uint64_t *tenths);

#ifdef __cplusplus
}
#endif

#endif
