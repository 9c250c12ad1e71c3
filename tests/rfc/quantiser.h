/*
 * The factors as RFC 6386 prints them: the two tables of section 14.1, those of
 * section 20.3, and what dequant_init of its reference decoder makes of an index
 * and five deltas.
 */
#ifndef RFC_QUANTISER_H
#define RFC_QUANTISER_H

enum { STEPS = 128, DELTAS = 5, FACTORS = 6 };

/* ac is 0 for the table of DC steps, and 1 for that of AC steps. */
int step_of_14(int ac, int index);
int step_of_20(int ac, int index);

/* Deltas of Y DC, Y2 DC, Y2 AC, chroma DC and chroma AC; factors of Y, Y2 and chroma, DC before AC. */
void printed_factors(int base, const int *deltas, int *factors);

#endif
