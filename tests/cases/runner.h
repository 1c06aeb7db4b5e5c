/* Runs rows of hand-written cases by the library. Rests on the rows. */
#ifndef CASES_RUNNER_H
#define CASES_RUNNER_H

#include "cases/rows.h"

struct tally {
    unsigned passed;
    unsigned failed;
};

/* A row that fails is printed. */
void run_table(const struct table *table, struct tally *tally);

#endif
