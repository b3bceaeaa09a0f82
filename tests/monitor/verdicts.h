/* The routines whose verdict was worked out by hand from the specification. */
#ifndef VERDICTS_H
#define VERDICTS_H

#include "judged.h"

struct tally {
    int passed, failed;
};

/* Judges each of them; `name` is printed with each difference, and NULL prints none. */
struct tally judge_routines(verdict_function *verdict, const char *name);

#endif
