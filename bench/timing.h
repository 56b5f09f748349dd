/* Time of the processor, and how often a second something can be done. */
#ifndef TIMING_H
#define TIMING_H

#include <stdint.h>

/* A piece of work, again and again with the same things. What it returns keeps the compiler from leaving it out. */
typedef uint64_t job(const void *with);

/* The processor's time, so that it matters little what else the machine does. */
double seconds(void);

/* How often a second a job is done, over one turn: two milliseconds, which are mostly over before something else gets the processor. */
double rate(job *job, const void *with);

/* How often jobs take turns, of which the best counts. */
enum { ROUNDS = 100 };

#endif
