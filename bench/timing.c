#include "timing.h"

#include <time.h>

static volatile uint64_t sink;

static const double turn = 2e-3;

double seconds(void)
{
    struct timespec now;
    clock_gettime(CLOCK_PROCESS_CPUTIME_ID, &now);
    return (double)now.tv_sec + (double)now.tv_nsec * 1e-9;
}

/* To ask for the time takes as long as a short job. So the jobs between two looks at the clock are doubled until they fill a part of the turn. */
double rate(job *job, const void *with)
{
    uint64_t done = 0, batch = 1, sum = 0;
    double start = seconds(), took;
    do {
        for (uint64_t i = 0; i < batch; i++)
            sum += job(with);
        done += batch;
        took = seconds() - start;
        if (took < turn / 16)
            batch *= 2;
    } while (took < turn);
    sink += sum;
    return (double)done / took;
}
