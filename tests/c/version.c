/* Prints the version of the header, its number, and the number of the archive. */
#include <inttypes.h>
#include <stdio.h>

#include "pollux.h"

int main(void)
{
    printf("%s %d %" PRIu64 "\n", POLLUX_VERSION, POLLUX_VERSION_NUMBER, pollux_version());
}
