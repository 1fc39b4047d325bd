/* The end of each test. */
#ifndef TALLY_H
#define TALLY_H

#include <stdio.h>
#include <stdlib.h>

/* Prints how many of all rows have passed, as ./test reads it, and gives the exit status. */
static int tally(size_t passed, size_t count)
{
    printf("%zu passed, %zu failed\n", passed, count - passed);
    return passed == count ? EXIT_SUCCESS : EXIT_FAILURE;
}

#endif
