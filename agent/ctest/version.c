/* The version: the header's, the library's, and the name that is of this version alone. */
#include "tally.h"
#include "treskibben.h"

#include <stdint.h>

int main(void)
{
    uint32_t versions[2];
    size_t count = sizeof versions / sizeof versions[0];
    size_t passed = 0;
    size_t i;

    TRESKIBBEN_REQUIRE_VERSION();
    versions[0] = treskibben_version();
    versions[1] = treskibben_version_3();
    for (i = 0; i < count; i++) {
        if (versions[i] == TRESKIBBEN_VERSION) {
            passed++;
        } else {
            fprintf(stderr, "%zu: version %lu\n", i, (unsigned long)versions[i]);
        }
    }
    return tally(passed, count);
}
