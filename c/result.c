/* Prints what fikrem.h's macros take out of a result: the lowest, some of each kind, a refusal that this version doesn't have, and the
 * highest place. */
#include "fikrem.h"

#include <inttypes.h>
#include <stdio.h>

static const uint64_t RESULTS[] = {33, 31555, 1349, 141, 14, 16, 255, UINT64_MAX - 94};

int main(void)
{
    for (size_t at = 0; at < sizeof RESULTS / sizeof RESULTS[0]; at++) {
        uint64_t result = RESULTS[at];
        printf("%" PRIu64 ": number %" PRIu64 ", file %" PRIu64 ", place %" PRIu64 ", of ledger %" PRIu64 "\n", result,
               FIKREM_NUMBER(result), FIKREM_FILE(result), FIKREM_PLACE(result), FIKREM_OF_LEDGER(result));
    }
    return 0;
}
