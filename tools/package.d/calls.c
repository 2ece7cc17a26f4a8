/* What deerlapse.h promises of each call, for tools/package: it compiles this by each standard, and by clang under the undefined
 * behavior sanitizer. */
#ifndef _GNU_SOURCE
#define _GNU_SOURCE
#endif
#include "../targets.d/promises.h"

int main(void) {
    all_promises_hold();
    printf("in %lu calls the wipes leave zeros, lengths that aren't right are refused, and null pointers with a length of 0 "
           "are not\n", calls_made);
    return 0;
}
