/* What libFuzzer calls in each target. The text that a target is linked with writes a 1 to fuzz_marks in each function and at
 * each branch (tools/fuzz.d/marked): libFuzzer takes this section for counters beside those of the C. At the end, the numbers
 * of those that were reached are written to the file that FUZZ_REACHED names. */
#include <stdint.h>
#include <stdio.h>
#include <stdlib.h>

void fuzz_one(const uint8_t *bytes, size_t len);
int LLVMFuzzerInitialize(int *argc, char ***argv);
int LLVMFuzzerTestOneInput(const uint8_t *bytes, size_t len);

__attribute__((section("__libfuzzer_extra_counters"), no_sanitize("address"))) uint8_t fuzz_marks[MARKS];
static uint8_t reached[MARKS];

static void report(void) {
    const char *name = getenv("FUZZ_REACHED");
    FILE *file = name ? fopen(name, "w") : NULL;
    if (!file) return;
    for (size_t i = 0; i < MARKS; i++)
        if (reached[i]) fprintf(file, "%zu\n", i);
    fclose(file);
}

int LLVMFuzzerInitialize(int *argc, char ***argv) {
    (void)argc, (void)argv;
    return atexit(report);
}

int LLVMFuzzerTestOneInput(const uint8_t *bytes, size_t len) {
    fuzz_one(bytes, len);
    for (size_t i = 0; i < MARKS; i++) reached[i] |= fuzz_marks[i];
    return 0;
}
