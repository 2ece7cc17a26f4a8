/* A program with the library for both levels of x86-64 processors, which takes the higher one where the processor has it. */
#include "level.h"
#include <stdio.h>

int main(void) {
    static const uint8_t bytes[16] = {0};
    const level *chosen = level_3.is_supported() ? &level_3 : &level_2;
    uint8_t message[5 + DEERLAPSE_TAG_LEN] = "hello", nonce[DEERLAPSE_NONCE_LEN] = {0};
    deerlapse_key key;
    if (!level_2.is_supported()) {
        fprintf(stderr, "this processor lacks instructions of x86-64-v2\n");
        return 1;
    }
    if (!chosen->init(&key, bytes, sizeof bytes) || !chosen->seal(&key, nonce, message, 5)) return 1;
    printf("sealed at level %d:", chosen == &level_3 ? 3 : 2);
    for (size_t i = 0; i < sizeof message; i++) printf(" %02x", message[i]);
    putchar('\n');
    return 0;
}
