/* A program for Windows without a C library's start, as a linker of Windows makes it of objects for MSVC: it ends with status 0 if a
 * message is sealed as python's `cryptography` seals it. */
#include "deerlapse.h"

__declspec(dllimport) void ExitProcess(unsigned status);

void start(void) {
    static const uint8_t bytes[16] = {0}, nonce[DEERLAPSE_NONCE_LEN] = {0};
    static const uint8_t sealed[5 + DEERLAPSE_TAG_LEN] = {0x6b, 0xed, 0xb6, 0xa2, 0x0f, 0xfc, 0x05, 0xf3, 0x47, 0x5d, 0x29,
                                                          0x03, 0x4c, 0xaa, 0x1c, 0xc8, 0xfa, 0x36, 0x28, 0xc3, 0x9f};
    static deerlapse_key key;
    uint8_t message[5 + DEERLAPSE_TAG_LEN] = "hello";
    bool is_right = deerlapse_cpu_supported() && deerlapse_key_init(&key, bytes, sizeof bytes) &&
                    deerlapse_key_seal(&key, nonce, NULL, 0, message, 5, message + 5);
    for (int i = 0; i < 5 + DEERLAPSE_TAG_LEN; i++) is_right = is_right && message[i] == sealed[i];
    ExitProcess(is_right ? 0 : 1);
}
