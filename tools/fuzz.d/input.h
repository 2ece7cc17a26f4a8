/* For tools/targets.d/checks.h in a target of tools/fuzz: what is drawn is read from the input, and a buffer that is guarded
 * begins right after a page without access, or ends right before one. */
#include <sys/mman.h>

#define BUFFER_ROOM ((size_t)10 << 12)
#define BUFFERS 16

static const uint8_t *input;
static size_t input_left;

/* A number of so many bytes of the input, or of random ones after its end. */
static inline uint64_t drawn(int bytes) {
    uint64_t number = 0;
    for (int i = 0; i < bytes; i++) {
        uint8_t byte = input_left ? *input++ : (uint8_t)(xorshift() >> 24);
        if (input_left) input_left--;
        number = number << 8 | byte;
    }
    return number;
}

static inline uint64_t next_random(void) { return drawn(8); }

static inline size_t below(size_t n) { return (size_t)drawn(n <= 1 << 8 ? 1 : n <= 1 << 16 ? 2 : 8) % n; }

/* A key, an IV or a sample is read from the input, and of longer bytes what they are made from. */
static inline void fill(uint8_t *bytes, size_t len) {
    if (len > 32) random_state = drawn(4) + 1;
    for (size_t i = 0; i < len; i++) bytes[i] = (uint8_t)(len > 32 ? xorshift() >> 24 : drawn(1));
}

static struct {
    uint8_t *room, *copy;
} buffers[BUFFERS];

static inline void begin(const uint8_t *bytes, size_t len) {
    input = bytes;
    input_left = len;
    random_state = 1;
    for (int i = 0; i < BUFFERS && !buffers[0].room; i++) {
        uint8_t *pages = mmap(NULL, BUFFER_ROOM + (2 << 12), PROT_NONE, MAP_PRIVATE | MAP_ANONYMOUS, -1, 0);
        CHECK(pages != MAP_FAILED && mprotect(pages + (1 << 12), BUFFER_ROOM, PROT_READ | PROT_WRITE) == 0);
        buffers[BUFFERS - 1 - i].room = pages + (1 << 12);
    }
}

/* Where the canary is: on the other side of the buffer than the page. */
static inline uint8_t *canary(const uint8_t *room, uint8_t *copy, size_t len) { return copy == room ? copy + len : copy - CANARY; }

/* A copy of bytes beside a page without access, and a canary. */
static inline uint8_t *guarded(const void *bytes, size_t len) {
    int i = 0;
    while (i < BUFFERS && buffers[i].copy) i++;
    CHECK(i < BUFFERS && len <= BUFFER_ROOM - CANARY);
    uint8_t *room = buffers[i].room, *copy = below(4) ? room + BUFFER_ROOM - len : room;
    buffers[i].copy = copy;
    memset(canary(room, copy, len), 0xc3, CANARY);
    if (len) memcpy(copy, bytes, len);
    return copy;
}

static inline void release(uint8_t *copy, size_t len) {
    int i = 0;
    while (i < BUFFERS && buffers[i].copy != copy) i++;
    CHECK(i < BUFFERS);
    for (size_t at = 0; at < CANARY; at++) CHECK(canary(buffers[i].room, copy, len)[at] == 0xc3);
    buffers[i].copy = NULL;
}
