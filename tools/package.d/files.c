/* Files that the example file.c seals and must open, and files that it must refuse, for tools/package. */
#define main main_of_example
#include "file.c"
#undef main
#include <string.h>

enum { PIECE = CHUNK_LEN + DEERLAPSE_TAG_LEN, ROOM = SALT_LEN + 5 * PIECE };

/* What a temporary file has. */
typedef struct {
    size_t len;
    uint8_t at[ROOM];
} bytes;

static uint8_t key[KEY_LEN];

/* Seals or opens bytes by way of temporary files. */
static bool passes(bool (*by)(const uint8_t *, FILE *, FILE *), const bytes *from, bytes *to) {
    FILE *in = tmpfile(), *out = tmpfile();
    bool is = in && out && fwrite(from->at, 1, from->len, in) == from->len;
    if (is) rewind(in);
    is = is && by(key, in, out);
    if (out) rewind(out);
    to->len = out ? fread(to->at, 1, sizeof to->at, out) : 0;
    if (in) fclose(in);
    if (out) fclose(out);
    return is;
}

static bool same(const bytes *one, const bytes *other) {
    return one->len == other->len && memcmp(one->at, other->at, one->len) == 0;
}

/* A file of so many bytes, and the same sealed. */
static bool seals(size_t len, bytes *plain, bytes *sealed) {
    size_t chunks = len ? (len + CHUNK_LEN - 1) / CHUNK_LEN : 1;
    for (size_t i = 0; i < len; i++) plain->at[i] = (uint8_t)(i % 251);
    plain->len = len;
    return passes(seal_chunks, plain, sealed) && sealed->len == SALT_LEN + len + chunks * DEERLAPSE_TAG_LEN;
}

/* Around the ends of chunks. */
static bool opens_each_length(void) {
    static const size_t lens[] = {0, 1, CHUNK_LEN - 1, CHUNK_LEN, CHUNK_LEN + 1, 2 * CHUNK_LEN, 3 * CHUNK_LEN + 5};
    static bytes plain, sealed, opened;
    for (size_t i = 0; i < sizeof lens / sizeof *lens; i++) {
        if (!seals(lens[i], &plain, &sealed) || !passes(open_chunks, &sealed, &opened) || !same(&plain, &opened)) return false;
    }
    return true;
}

/* A last chunk of no bytes after a whole one, which a sealer may also write. */
static bool opens_an_empty_chunk(void) {
    static bytes sealed, opened;
    static const uint8_t is_last[2] = {0, 1};
    uint8_t own[KEY_LEN + DEERLAPSE_NONCE_LEN], *at = sealed.at + SALT_LEN;
    deerlapse_sealer sealer = {{0}};
    sealed.len = SALT_LEN + PIECE + DEERLAPSE_TAG_LEN;
    return derive(key, sealed.at, own) && deerlapse_sealer_init(&sealer, own, KEY_LEN, own + KEY_LEN, 0, 2) &&
           deerlapse_sealer_seal(&sealer, &is_last[0], 1, at, CHUNK_LEN, at + CHUNK_LEN) &&
           deerlapse_sealer_seal(&sealer, &is_last[1], 1, at + PIECE, 0, at + PIECE) && passes(open_chunks, &sealed, &opened) &&
           opened.len == CHUNK_LEN;
}

/* What can't be read, as a folder, isn't sealed as an empty file. */
static bool refuses_a_failed_read(void) {
    FILE *in = fopen("/", "rb"), *out = tmpfile();
    bool is = in && out && !seal_chunks(key, in, out) && ferror(in);
    if (in) fclose(in);
    if (out) fclose(out);
    return is;
}

/* It may have written what is before the fault. */
static bool refuses(const bytes *sealed, const bytes *plain) {
    static bytes opened;
    return !passes(open_chunks, sealed, &opened) && opened.len < plain->len && memcmp(opened.at, plain->at, opened.len) == 0;
}

/* A file cut at each end of a part, and one byte before and after. */
static bool refuses_cut_files(const bytes *sealed, const bytes *plain) {
    static bytes cut;
    cut = *sealed;
    for (size_t at = SALT_LEN; at < sealed->len + PIECE; at += PIECE) {
        size_t end = at < sealed->len ? at : sealed->len;
        for (cut.len = end - 1; cut.len <= end + 1; cut.len++) {
            if (cut.len < sealed->len && !refuses(&cut, plain)) return false;
        }
    }
    cut.len = 0;
    return refuses(&cut, plain);
}

/* A bit flipped in the random bytes and in each chunk and tag, and a byte after the end. */
static bool refuses_changed_files(const bytes *sealed, const bytes *plain) {
    static bytes changed;
    for (size_t at = 0; at < sealed->len; at += at < SALT_LEN ? SALT_LEN - 1 : PIECE / 2) {
        changed = *sealed;
        changed.at[at] ^= 0x10;
        if (!refuses(&changed, plain)) return false;
    }
    changed = *sealed;
    changed.at[changed.len - 1] ^= 1;
    if (!refuses(&changed, plain)) return false;
    changed = *sealed;
    changed.at[changed.len++] = 0;
    return refuses(&changed, plain);
}

/* Each pair of whole chunks exchanged; a chunk in the place of another; and each chunk of another file of the same bytes, and its
 * random bytes. */
static bool refuses_other_chunks(const bytes *sealed, const bytes *plain, const bytes *other) {
    static bytes changed;
    for (size_t i = 0; i < 3; i++) {
        uint8_t *at = changed.at + SALT_LEN;
        for (size_t j = 0; j < 3; j++) {
            changed = *sealed;
            memcpy(at + i * PIECE, sealed->at + SALT_LEN + j * PIECE, PIECE);
            if (i != j && !refuses(&changed, plain)) return false;
            memcpy(at + j * PIECE, sealed->at + SALT_LEN + i * PIECE, PIECE);
            if (i != j && !refuses(&changed, plain)) return false;
        }
    }
    for (size_t from = SALT_LEN; from < sealed->len; from += PIECE) {
        size_t len = sealed->len - from < PIECE ? sealed->len - from : (size_t)PIECE;
        changed = *sealed;
        memcpy(changed.at + from, other->at + from, len);
        if (!refuses(&changed, plain)) return false;
    }
    changed = *sealed;
    memcpy(changed.at, other->at, SALT_LEN);
    return refuses(&changed, plain);
}

int main(void) {
    static bytes plain, sealed, other;
    if (!draw(key, sizeof key) || !opens_each_length() || !opens_an_empty_chunk()) {
        puts("the example file.c doesn't open what was sealed");
        return 1;
    }
    if (!seals(3 * CHUNK_LEN + 5, &plain, &sealed) || !seals(3 * CHUNK_LEN + 5, &plain, &other) || same(&sealed, &other)) {
        puts("the example file.c seals two files in the same way");
        return 1;
    }
    bool is_right = refuses_a_failed_read() && refuses_cut_files(&sealed, &plain) && refuses_changed_files(&sealed, &plain) &&
                    refuses_other_chunks(&sealed, &plain, &other);
    key[0] ^= 1;
    is_right = is_right && refuses(&sealed, &plain);
    puts(is_right ? "file.c opens what it sealed, and refuses cut files, exchanged chunks and those of other files"
                  : "the example file.c seals what it can't read, or opens a file that was changed");
    return is_right ? 0 : 1;
}
