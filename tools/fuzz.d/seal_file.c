/* The program seal_file, whose main is called here: what it says of a file that the input makes, beside
 * crates/sealed_file/SEALED_FILE.md in terms of OpenSSL.
 *
 * The first byte of the input says which command, whether it is given a key or a passphrase, and an AAD or none. It also says
 * whether the commitment and the tags of the file are made right, and whether a bit of it is flipped then. The next three are
 * how many zeros the file ends with, and four more the range. The rest is the file. FUZZ_FOLDER names a folder for files. */
#define _GNU_SOURCE
#define FUZZED
#include "../../interop/against-openssl.d/expected.h"
#include <dirent.h>
#include <fcntl.h>
#include <unistd.h>

#define CHUNK 65536
#define PIECE (CHUNK + TAG)
#define LONGEST 200000
#define PIECES (LONGEST / PIECE + 1)
#define PASSPHRASE "correct horse"
#define AAD "name"
#define SLOW 2000

int seal_file_main(int argc, char **argv);
void fuzz_one(const uint8_t *bytes, size_t len);

static uint8_t key[32];
static char folder[200], key_path[256], passphrase_path[256], in_path[256], out_path[256];

/* The file, and how it is opened. */
static struct {
    bool by_passphrase, has_aad;
    uint8_t bytes[LONGEST + PIECE];
    size_t len, header_len;
} sealed;

/* ---- the format */

static uint32_t iterations(void) {
    const uint8_t *at = sealed.bytes + 60;
    return (uint32_t)at[0] << 24 | (uint32_t)at[1] << 16 | (uint32_t)at[2] << 8 | at[3];
}

/* The key of the file, and its commitment. */
static void derive_all(uint8_t file_key[32], uint8_t commitment[32]) {
    uint8_t k[32];
    memcpy(k, key, 32);
    if (sealed.by_passphrase) {
        CHECK(PKCS5_PBKDF2_HMAC(PASSPHRASE, sizeof PASSPHRASE - 1, sealed.bytes + 9, 19, (int)iterations(), EVP_sha256(), 32,
                                k) == 1);
    }
    derive(k, 1, sealed.bytes + 9, file_key);
    derive(k, 3, sealed.bytes + 9, commitment);
}

static bool has_header(void) {
    return sealed.len >= sealed.header_len && memcmp(sealed.bytes, "SEALFILE", 8) == 0 &&
           sealed.bytes[8] == (sealed.by_passphrase ? 3 : 2) &&
           (!sealed.by_passphrase || (iterations() >= 1 && iterations() <= 10000000));
}

static size_t count_of_pieces(void) {
    size_t len = sealed.len - sealed.header_len;
    return len ? (len + PIECE - 1) / PIECE : 1;
}

/* Where a piece is, and its length. */
static uint8_t *piece_of(size_t i, size_t *len) {
    uint8_t *at = sealed.bytes + sealed.header_len + i * PIECE;
    size_t left = (size_t)(sealed.bytes + sealed.len - at);
    *len = left < PIECE ? left : PIECE;
    return at;
}

/* Opens a piece, with its tag as it is or, with `made`, made right. */
static bool opens_piece(const uint8_t file_key[32], size_t i, bool made, uint8_t *out) {
    static uint8_t again[PIECE];
    uint8_t nonce[NONCE] = {0}, aad[64 + sizeof AAD];
    size_t len, aad_len = sealed.header_len + (sealed.has_aad ? sizeof AAD - 1 : 0);
    uint8_t *at = piece_of(i, &len);
    if (len < TAG) return false;
    len -= TAG;
    memcpy(nonce, sealed.bytes + 21, 7);
    nonce[10] = (uint8_t)i;
    nonce[11] = i + 1 == count_of_pieces();
    memcpy(aad, sealed.bytes, sealed.header_len);
    memcpy(aad + sealed.header_len, AAD, sizeof AAD - 1);
    if (opens_by_gcm(file_key, 32, nonce, aad, aad_len, at, len, out)) return true;
    if (!made) return false;
    expect_gcm(file_key, 32, nonce, aad, aad_len, out, len, again);
    memcpy(at + len, again + len, TAG);
    return true;
}

/* What the file opens to: of each piece whether it does. */
static struct {
    bool has_key, all, pieces[PIECES];
    uint8_t bytes[LONGEST + PIECE];
    size_t len;
} opened;

static void open_it(bool made) {
    uint8_t file_key[32], commitment[32];
    memset(&opened, 0, offsetof(__typeof__(opened), bytes));
    opened.len = 0;
    if (made && sealed.len >= sealed.header_len) {
        memcpy(sealed.bytes, "SEALFILE", 8);
        sealed.bytes[8] = sealed.by_passphrase ? 3 : 2;
        if (sealed.by_passphrase) memcpy(sealed.bytes + 60, "\0\0\0\3", 4);
    }
    if (!has_header()) return;
    derive_all(file_key, commitment);
    if (made) memcpy(sealed.bytes + 28, commitment, 32);
    opened.has_key = opened.all = memcmp(sealed.bytes + 28, commitment, 32) == 0;
    for (size_t i = 0; opened.has_key && i < count_of_pieces(); i++) {
        size_t len;
        piece_of(i, &len);
        opened.pieces[i] = opens_piece(file_key, i, made, opened.bytes + i * CHUNK);
        opened.all = opened.all && opened.pieces[i];
        opened.len += len < TAG ? 0 : len - TAG;
    }
}

/* ---- the program */

static void write_file(const char *path, const void *bytes, size_t len) {
    FILE *file = fopen(path, "wb");
    CHECK(file && fwrite(bytes, 1, len, file) == len && fclose(file) == 0);
}

/* Runs a command with these files as standard input and output. What it says goes nowhere. */
static int runs(int argc, char **argv, const char *in, const char *out) {
    const int kept[] = {dup(0), dup(1), dup(2)};
    const int given[] = {open(in, O_RDONLY), open(out, O_WRONLY | O_CREAT, 0600), open("/dev/null", O_WRONLY)}, next = dup(0);
    CHECK(next >= 0 && close(next) == 0);
    for (int i = 0; i < 3; i++) CHECK(given[i] >= 0 && dup2(given[i], i) == i);
    argv[argc] = NULL;
    const int status = seal_file_main(argc, argv);
    for (int i = 0; i < 3; i++) CHECK(dup2(kept[i], i) == i);
    /* It has closed what it opened. */
    CHECK(dup(0) == next && close(next) == 0);
    for (int i = 0; i < 3; i++) CHECK(close(kept[i]) == 0 && close(given[i]) == 0);
    return status;
}

static int files_in_folder(void) {
    DIR *all = opendir(folder);
    int count = 0;
    CHECK(all);
    while (readdir(all)) count++;
    closedir(all);
    return count - 2;
}

/* Reads OUT, and removes it. */
static size_t takes_out(uint8_t to[LONGEST + PIECE]) {
    FILE *file = fopen(out_path, "rb");
    CHECK(file);
    const size_t len = fread(to, 1, LONGEST + PIECE, file);
    CHECK(fclose(file) == 0 && unlink(out_path) == 0);
    return len;
}

static void expect_out(const uint8_t *bytes, size_t len) {
    static uint8_t found[LONGEST + PIECE];
    CHECK(takes_out(found) == len && memcmp(found, bytes, len) == 0);
}

/* A command with the key or the passphrase, and the AAD. */
static int command(const char *name, char **words, int count) {
    char *argv[16] = {(char *)"seal_file", (char *)name, (char *)(sealed.by_passphrase ? "--passphrase-file" : "-k"),
                      sealed.by_passphrase ? passphrase_path : key_path};
    int argc = 4;
    if (sealed.has_aad) argv[argc++] = (char *)"--aad", argv[argc++] = (char *)AAD;
    for (int i = 0; i < count; i++) argv[argc++] = words[i];
    return runs(argc, argv, "/dev/null", "/dev/null");
}

static void opens_file(void) {
    char *words[] = {(char *)"-o", out_path, in_path};
    const int status = command("open", words, 3);
    CHECK(status == (opened.all ? 0 : 1));
    if (status == 0) expect_out(opened.bytes, opened.len);
}

/* From standard input to standard output, which may get the first chunks of a file that doesn't open. */
static void opens_streams(void) {
    static uint8_t found[LONGEST + PIECE];
    char *argv[8] = {(char *)"seal_file", (char *)"open", (char *)"-k", key_path, (char *)"--aad", (char *)AAD};
    size_t first = 0;
    if (sealed.by_passphrase) argv[2] = (char *)"--passphrase-file", argv[3] = passphrase_path;
    const int status = runs(sealed.has_aad ? 6 : 4, argv, in_path, out_path);
    const size_t len = takes_out(found);
    CHECK(status == (opened.all ? 0 : 1));
    while (first < PIECES && opened.pieces[first]) first++;
    CHECK(len <= opened.len && len <= first * CHUNK && memcmp(found, opened.bytes, len) == 0);
    CHECK(status == 1 || len == opened.len);
}

/* Under a key, only the chunks of the range and the last one have to open. */
static void opens_range(uint32_t start, uint32_t len) {
    char from[12], count[12], *words[] = {(char *)"-o", out_path, (char *)"--range", from, count, in_path};
    snprintf(from, sizeof from, "%u", start);
    snprintf(count, sizeof count, "%u", len);
    const int status = command("open", words, 6);
    const size_t at = start < opened.len ? start : opened.len, all = len < opened.len - at ? len : opened.len - at;
    bool right = opened.has_key && opened.pieces[count_of_pieces() - 1];
    for (size_t i = at / CHUNK; right && all && i <= (at + all - 1) / CHUNK; i++) right = opened.pieces[i];
    CHECK(status == ((sealed.by_passphrase ? opened.all : right) ? 0 : 1));
    if (status == 0) expect_out(opened.bytes + at, all);
}

static void inspects(bool with_key) {
    char *argv[8] = {(char *)"seal_file", (char *)"inspect", in_path, (char *)"-k", key_path};
    const int status = runs(with_key ? 5 : 3, argv, "/dev/null", "/dev/null");
    CHECK(status == 0 || status == 1);
    if (with_key && !sealed.by_passphrase) CHECK((status == 0) == opened.has_key);
    else if (has_header()) CHECK(status == 0 || with_key);
}

/* What the program seals opens by the words of the format. */
static void seals_file(void) {
    char *words[] = {(char *)"-o", out_path, in_path};
    if (sealed.by_passphrase) return; /* 600,000 iterations */
    static uint8_t was[LONGEST];
    const size_t most = LONGEST - 60 - PIECES * TAG, len = sealed.len < most ? sealed.len : most;
    memcpy(was, sealed.bytes, len);
    write_file(in_path, was, len);
    CHECK(command("seal", words, 3) == 0);
    sealed.len = takes_out(sealed.bytes);
    CHECK(sealed.len <= LONGEST);
    open_it(false);
    CHECK(opened.all && opened.len == len && memcmp(opened.bytes, was, len) == 0);
    write_file(in_path, sealed.bytes, sealed.len);
    opens_file();
}

static void begin_files(void) {
    const char *given = getenv("FUZZ_FOLDER");
    if (folder[0]) return;
    CHECK(given && (size_t)snprintf(folder, sizeof folder, "%s", given) < sizeof folder);
    snprintf(key_path, sizeof key_path, "%s/key", folder);
    snprintf(passphrase_path, sizeof passphrase_path, "%s/passphrase", folder);
    snprintf(in_path, sizeof in_path, "%s/in", folder);
    snprintf(out_path, sizeof out_path, "%s/out", folder);
    memset(key, 7, sizeof key); /* that of the format's example */
    write_file(key_path, key, sizeof key);
    write_file(passphrase_path, PASSPHRASE, sizeof PASSPHRASE - 1);
}

void fuzz_one(const uint8_t *bytes, size_t len) {
    begin(bytes, len);
    const uint8_t how = (uint8_t)drawn(1);
    const size_t zeros = (size_t)drawn(3) % 150000;
    const uint32_t place = (uint32_t)drawn(3), range = (uint32_t)drawn(1) << 9;
    if (input_left + zeros > LONGEST) return;
    begin_files();
    sealed.by_passphrase = how & 8, sealed.has_aad = how & 16, sealed.header_len = sealed.by_passphrase ? 64 : 60;
    sealed.len = input_left + zeros;
    memcpy(sealed.bytes, input, input_left);
    memset(sealed.bytes + input_left, 0, zeros);
    if (how & 32) open_it(true);
    if (how & 64 && sealed.len) sealed.bytes[place % sealed.len] ^= (uint8_t)(1 << (how >> 7));
    if (sealed.by_passphrase && has_header() && iterations() > SLOW) return;
    open_it(false);
    CHECK(opened.has_key || !(how & 32) || how & 64 || sealed.len < sealed.header_len);
    write_file(in_path, sealed.bytes, sealed.len);
    switch (how & 7) {
    case 0: case 1: opens_file(); break;
    case 2: opens_streams(); break;
    case 3: case 4: opens_range(place % 200000, range); break;
    case 5: inspects(false); break;
    case 6: inspects(true); break;
    default: seals_file();
    }
    CHECK(files_in_folder() == 3);
}
