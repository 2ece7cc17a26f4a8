/* packet_at on each packet of a datagram, one after the other, beside RFC 9000 section 17 in C. The first two bytes of the
 * input are the length of the receiver's connection IDs and whether the fixed bit may be 0. The rest is the datagram, which ends
 * before a page without access, or begins after one. */
#define FUZZED
#include "../targets.d/checks.h"

#define NONE UINT64_MAX

enum { INITIAL, ZERO_RTT, HANDSHAKE, RETRY, NEGOTIATION, ONE_RTT, OTHER_VERSION };
enum { PARSED, CUT, ID_TOO_LONG, NO_FIXED_BIT };

typedef struct {
    uint64_t type, version, number_at, end, destination_id[2], source_id[2], token[2];
} packet;

uint8_t fuzzed_packet_at(const uint8_t *datagram, size_t len, size_t start, size_t id_len, bool is_greased, uint64_t *parts,
                         uint64_t *destination_id, uint64_t *source_id, uint64_t *token);
void fuzz_one(const uint8_t *bytes, size_t len);

/* What is not read yet of a datagram. */
typedef struct {
    const uint8_t *bytes;
    size_t at, len;
} reader;

/* Numbers of so many bytes (section 1.3), and of the variable length that the first two bits say (section 16). */
static bool reads(reader *r, size_t count, uint64_t *number) {
    if (r->len - r->at < count) return false;
    for (*number = 0; count; count--) *number = *number << 8 | r->bytes[r->at++];
    return true;
}

static bool reads_varint(reader *r, uint64_t *number) {
    if (r->at == r->len) return false;
    size_t count = (size_t)1 << (r->bytes[r->at] >> 6);
    if (!reads(r, count, number)) return false;
    *number &= ((uint64_t)1 << (8 * count - 2)) - 1;
    return true;
}

static bool skips(reader *r, uint64_t count, uint64_t range[2]) {
    if (r->len - r->at < count) return false;
    range[0] = r->at;
    range[1] = r->at += count;
    return true;
}

/* Sections 17.2 and 17.2.1 to 17.2.5. The types of version 2 are those of RFC 9369 section 3.2. */
static int long_header(reader *r, uint8_t first, packet *p) {
    uint64_t len;
    if (!reads(r, 4, &p->version)) return CUT;
    bool is_known = p->version == 1 || p->version == 0x6b3343cf;
    for (int i = 0; i < 2; i++) {
        if (!reads(r, 1, &len)) return CUT;
        if (is_known && len > 20) return ID_TOO_LONG;
        if (!skips(r, len, i ? p->source_id : p->destination_id)) return CUT;
    }
    p->token[0] = p->token[1] = r->at;
    p->number_at = NONE;
    p->end = r->len;
    p->type = p->version == 0 ? NEGOTIATION : OTHER_VERSION;
    if (!is_known) return PARSED;
    p->type = p->version == 1 ? first >> 4 & 3 : ((first >> 4) - 1) & 3;
    if (p->type == RETRY) {
        if (r->len - r->at < 16) return CUT;
        p->token[1] = r->len - 16;
        return PARSED;
    }
    if (p->type == INITIAL && !(reads_varint(r, &len) && skips(r, len, p->token))) return CUT;
    if (!reads_varint(r, &len) || r->len - r->at < len) return CUT;
    if (p->type != INITIAL) p->token[0] = p->token[1] = p->source_id[1];
    p->number_at = r->at;
    p->end = r->at + len;
    return PARSED;
}

static int expected(const uint8_t *bytes, size_t len, size_t start, size_t id_len, bool is_greased, packet *p) {
    reader r = {bytes, start, len};
    uint64_t first;
    int status = PARSED;
    if (start >= len || !reads(&r, 1, &first)) return CUT;
    if (first & 0x80) {
        status = long_header(&r, (uint8_t)first, p);
    } else {
        if (!skips(&r, id_len, p->destination_id)) return CUT;
        p->type = ONE_RTT, p->version = NONE, p->number_at = r.at, p->end = len;
        for (int i = 0; i < 2; i++) p->source_id[i] = p->token[i] = r.at;
    }
    bool has_fixed_bit = !(first & 0x80) || p->version == 1 || p->version == 0x6b3343cf;
    return status == PARSED && !is_greased && has_fixed_bit && !(first & 0x40) ? NO_FIXED_BIT : status;
}

/* Parses the packet at `start`, as is expected, and returns where the next one begins, or 0. */
static size_t parses(const uint8_t *buffer, size_t len, size_t start, size_t id_len, bool is_greased) {
    packet found = {0}, wanted = {0}, end_alone = {0};
    int status = fuzzed_packet_at(buffer, len, start, id_len, is_greased, &found.type, found.destination_id, found.source_id,
                                  found.token);
    CHECK(status == expected(buffer, len, start, id_len, is_greased, &wanted));
    if (status == CUT || status == ID_TOO_LONG) {
        CHECK(SAME(found, end_alone));
        return 0;
    }
    end_alone.end = wanted.end;
    CHECK(status == PARSED ? SAME(found, wanted) : SAME(found, end_alone));
    CHECK(start < found.end && found.end <= len);
    return found.end;
}

void fuzz_one(const uint8_t *bytes, size_t len) {
    begin(bytes, len);
    size_t id_len = below(256), start = 0;
    bool is_greased = below(2);
    if (id_len == 255) id_len = SIZE_MAX;
    const uint8_t *datagram = input;
    len = input_left;
    uint8_t *buffer = guarded(datagram, len);
    do start = parses(buffer, len, start, id_len, is_greased);
    while (start);
    CHECK(parses(buffer, len, len, id_len, is_greased) == 0 && parses(buffer, len, SIZE_MAX, id_len, is_greased) == 0);
    CHECK(memcmp(buffer, datagram, len) == 0);
    release(buffer, len);
}
