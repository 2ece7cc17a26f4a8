/* The loops of crates/aead_bench over the keys of crates/aead_ciphers_wide, and over what is made of them. */
#include "bench.h"

loop bench_wide_seal, bench_wide_open, bench_wide_authenticate, bench_wide_ctr32, bench_wide_update_block,
    bench_wide_update_blocks, bench_wide_mask, bench_wide_aes_key, bench_wide_less_safe_key, bench_wide_clone;
loop bench_seal_packet, bench_seal_and_open_packet, bench_seal_record, bench_seal_and_open_record, bench_seal_framed,
    bench_seal_and_open_framed;

const side wide = {{
    [SEAL] = bench_wide_seal,
    [OPEN] = bench_wide_open,
    [AUTHENTICATE] = bench_wide_authenticate,
    [CTR32] = bench_wide_ctr32,
    [UPDATE_BLOCK] = bench_wide_update_block,
    [UPDATE_BLOCKS] = bench_wide_update_blocks,
    [MASK] = bench_wide_mask,
    [AES_KEY] = bench_wide_aes_key,
    [GCM_KEY] = bench_wide_less_safe_key,
    [CLONE] = bench_wide_clone,
    [SEAL_RECORD] = bench_seal_record,
    [SEAL_AND_OPEN_RECORD] = bench_seal_and_open_record,
}};

const side less_safe_key = {{
    [SEND] = bench_seal_packet,
    [SEND_AND_RECEIVE] = bench_seal_and_open_packet,
    [SEAL_RECORD] = bench_seal_framed,
    [SEAL_AND_OPEN_RECORD] = bench_seal_and_open_framed,
}};
