/* The loops of crates/aead_bench over the keys of the two libraries, and over packets. */
#include "bench.h"

loop bench_seal, bench_open, bench_authenticate, bench_ctr32, bench_encrypt_four, bench_update_block, bench_update_blocks,
    bench_chacha, bench_mask, bench_chacha_mask, bench_aes_key, bench_make_key, bench_clone, bench_send,
    bench_send_and_receive;

const side library = {{
    [SEAL] = bench_seal,
    [OPEN] = bench_open,
    [AUTHENTICATE] = bench_authenticate,
    [CTR32] = bench_ctr32,
    [ENCRYPT_FOUR] = bench_encrypt_four,
    [UPDATE_BLOCK] = bench_update_block,
    [UPDATE_BLOCKS] = bench_update_blocks,
    [CHACHA] = bench_chacha,
    [MASK] = bench_mask,
    [CHACHA_MASK] = bench_chacha_mask,
    [AES_KEY] = bench_aes_key,
    [GCM_KEY] = bench_make_key,
    [CLONE] = bench_clone,
    [SEND] = bench_send,
    [SEND_AND_RECEIVE] = bench_send_and_receive,
}};
