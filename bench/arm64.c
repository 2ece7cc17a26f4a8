/* The loops of bench/rust, and a getauxval that names no instructions for AES and polynomial multiplication. The linker gives it
 * to all callers (--wrap), so that ring and OpenSSL don't use them. */
#include "bench.h"
#include <sys/auxv.h>

loop ring_seal, ring_open, ring_key, ring_mask, aes_gcm_seal, aes_gcm_open, aes_gcm_key, aes_gcm_mask;
unsigned long __real_getauxval(unsigned long), __wrap_getauxval(unsigned long);

const side ring = {{
    [SEAL] = ring_seal,
    [OPEN] = ring_open,
    [GCM_KEY] = ring_key,
    [MASK] = ring_mask,
}};

const side rust_crypto = {{
    [SEAL] = aes_gcm_seal,
    [OPEN] = aes_gcm_open,
    [GCM_KEY] = aes_gcm_key,
    [MASK] = aes_gcm_mask,
}};

unsigned long __wrap_getauxval(unsigned long type) {
    unsigned long value = __real_getauxval(type);
    return type == AT_HWCAP ? value & ~(unsigned long)(HWCAP_AES | HWCAP_PMULL) : value;
}
