//! AES, GCM, XAES-256-GCM and ChaCha20 from the texts of their standards, a byte or a bit at a time.

/// The product of two bytes in the field of AES (FIPS 197 section 4.2).
fn times(mut a: u8, b: u8) -> u8 {
    let mut product = 0;
    for bit in 0..8 {
        if b >> bit & 1 == 1 {
            product ^= a;
        }
        a = (a << 1) ^ if a >> 7 == 1 { 0x1b } else { 0 };
    }
    product
}

/// The S-box (FIPS 197 section 5.1.1).
fn sbox(byte: u8) -> u8 {
    let inverse = (0..=255).find(|it| times(byte, *it) == 1).unwrap_or(0);
    (1..5).fold(inverse, |sum, n| sum ^ inverse.rotate_left(n)) ^ 0x63
}

/// AES under a key of 16 or 32 bytes (FIPS 197).
pub struct Aes {
    round_keys: Vec<[u8; 16]>,
    sbox: [u8; 256],
}

impl Aes {
    /// Expands a key (FIPS 197 section 5.2).
    pub fn new(key: &[u8]) -> Self {
        let sbox = std::array::from_fn(|byte| sbox(byte as u8));
        let (nk, rounds) = (key.len() / 4, key.len() / 4 + 6);
        let mut words: Vec<[u8; 4]> = key
            .chunks(4)
            .map(|word| word.try_into().expect("four bytes"))
            .collect();
        let mut constant = 1;
        for i in nk..4 * (rounds + 1) {
            let mut word = words[i - 1];
            if i % nk == 0 {
                word.rotate_left(1);
                word = word.map(|byte| sbox[usize::from(byte)]);
                word[0] ^= constant;
                constant = times(constant, 2);
            } else if nk > 6 && i % nk == 4 {
                word = word.map(|byte| sbox[usize::from(byte)]);
            }
            words.push(std::array::from_fn(|k| words[i - nk][k] ^ word[k]));
        }
        let round_keys = words
            .chunks(4)
            .map(|four| four.concat().try_into().expect("sixteen bytes"))
            .collect();
        Aes { round_keys, sbox }
    }

    /// Encrypts a block (FIPS 197 section 5.1). Byte `r + 4 c` of a block is in row `r` and column `c`.
    pub fn encrypt(&self, block: [u8; 16]) -> [u8; 16] {
        let last = self.round_keys.len() - 1;
        let mut state: [u8; 16] = std::array::from_fn(|i| block[i] ^ self.round_keys[0][i]);
        for (round, key) in self.round_keys.iter().enumerate().skip(1) {
            let shifted: [u8; 16] =
                std::array::from_fn(|i| self.sbox[usize::from(state[(i + 4 * (i % 4)) % 16])]);
            let at = |r: usize, c: usize| shifted[r % 4 + 4 * c];
            let mixed = |i: usize| {
                let (r, c) = (i % 4, i / 4);
                times(at(r, c), 2) ^ times(at(r + 1, c), 3) ^ at(r + 2, c) ^ at(r + 3, c)
            };
            state =
                std::array::from_fn(|i| key[i] ^ if round == last { shifted[i] } else { mixed(i) });
        }
        state
    }

    /// The first five bytes of the encrypted sample (RFC 9001 section 5.4.3).
    pub fn mask(&self, sample: [u8; 16]) -> [u8; 5] {
        self.encrypt(sample)[..5].try_into().expect("five bytes")
    }
}

/// The product of two blocks (SP 800-38D section 6.3). The leftmost bit of a block is the highest of the number.
fn block_times(x: u128, y: u128) -> u128 {
    let (mut product, mut v) = (0, y);
    for bit in 0..128 {
        if x >> (127 - bit) & 1 == 1 {
            product ^= v;
        }
        v = (v >> 1) ^ if v & 1 == 1 { 0xe1 << 120 } else { 0 };
    }
    product
}

/// The counter block of a nonce and a number.
fn counter_block(nonce: [u8; 12], number: u32) -> [u8; 16] {
    let mut block = [0; 16];
    block[..12].copy_from_slice(&nonce);
    block[12..].copy_from_slice(&number.to_be_bytes());
    block
}

/// The message XOR the keystream from counter block 2 on (SP 800-38D section 7.1).
pub fn gcm_crypted(aes: &Aes, nonce: [u8; 12], message: &[u8]) -> Vec<u8> {
    let stream = |i: usize| aes.encrypt(counter_block(nonce, 2 + i as u32));
    let blocks = message.chunks(16).enumerate();
    blocks
        .flat_map(|(i, block)| {
            block
                .iter()
                .zip(stream(i))
                .map(|(a, b)| a ^ b)
                .collect::<Vec<_>>()
        })
        .collect()
}

/// The tag of a ciphertext and an AAD (SP 800-38D section 7.1).
pub fn gcm_tag(aes: &Aes, nonce: [u8; 12], aad: &[u8], ciphertext: &[u8]) -> [u8; 16] {
    let h = u128::from_be_bytes(aes.encrypt([0; 16]));
    let mut hash = 0;
    for block in aad.chunks(16).chain(ciphertext.chunks(16)) {
        let mut padded = [0; 16];
        padded[..block.len()].copy_from_slice(block);
        hash = block_times(hash ^ u128::from_be_bytes(padded), h);
    }
    let lengths = (8 * aad.len() as u128) << 64 | (8 * ciphertext.len() as u128);
    hash = block_times(hash ^ lengths, h);
    (hash ^ u128::from_be_bytes(aes.encrypt(counter_block(nonce, 1)))).to_be_bytes()
}

/// The key and the nonce of AES-256-GCM for a message of XAES-256-GCM.
pub fn xaes_derived(key: &[u8; 32], nonce: [u8; 24]) -> ([u8; 32], [u8; 12]) {
    let aes = Aes::new(key);
    let zero = u128::from_be_bytes(aes.encrypt([0; 16]));
    let subkey = (zero << 1) ^ if zero >> 127 == 1 { 0x87 } else { 0 };
    let half = |number: u8| {
        let mut block = [0, number, b'X', 0, 0, 0, 0, 0, 0, 0, 0, 0, 0, 0, 0, 0];
        block[4..].copy_from_slice(&nonce[..12]);
        aes.encrypt((u128::from_be_bytes(block) ^ subkey).to_be_bytes())
    };
    let derived = [half(1), half(2)].concat().try_into().expect("32 bytes");
    (derived, nonce[12..].try_into().expect("12 bytes"))
}

/// A block of ChaCha20 (RFC 8439 section 2.3).
fn chacha20_block(key: &[u8; 32], number: u32, nonce: [u8; 12]) -> [u8; 64] {
    let word = |bytes: &[u8]| u32::from_le_bytes(bytes.try_into().expect("four bytes"));
    let mut state: Vec<u32> = b"expand 32-byte k".chunks(4).map(word).collect();
    state.extend(key.chunks(4).map(word));
    state.push(number);
    state.extend(nonce.chunks(4).map(word));
    let mut x = state.clone();
    let mut quarter = |[a, b, c, d]: [usize; 4]| {
        for (into, from, other, n) in [(a, b, d, 16), (c, d, b, 12), (a, b, d, 8), (c, d, b, 7)] {
            x[into] = x[into].wrapping_add(x[from]);
            x[other] = (x[other] ^ x[into]).rotate_left(n);
        }
    };
    for _ in 0..10 {
        for i in 0..4 {
            quarter([i, 4 + i, 8 + i, 12 + i]);
        }
        for i in 0..4 {
            quarter([i, 4 + (i + 1) % 4, 8 + (i + 2) % 4, 12 + (i + 3) % 4]);
        }
    }
    let sums: Vec<u8> = x
        .iter()
        .zip(&state)
        .flat_map(|(a, b)| a.wrapping_add(*b).to_le_bytes())
        .collect();
    sums.try_into().expect("64 bytes")
}

/// The message XOR the stream from block `number` on (RFC 8439 section 2.4).
pub fn chacha20(key: &[u8; 32], number: u32, nonce: [u8; 12], message: &[u8]) -> Vec<u8> {
    let blocks = message.chunks(64).enumerate();
    blocks
        .flat_map(|(i, block)| {
            let stream = chacha20_block(key, number.wrapping_add(i as u32), nonce);
            block
                .iter()
                .zip(stream)
                .map(|(a, b)| a ^ b)
                .collect::<Vec<_>>()
        })
        .collect()
}
