// Written by tools/rust from crates/aead_ciphers_base/src/aes/tower.rt. Don't edit.
//! The inverse and the affine transformation of the S-box (FIPS 197 section 5.1.1) on planes. The
//! inverse is x^254, computed in a tower of fields.
//!
//! The field of 256 elements is an extension of a field of 16, and that one of a field of 4. Each has a
//! normal basis: the powers 16, 4 and 2 exchange the two halves of the coordinates. Therefore x^17, an
//! element of the field of 16, takes four planes, as does its inverse x^238:
//! x^17 = x * x^16, x^254 = x^16 * x^238.

use super::plane::Plane;

/// Multiplies in the field of 4.
// ensures { (p : ℕ) → plane_element basis_4 (map W.number result) p
//     ≡ mul8 (plane_element basis_4 (map W.number a) p) (plane_element basis_4 (map W.number b) p) }
#[inline(always)]
fn multiply_4<W: Plane>(a: [W; 2], b: [W; 2]) -> [W; 2] {
    let [a0, a1] = a;
    let [b0, b1] = b;
    let both = (a0 ^ a1) & (b0 ^ b1);
    [(a0 & b0) ^ both, (a1 & b1) ^ both]
}

/// Multiplies in the field of 16, by three products in the field of 4.
// ensures { (p : ℕ) → plane_element basis_16 (map W.number result) p
//     ≡ mul8 (plane_element basis_16 (map W.number a) p) (plane_element basis_16 (map W.number b) p) }
#[inline(always)]
fn multiply_16<W: Plane>(a: [W; 4], b: [W; 4]) -> [W; 4] {
    let [a0, a1, a2, a3] = a;
    let [b0, b1, b2, b3] = b;
    let [low0, low1] = multiply_4([a0, a1], [b0, b1]);
    let [high0, high1] = multiply_4([a2, a3], [b2, b3]);
    let [both0, both1] = multiply_4([a0 ^ a2, a1 ^ a3], [b0 ^ b2, b1 ^ b3]);
    let scaled = both0 ^ both1;
    [low0 ^ scaled, low1 ^ both0, high0 ^ scaled, high1 ^ both0]
}

/// Inverts in the field of 16. Each coordinate of the inverse is a polynomial in those of n. The power 4
/// exchanges the halves of n and those of its inverse, so the last two polynomials are the first two
/// with the halves of n exchanged.
// ensures { (p : ℕ) → plane_element basis_16 (map W.number result) p
//     ≡ inv (plane_element basis_16 (map W.number n) p) }
#[inline(always)]
fn invert_16<W: Plane>(n: [W; 4]) -> [W; 4] {
    let [n0, n1, n2, n3] = n;
    let both0 = n0 & n2;
    let both1 = n1 & n3;
    [
        n2 ^ ((n2 ^ n3) & (n0 ^ both1)),
        (n2 ^ n3) ^ (n3 & ((n0 ^ n1) ^ both0)),
        n0 ^ ((n0 ^ n1) & (n2 ^ both1)),
        (n0 ^ n1) ^ (n1 & ((n2 ^ n3) ^ both0)),
    ]
}

/// Inverts each byte, in coordinates of the tower: a^254 = a^16 * (a^17)^14, and a^17 is in the field of 16.
// ensures { (p : ℕ) → plane_element basis_256 (map W.number result) p
//     ≡ inv (plane_element basis_256 (map W.number a) p) }
#[inline(always)]
fn invert<W: Plane>(a: [W; 8]) -> [W; 8] {
    let [a0, a1, a2, a3, a4, a5, a6, a7] = a;
    let low = [a0, a1, a2, a3];
    let high = [a4, a5, a6, a7];
    let [c0, c1, c2, c3] = multiply_16(low, high);
    // `multiply_16` takes the same sums of two coordinates of a half, so they are computed once.
    let a17 = [
        c0 ^ ((a1 ^ a3) ^ (a5 ^ a7)),
        c1 ^ ((a0 ^ a2) ^ (a4 ^ a6)),
        c2 ^ (a2 ^ a6),
        c3 ^ ((a2 ^ a3) ^ (a6 ^ a7)),
    ];
    let a238 = invert_16(a17);
    let [r0, r1, r2, r3] = multiply_16(high, a238);
    let [r4, r5, r6, r7] = multiply_16(low, a238);
    [r0, r1, r2, r3, r4, r5, r6, r7]
}

/// Converts each byte to its coordinates in the basis of the tower.
// ensures { (p : ℕ) → plane_element basis_256 (map W.number result) p ≡ plane_byte (map W.number a) p }
#[inline(always)]
fn to_tower<W: Plane>(a: [W; 8]) -> [W; 8] {
    let [a0, a1, a2, a3, a4, a5, a6, a7] = a;
    let a06 = a0 ^ a6;
    let a056 = a5 ^ a06;
    let a13 = a1 ^ a3;
    let a0156 = a1 ^ a056;
    [
        a0,
        a0 ^ a4 ^ (a7 ^ a13),
        a2 ^ (a06 ^ a13),
        a056,
        a4 ^ a056,
        a0156 ^ (a2 ^ a7),
        a7 ^ a056,
        a0156,
    ]
}

/// Applies the affine transformation of the S-box to each byte. The planes hold the coordinates of the
/// bytes in the basis of the tower; the result holds bytes again.
// ensures { (p : ℕ) → p < W.width → plane_byte (map W.number result) p
//     ≡ affine (plane_element basis_256 (map W.number a) p) }
#[inline(always)]
fn map_affine<W: Plane>(a: [W; 8]) -> [W; 8] {
    let [a0, a1, a2, a3, a4, a5, a6, a7] = a;
    let ones = W::ones();
    let a17 = a1 ^ a7;
    let a157 = a5 ^ a17;
    let a24 = a2 ^ a4;
    let not_a36 = a3 ^ a6 ^ ones;
    [
        a4 ^ not_a36,
        a7 ^ not_a36,
        a0 ^ (a17 ^ a24),
        a6 ^ (a4 ^ a157),
        a157,
        a24 ^ ones,
        a1 ^ a5 ^ ones,
        a17,
    ]
}

/// Replaces each byte that the planes hold by its S-box value (FIPS 197 section 5.1.1). Bit `b` of byte
/// `p` is bit `p` of plane `b`.
///
/// <details><summary>Contract</summary>
///
/// ```text
/// ensures { (p : ℕ) → p < W.width → plane_byte (map W.number result) p
///     ≡ sbox (plane_byte (map W.number planes) p) }
/// ```
///
/// Definitions: [`plane_byte`](crate::specs::planes#plane_byte), [`sbox`](crate::specs::byte_field#sbox).
///
/// </details>
#[inline(always)]
pub fn sub_bytes<W: Plane>(planes: [W; 8]) -> [W; 8] {
    map_affine(invert(to_tower(planes)))
}
