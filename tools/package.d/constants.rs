//! Prints results that depend on constants of a program's own, of each kind that a compiler keeps beside the code, and what
//! three versions of the package `deerlapse` seal and open: the package, a copy with another version in its names, and one
//! over an installed library.

use std::hint::black_box;

/// Many instances have constants each: numbers, vectors, and the tables of a `match`.
#[inline(never)]
fn mix<const N: u64>(x: f64, bytes: [u8; 32], at: u64) -> (f64, u64) {
    let polynomial = (x * (0.1 + N as f64) - 1.7 * N as f64).sin() * 0.3 + x.exp() / 7.9;
    let mut words = [0u32; 8];
    for (i, word) in words.iter_mut().enumerate() {
        *word = u32::from(bytes[i] ^ bytes[31 - i])
            .wrapping_mul(0x9e37_79b9 + (N as u32) * (i as u32 + 3));
    }
    let masked: u64 = bytes
        .iter()
        .zip(TABLE)
        .map(|(a, b)| u64::from(a & b ^ N as u8))
        .sum();
    let chosen = match at % 9 {
        0 => 3 + N,
        1 => 1000 - N,
        2 => 17,
        3 => masked,
        4 => words.iter().map(|it| u64::from(*it)).sum(),
        5 => 900_000_000_007,
        6 => black_box(N) * 31,
        7 => u64::from(TABLE[(N % 32) as usize]),
        _ => polynomial.to_bits(),
    };
    (polynomial, chosen ^ words[(at % 8) as usize] as u64)
}

const TABLE: [u8; 32] = *b"a table of bytes, which is here!";

macro_rules! print_mixed {
    ($($n:literal)*) => {
        for at in 0..9 {
            let bytes = std::array::from_fn(|i| (at as usize * 23 + i * i) as u8);
            println!("{:?}", [$(mix::<$n>(black_box(0.7), black_box(bytes), black_box(at))),*]);
        }
    };
}

macro_rules! print_sealed {
    ($($package:ident)*) => {$(
        let key = $package::LessSafeKey::new(&black_box([7; 32])).expect("the length of a key");
        let nonce = || $package::Nonce::assume_unique_for_key([9; 12]);
        let mut buffer = vec![1; 1000];
        key.seal_in_place_append_tag(nonce(), b"v1", &mut buffer).expect("a short message");
        println!("{:x} {:?}", $package::version(), &buffer[990..]);
        println!("{:?}", key.open_in_place(nonce(), b"v1", &mut buffer).map(|it| it == [1; 1000]));
    )*};
}

fn main() {
    print_mixed!(0 1 2 3 4 5 6 7 8 9 10 11 12 13 14 15 16 17 18 19 20 21 22 23 24 25 26 27 28 29 30 31);
    print_sealed!(deerlapse other installed);
}
