//! Each call of the vectors beside a plain definition on arrays, at the level of the process, which `at_each_level` lowers.

use simd::{Job, Level, Places, u8x16, u32x4, u64x2, u64x4};

/// A job that is a function of one level.
macro_rules! job {
    ($name:ident, $level:ident, $body:block) => {
        struct $name;

        impl Job for $name {
            type Output = ();

            #[inline(always)]
            fn run<$level: Level>(self) $body
        }
    };
}

/// Numbers that look random.
fn drawn(seed: u64) -> impl Iterator<Item = u64> {
    std::iter::successors(Some(seed), |x| {
        Some(
            x.wrapping_mul(6364136223846793005)
                .wrapping_add(1442695040888963407),
        )
    })
    .map(|x| x ^ (x >> 29))
}

fn bytes(numbers: &mut impl Iterator<Item = u64>) -> [u8; 16] {
    std::array::from_fn(|_| (numbers.next().expect("a number") >> 40) as u8)
}

job!(Bytes, V, {
    for a in 0..=255u8 {
        let negated = u8x16::<V>::splat(a).wrapping_neg();
        assert_eq!(negated.to_array(), [a.wrapping_neg(); 16]);
        for b in 0..=255u8 {
            let (x, y) = (u8x16::<V>::splat(a), u8x16::<V>::splat(b));
            assert_eq!((x ^ y).to_array(), [a ^ b; 16]);
            assert_eq!((x & y).to_array(), [a & b; 16]);
            assert_eq!((x << y).to_array(), [a << (b % 8); 16]);
            assert_eq!((x >> y).to_array(), [a >> (b % 8); 16]);
        }
    }
    let mut numbers = drawn(1);
    for _ in 0..1000 {
        let (a, b) = (bytes(&mut numbers), bytes(&mut numbers));
        let (x, y) = (u8x16::<V>::from_array(a), u8x16::<V>::from_slice(&b));
        assert_eq!((x ^ y).to_array(), std::array::from_fn(|i| a[i] ^ b[i]));
        assert_eq!(
            (x << y).to_array(),
            std::array::from_fn(|i| a[i] << (b[i] % 8))
        );
        assert_eq!(
            (x >> y).to_array(),
            std::array::from_fn(|i| a[i] >> (b[i] % 8))
        );
        let mut slice = [7; 20];
        x.copy_to_slice(&mut slice);
        assert_eq!((&slice[..16], &slice[16..]), (&a[..], &[7; 4][..]));
    }
});

job!(Permuted, V, {
    let mut numbers = drawn(2);
    for place in (0..16).chain(128..=255u8) {
        for at in 0..16 {
            let table = bytes(&mut numbers);
            let mut places = [0; 16];
            places[at] = place;
            let wanted: [u8; 16] = std::array::from_fn(|i| {
                if places[i] < 16 {
                    table[usize::from(places[i])]
                } else {
                    0
                }
            });
            let found = u8x16::<V>::from_array(table).swizzle_dyn(u8x16::from_array(places));
            assert_eq!(found.to_array(), wanted);
        }
    }
    for _ in 0..1000 {
        let (a, b) = (bytes(&mut numbers), bytes(&mut numbers));
        let places = bytes(&mut numbers).map(|place| place % 32);
        let both: Vec<u8> = a.into_iter().chain(b).collect();
        let found = u8x16::<V>::from_array(a).shuffle(u8x16::from_array(b), Places::new(places));
        assert_eq!(
            found.to_array(),
            places.map(|place| both[usize::from(place)])
        );
        let places = places.map(|place| place % 16);
        assert_eq!(
            u8x16::<V>::from_array(a).swizzle(places).to_array(),
            places.map(|place| a[usize::from(place)])
        );
    }
    for from in 0..=16 {
        let (a, b) = (bytes(&mut numbers), bytes(&mut numbers));
        let places = Places::new(std::array::from_fn(|i| (from + i) as u8));
        let both: Vec<u8> = a.into_iter().chain(b).collect();
        let found = u8x16::<V>::from_array(a).shuffle(u8x16::from_array(b), places);
        assert_eq!(found.to_array(), both[from..from + 16]);
    }
    // Pairs of bytes stay together.
    for by in (0..16).step_by(2) {
        let a = bytes(&mut numbers);
        let places: [u8; 16] = std::array::from_fn(|i| (i as u8 + by) % 16);
        assert_eq!(
            u8x16::<V>::from_array(a).swizzle(places).to_array(),
            places.map(|place| a[usize::from(place)])
        );
    }
});

job!(Numbers, V, {
    let mut numbers = drawn(3);
    for _ in 0..1000 {
        let [a, b, c, d]: [u64; 4] = std::array::from_fn(|_| numbers.next().expect("a number"));
        let n = c % 64;
        let (x, y) = (
            u64x2::<V>::from_array([a, b]),
            u64x2::<V>::from_array([c, d]),
        );
        assert_eq!((x ^ y).to_array(), [a ^ c, b ^ d]);
        assert_eq!((x & y).to_array(), [a & c, b & d]);
        assert_eq!((x << u64x2::splat(n)).to_array(), [a << n, b << n]);
        assert_eq!((x >> u64x2::splat(n)).to_array(), [a >> n, b >> n]);
        assert_eq!((x << y).to_array(), [a << (c % 64), b << (d % 64)]);
        assert_eq!((x >> y).to_array(), [a >> (c % 64), b >> (d % 64)]);
        let le: Vec<u8> = [a, b]
            .iter()
            .flat_map(|number| number.to_le_bytes())
            .collect();
        assert_eq!(x.to_le_bytes().to_array()[..], le);
        assert_eq!(u64x2::from_le_bytes(x.to_le_bytes()).to_array(), [a, b]);

        let (wide, other) = (x.followed_by(y), y.followed_by(x));
        let halves = |v: simd::u64x4<V>| {
            [
                v.extract::<0, 2>().to_array(),
                v.extract::<2, 2>().to_array(),
            ]
        };
        assert_eq!(halves(wide), [[a, b], [c, d]]);
        assert_eq!(halves(wide ^ other), [[a ^ c, b ^ d], [c ^ a, d ^ b]]);
        assert_eq!(halves(wide & other), [[a & c, b & d], [c & a, d & b]]);
        assert_eq!(
            halves(wide << simd::u64x4::splat(n)),
            [[a << n, b << n], [c << n, d << n]]
        );
        assert_eq!(
            halves(wide >> simd::u64x4::splat(n)),
            [[a >> n, b >> n], [c >> n, d >> n]]
        );
        assert_eq!(
            halves(wide << other),
            [
                [a << (c % 64), b << (d % 64)],
                [c << (a % 64), d << (b % 64)]
            ]
        );
        assert_eq!(
            halves(wide >> other),
            [
                [a >> (c % 64), b >> (d % 64)],
                [c >> (a % 64), d >> (b % 64)]
            ]
        );
    }
});

job!(Words, V, {
    let mut numbers = drawn(4);
    for _ in 0..1000 {
        let a: [u32; 4] = std::array::from_fn(|_| numbers.next().expect("a number") as u32);
        let b: [u32; 4] = std::array::from_fn(|_| numbers.next().expect("a number") as u32);
        let (x, y, n) = (u32x4::from_array(a), u32x4::from_slice(&b), b[0] % 32);
        assert_eq!(
            (x + y).to_array(),
            std::array::from_fn(|i| a[i].wrapping_add(b[i]))
        );
        assert_eq!(
            (x - y).to_array(),
            std::array::from_fn(|i| a[i].wrapping_sub(b[i]))
        );
        assert_eq!((x ^ y).to_array(), std::array::from_fn(|i| a[i] ^ b[i]));
        assert_eq!((x & y).to_array(), std::array::from_fn(|i| a[i] & b[i]));
        assert_eq!((x | y).to_array(), std::array::from_fn(|i| a[i] | b[i]));
        assert_eq!((x << u32x4::splat(n)).to_array(), a.map(|word| word << n));
        assert_eq!((x >> u32x4::splat(n)).to_array(), a.map(|word| word >> n));
        assert_eq!(
            (x << y).to_array(),
            std::array::from_fn(|i| a[i] << (b[i] % 32))
        );
        assert_eq!(
            (x >> y).to_array(),
            std::array::from_fn(|i| a[i] >> (b[i] % 32))
        );
        assert_eq!(x.rotate_elements_left::<0>().to_array(), a);
        assert_eq!(
            x.rotate_elements_left::<1>().to_array(),
            [a[1], a[2], a[3], a[0]]
        );
        assert_eq!(
            x.rotate_elements_left::<2>().to_array(),
            [a[2], a[3], a[0], a[1]]
        );
        assert_eq!(
            x.rotate_elements_left::<3>().to_array(),
            [a[3], a[0], a[1], a[2]]
        );
        assert_eq!(x.reduce_xor(), a[0] ^ a[1] ^ a[2] ^ a[3]);
        let le: Vec<u8> = a.iter().flat_map(|word| word.to_le_bytes()).collect();
        assert_eq!(x.to_le_bytes::<V>().to_array()[..], le);
    }
});

/// Returns the numbers of a vector.
#[inline(always)]
fn four<V: Level>(vector: u64x4<V>) -> [u64; 4] {
    let ([a, b], [c, d]) = (
        vector.extract::<0, 2>().to_array(),
        vector.extract::<2, 2>().to_array(),
    );
    [a, b, c, d]
}

// Shifts by vectors whose numbers are one number at all places but one.
job!(OneOther, V, {
    let mut numbers = drawn(5);
    for at in (0..4).cycle().take(1000) {
        let a: [u64; 4] = std::array::from_fn(|_| numbers.next().expect("a number"));
        let mut by = [numbers.next().expect("a number") % 32; 4];
        by[at] ^= 1;
        let [x, n] = [a, by].map(|[a, b, c, d]| {
            u64x2::<V>::from_array([a, b]).followed_by(u64x2::from_array([c, d]))
        });
        assert_eq!(four(x << n), std::array::from_fn(|i| a[i] << by[i]));
        assert_eq!(four(x >> n), std::array::from_fn(|i| a[i] >> by[i]));
        let (a, by) = (
            a.map(|number| number as u32),
            by.map(|number| number as u32),
        );
        let (x, n) = (u32x4::from_array(a), u32x4::from_array(by));
        assert_eq!((x << n).to_array(), std::array::from_fn(|i| a[i] << by[i]));
        assert_eq!((x >> n).to_array(), std::array::from_fn(|i| a[i] >> by[i]));
    }
});

job!(Widths, V, {
    assert_eq!(V::HAS_256_BITS, simd::has_256_bits());
});

/// All jobs, from the highest level to the lowest, in one test, since a level is only lowered.
#[test]
fn each_call_at_each_level() {
    for count in (1..=simd::levels().len()).rev() {
        simd::at_most(count);
        assert_eq!(simd::levels().len(), count);
        simd::run(Bytes);
        simd::run(Permuted);
        simd::run(Numbers);
        simd::run(Words);
        simd::run(OneOther);
        simd::run(Widths);
        simd::at_most(count + 1);
        assert_eq!(simd::levels().len(), count, "a level was raised");
    }
}

#[test]
fn wipes_each_byte() {
    let mut numbers = [[u32::MAX; 7]; 3];
    simd::wipe(&mut numbers);
    assert_eq!(numbers, [[0; 7]; 3]);
    let mut bytes = [255u8; 37];
    simd::wipe(&mut bytes);
    assert_eq!(bytes, [0; 37]);
}

#[test]
fn wipes_from_each_address() {
    for at in 0..8 {
        let mut bytes = [255u8; 64];
        let part: &mut [u8; 37] = (&mut bytes[at..at + 37]).try_into().expect("37 bytes");
        simd::wipe(part);
        let wanted = std::array::from_fn(|i| if (at..at + 37).contains(&i) { 0 } else { 255 });
        assert_eq!(bytes, wanted);
    }
}
