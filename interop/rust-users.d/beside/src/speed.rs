//! How long the calls of both packages take.

use std::time::Duration;

/// How long a call is repeated for one time, and how many times there are, of which the median counts.
const TURN: Duration = Duration::from_millis(40);
const TURNS: usize = 15;

type Call = Box<dyn FnMut()>;

/// The calls of a package on messages of a length, and a message of zeros that it has sealed.
struct Calls {
    key: Call,
    seal: Call,
    open: Call,
    mask: Call,
    sealed: Vec<u8>,
}

/// Defines the calls of a package.
macro_rules! calls_of {
    ($package:ident) => {
        mod $package {
            use super::Calls;
            use ::$package::aead::quic::{self, HeaderProtectionKey};
            use ::$package::aead::{self, Aad, LessSafeKey, Nonce, UnboundKey};
            use std::hint::black_box;

            pub(super) fn calls(is_256: bool, len: usize) -> Calls {
                let (algorithm, of_headers) = match is_256 {
                    true => (&aead::AES_256_GCM, &quic::AES_256),
                    false => (&aead::AES_128_GCM, &quic::AES_128),
                };
                let bytes = [7; 32];
                let new = move || {
                    let key = UnboundKey::new(algorithm, &bytes[..algorithm.key_len()]);
                    LessSafeKey::new(key.expect("a key"))
                };
                let nonce = || Nonce::assume_unique_for_key([7; 12]);
                let (sealing, opening) = (new(), new());
                let headers = HeaderProtectionKey::new(of_headers, &bytes[..of_headers.key_len()]);
                let headers = headers.expect("a key");
                let (mut plain, mut sealed) = (vec![0; len], vec![0; len]);
                sealing
                    .seal_in_place_append_tag(nonce(), Aad::empty(), &mut sealed)
                    .expect("a message that isn't too long");
                let (mut opened, given) = (sealed.clone(), sealed.clone());
                Calls {
                    key: Box::new(move || {
                        black_box(new());
                    }),
                    seal: Box::new(move || {
                        let aad = Aad::empty();
                        let tag = sealing.seal_in_place_separate_tag(nonce(), aad, &mut plain);
                        let _ = black_box(tag.expect("a message that isn't too long"));
                    }),
                    open: Box::new(move || {
                        opened.copy_from_slice(&given);
                        let opened = opening.open_in_place(nonce(), Aad::empty(), &mut opened);
                        black_box(opened.expect("a message that was sealed"));
                    }),
                    mask: Box::new(move || {
                        black_box(headers.new_mask(&[7; 16]).expect("a sample"));
                    }),
                    sealed,
                }
            }
        }
    };
}

calls_of!(ring);
calls_of!(deerlapse_ring);

/// The processor time of this thread.
fn now() -> Duration {
    let mut time = libc::timespec {
        tv_sec: 0,
        tv_nsec: 0,
    };
    // SAFETY: the pointer is of a place for the time.
    let status = unsafe { libc::clock_gettime(libc::CLOCK_THREAD_CPUTIME_ID, &mut time) };
    assert_eq!(status, 0, "there is no clock");
    Duration::new(time.tv_sec as u64, time.tv_nsec as u32)
}

/// The time of one call, in nanoseconds, from calls that are repeated for a turn.
fn turn(call: &mut dyn FnMut()) -> f64 {
    let (start, mut count) = (now(), 0);
    while now() - start < TURN {
        for _ in 0..16 {
            call();
        }
        count += 16;
    }
    (now() - start).as_nanos() as f64 / f64::from(count)
}

/// The median times of a call of both packages, which are made in turns.
fn medians(is_256: bool, len: usize, call: fn(&mut Calls) -> &mut Call) -> [f64; 2] {
    let mut both = [deerlapse_ring::calls(is_256, len), ring::calls(is_256, len)];
    assert_eq!(both[0].sealed, both[1].sealed);
    let mut times = [Vec::new(), Vec::new()];
    for _ in 0..TURNS {
        for (calls, times) in both.iter_mut().zip(&mut times) {
            times.push(turn(&mut **call(calls)));
        }
    }
    times.map(|mut it| {
        it.sort_by(f64::total_cmp);
        it[TURNS / 2]
    })
}

/// A row of the table: the times of both ciphers, or for bytes their speeds, and by how much ring's are shorter.
fn row(name: &str, bytes: Option<usize>, call: fn(&mut Calls) -> &mut Call) {
    let times = [false, true].map(|is_256| medians(is_256, bytes.unwrap_or(0), call));
    let cell = |of: usize| match bytes {
        Some(len) => {
            let speeds = times.map(|it| len as f64 * 1e3 / it[of]);
            format!("{:.0}, {:.0} MB/s", speeds[0], speeds[1])
        }
        None => format!("{:.0}, {:.0} ns", times[0][of], times[1][of]),
    };
    let (ours, theirs) = (cell(0), cell(1));
    let ratios = times.map(|it| it[0] / it[1]);
    println!(
        "| {name} | {ours} | {theirs} | {:.1}, {:.1} |",
        ratios[0], ratios[1]
    );
}

pub(crate) fn run() {
    println!("| Beside ring | `deerlapse-ring` | ring | ring's speed over ours |");
    println!("|---|---|---|---|");
    row("making a key", None, |it| &mut it.key);
    for len in [64, 1350, 16_384] {
        row(&format!("sealing, {len} bytes"), Some(len), |it| {
            &mut it.seal
        });
        row(&format!("opening, {len} bytes"), Some(len), |it| {
            &mut it.open
        });
    }
    row("a mask", None, |it| &mut it.mask);
}
