//! A call for which the allocator refuses memory fails with the error that says so, and leaves what was there. Without that, a
//! `Vec` that grows ends the program. And a dropped key leaves no byte of its own.

use std::alloc::{GlobalAlloc, Layout, System};
use std::cell::Cell;
use std::hint::black_box;
use std::io::{Cursor, ErrorKind};
use std::ptr;

use deerlapse_protocols_vectors::files::{CALLS, end_of, file_of, key, random, sealed_of};
use sealed_file::{
    CHUNK_LEN, FileError, HEADER_LEN, SEALED_CHUNK_LEN, SealedReader, open_bytes, open_chunk_at,
    seal_bytes,
};

/// The system's allocator, which refuses what is more than `GROWTHS`, and looks at the block `WATCHED` when it is given back.
struct Refusing;

thread_local! {
    /// How many calls for memory succeed, if not all of them do.
    static GROWTHS: Cell<Option<usize>> = const { Cell::new(None) };
    /// How many calls for memory were refused.
    static REFUSED: Cell<usize> = const { Cell::new(0) };
    /// The address of a block.
    static WATCHED: Cell<usize> = const { Cell::new(0) };
    /// How many bytes of the block weren't zero.
    static LEFT: Cell<Option<usize>> = const { Cell::new(None) };
}

/// Counts a call for memory, and returns whether it is refused.
fn refuses() -> bool {
    match GROWTHS.get() {
        None => false,
        Some(0) => {
            REFUSED.set(REFUSED.get() + 1);
            true
        }
        Some(growths) => {
            GROWTHS.set(Some(growths - 1));
            false
        }
    }
}

// SAFETY: each call is one of the system's allocator or returns null, by which an allocator refuses.
unsafe impl GlobalAlloc for Refusing {
    unsafe fn alloc(&self, layout: Layout) -> *mut u8 {
        if refuses() {
            return ptr::null_mut();
        }
        // SAFETY: the caller keeps to the contract of `alloc`, which is the same.
        unsafe { System.alloc(layout) }
    }

    unsafe fn dealloc(&self, at: *mut u8, layout: Layout) {
        if at.addr() == WATCHED.get() {
            // SAFETY: the block has this size, and the test that watches it has initialized it.
            let left = (0..layout.size()).filter(|i| unsafe { at.add(*i).read_volatile() } != 0);
            LEFT.set(Some(left.count()));
        }
        // SAFETY: the block is of `alloc`, and so of the system's allocator.
        unsafe { System.dealloc(at, layout) }
    }
}

#[global_allocator]
static ALLOCATOR: Refusing = Refusing;

/// Makes a call that gets memory so many times, and returns what it returns, and whether it was refused more.
fn with_growths<R>(growths: usize, call: impl FnOnce() -> R) -> (R, bool) {
    REFUSED.set(0);
    GROWTHS.set(Some(growths));
    let result = call();
    GROWTHS.set(None);
    (result, REFUSED.get() > 0)
}

/// Asserts that `is_refused` is so of 0 growths, of 1 and so on, up to those that the call needs: this many.
#[track_caller]
fn assert_needs(needed: usize, is_refused: impl FnMut(&usize) -> bool) {
    assert_eq!((0..).take_while(is_refused).count(), needed);
}

#[test]
fn streams() {
    let file = file_of(CHUNK_LEN + 5);
    for (calls, (to_seal, to_open)) in CALLS.iter().zip([(2, 2), (2, 2), (5, 4)]) {
        let mut sealed = Vec::new();
        (calls.seal)(&mut file.as_slice(), &mut sealed).expect("memory");
        for (call, needed, input, all) in [
            (calls.seal, to_seal, &file, &sealed),
            (calls.open, to_open, &sealed, &file),
        ] {
            assert_needs(needed, |growths| {
                let mut written = Vec::with_capacity(all.len());
                let (result, is_refused) =
                    with_growths(*growths, || call(&mut input.as_slice(), &mut written));
                if is_refused {
                    let error = result.expect_err(calls.what);
                    assert!(
                        matches!(&error, FileError::Io(error) if error.kind() == ErrorKind::OutOfMemory),
                        "{error:?}"
                    );
                    assert!(written.is_empty());
                } else {
                    result.expect(calls.what);
                    assert!(written == *all);
                }
                is_refused
            });
        }
    }
}

/// A call that appends to a `Vec`.
type Append<'a> = &'a dyn Fn(&mut Vec<u8>) -> Result<(), FileError>;

#[test]
fn calls_in_memory() {
    let (file, sealed) = (file_of(CHUNK_LEN + 5), sealed_of(CHUNK_LEN + 5));
    let (header, body) = sealed.split_at(HEADER_LEN);
    let first = &body[..SEALED_CHUNK_LEN];
    let calls: [(Append, &[u8]); 3] = [
        (&|out| seal_bytes(&key(), random(), &file, out), &sealed),
        (&|out| open_bytes(&key(), &sealed, out), &file),
        (
            &|out| open_chunk_at(&key(), &[], header, 0, false, first, out),
            &file[..CHUNK_LEN],
        ),
    ];
    for (call, appended) in calls {
        assert_needs(1, |growths| {
            let mut out = b"before".to_vec();
            let (result, is_refused) = with_growths(*growths, || call(&mut out));
            if is_refused {
                assert_eq!(end_of(result), "OutOfMemory");
                assert_eq!(out, b"before");
            } else {
                assert_eq!(end_of(result), "Ok");
                assert!(out == [b"before", appended].concat());
            }
            is_refused
        });
        // With room for the result, nothing is asked of the allocator.
        let mut out = Vec::with_capacity(appended.len());
        let (result, is_refused) = with_growths(0, || call(&mut out));
        assert_eq!(end_of(result), "Ok");
        assert!(!is_refused);
    }
}

#[test]
fn readers() {
    let (file, sealed) = (file_of(2 * CHUNK_LEN + 5), sealed_of(2 * CHUNK_LEN + 5));
    for capacity in [None, Some(0), Some(10), Some(SEALED_CHUNK_LEN)] {
        let needed = usize::from(capacity != Some(SEALED_CHUNK_LEN));
        assert_needs(needed, |growths| {
            let buffer = capacity.map(Vec::with_capacity);
            let input = Cursor::new(sealed.as_slice());
            let (result, is_refused) = with_growths(*growths, || match buffer {
                None => SealedReader::new(&key(), &[], input, 0),
                Some(buffer) => SealedReader::with_buffer(&key(), &[], input, 0, buffer),
            });
            assert_eq!(
                end_of(result),
                if is_refused { "OutOfMemory" } else { "Ok" }
            );
            is_refused
        });
    }
    // A reader asks for no memory when it reads.
    let mut reader = SealedReader::new(&key(), &[], sealed.as_slice(), 0).expect("memory");
    for at in [0, CHUNK_LEN, 2 * CHUNK_LEN] {
        let mut buf = [0; 5];
        let (result, is_refused) = with_growths(0, || reader.read_at(at as u64, &mut buf));
        assert_eq!(result.expect("a chunk"), 5);
        assert!(!is_refused);
        assert_eq!(buf, file[at..at + 5]);
    }
}

/// Drops a value, and returns how many bytes of its memory aren't zero then.
fn left_of<T>(value: T) -> Option<usize> {
    let value = Box::new(value);
    LEFT.set(None);
    // Without `black_box`, the compiler needn't store a value that nothing reads.
    WATCHED.set(ptr::from_ref(black_box(&*value)).addr());
    drop(value);
    WATCHED.set(0);
    LEFT.get()
}

#[test]
fn a_dropped_key_is_overwritten() {
    assert_eq!(left_of([0xa5; 32]), Some(32));
    assert_eq!(left_of(key()), Some(0));
}
