//! A call for which the allocator refuses memory fails, and changes nothing. Without that, a `Vec` that grows ends the program.

use std::alloc::{GlobalAlloc, Layout, System};
use std::cell::Cell;

use deerlapse::aead::{
    AES_256_GCM, Aad, BoundKey, CounterSequence, LessSafeKey, Nonce, OpeningKey, SealingKey,
    UnboundKey,
};
use deerlapse::memory::{AllocError, AllocFailed, TryGrow, try_to_vec, try_with_capacity};
use deerlapse::session::{self, Job, Operation, Outcome};
use deerlapse::xaes::{XNonce, Xaes256Gcm};

/// The system's allocator, which refuses while `REFUSES` says so.
struct Refusing;

thread_local! {
    static REFUSES: Cell<bool> = const { Cell::new(false) };
}

// SAFETY: each call is one of the system's allocator or returns null, by which an allocator refuses.
unsafe impl GlobalAlloc for Refusing {
    unsafe fn alloc(&self, layout: Layout) -> *mut u8 {
        if REFUSES.get() {
            return std::ptr::null_mut();
        }
        // SAFETY: the caller keeps to the contract of `alloc`, which is the same.
        unsafe { System.alloc(layout) }
    }

    unsafe fn dealloc(&self, at: *mut u8, layout: Layout) {
        // SAFETY: the block is of `alloc`, and so of the system's allocator.
        unsafe { System.dealloc(at, layout) }
    }
}

#[global_allocator]
static ALLOCATOR: Refusing = Refusing;

/// Makes a call while the allocator refuses.
fn refused<R>(call: impl FnOnce() -> R) -> R {
    REFUSES.set(true);
    let result = call();
    REFUSES.set(false);
    result
}

fn unbound() -> UnboundKey {
    UnboundKey::new(&AES_256_GCM, &[9; 32]).expect("a key of its length")
}

fn sequence() -> CounterSequence {
    CounterSequence::new([1; 4], 0, 1).expect("numbers that fit")
}

/// A buffer with this message, and with room for so many more bytes.
fn buffer_of(message: &[u8], room: usize) -> Vec<u8> {
    let mut buffer = Vec::with_capacity(message.len() + room);
    buffer.extend_from_slice(message);
    buffer
}

#[test]
fn a_refused_key_changes_nothing() {
    let key = LessSafeKey::new(unbound());
    let nonce = || Nonce::assume_unique_for_key([2; 12]);
    let mut buffer = buffer_of(b"a message", 15);
    assert!(refused(|| key.seal_in_place_append_tag(nonce(), Aad::empty(), &mut buffer)).is_err());
    assert_eq!(buffer, b"a message");
    // With room for the tag, nothing is asked of the allocator.
    let mut roomy = buffer_of(b"a message", 16);
    assert!(refused(|| key.seal_in_place_append_tag(nonce(), Aad::empty(), &mut roomy)).is_ok());
    key.seal_in_place_append_tag(nonce(), Aad::empty(), &mut buffer)
        .expect("memory");
    assert_eq!(buffer, roomy);
}

#[test]
fn a_refused_sealing_key_spends_no_nonce() {
    let mut sealing = SealingKey::new(unbound(), sequence());
    let mut buffer = buffer_of(b"a message", 0);
    assert!(refused(|| sealing.seal_in_place_append_tag(Aad::empty(), &mut buffer)).is_err());
    assert_eq!(buffer, b"a message");
    // The sequence has one nonce, which is still there.
    sealing
        .seal_in_place_append_tag(Aad::empty(), &mut buffer)
        .expect("a nonce");
    let mut opening = OpeningKey::new(unbound(), sequence());
    assert_eq!(
        opening
            .open_in_place(Aad::empty(), &mut buffer)
            .expect("the defined tag"),
        b"a message"
    );
}

#[test]
fn a_refused_job_changes_nothing() {
    let mut sealing = SealingKey::new(unbound(), sequence());
    let mut opening = OpeningKey::new(unbound(), sequence());
    let mut jobs = [Job::new(
        Operation::Seal,
        b"aad".to_vec(),
        buffer_of(b"a message", 0),
    )];
    refused(|| session::run(&mut sealing, &mut opening, &mut jobs));
    assert_eq!(jobs[0].outcome, Outcome::Refused);
    assert_eq!(jobs[0].buffer, b"a message");
}

#[test]
fn a_refused_extended_key_changes_nothing() {
    let key = Xaes256Gcm::new(&[9; 32]);
    let nonce = || XNonce::assume_unique_for_key([2; 24]);
    let mut buffer = buffer_of(b"a message", 0);
    assert!(refused(|| key.seal_in_place_append_tag(nonce(), Aad::empty(), &mut buffer)).is_err());
    assert_eq!(buffer, b"a message");
    assert!(
        key.seal_in_place_append_tag(nonce(), Aad::empty(), &mut buffer)
            .is_ok()
    );
}

/// A call that grows a `Vec` by four items or fails.
type Grows = fn(&mut Vec<u8>) -> Result<(), AllocError>;

/// The calls of `TryGrow` that append four items, and what a `Vec` then ends with.
const GROWS: [(Grows, [u8; 4]); 3] = [
    (|it| it.try_extend_from_slice(b"four"), *b"four"),
    (|it| it.try_resize(it.len() + 4, 7), [7; 4]),
    (
        |it| {
            it.try_grow(4)?;
            it.extend_from_slice(b"room");
            Ok(())
        },
        *b"room",
    ),
];

#[test]
fn a_refused_vec_is_unchanged() {
    for (grows, end) in GROWS {
        for room in 0..4 {
            let mut items = buffer_of(b"items", room);
            let capacity = items.capacity();
            assert_eq!(refused(|| grows(&mut items)), Err(AllocError));
            assert_eq!((&items[..], items.capacity()), (&b"items"[..], capacity));
            assert_eq!(grows(&mut items), Ok(()));
            assert_eq!(items, [b"items", &end[..]].concat());
        }
        let mut items = buffer_of(b"items", 4);
        assert_eq!(refused(|| grows(&mut items)), Ok(()));
        assert_eq!(items, [b"items", &end[..]].concat());
    }
}

#[test]
fn a_refused_item_is_given_back() {
    let mut items = buffer_of(b"items", 0);
    let failed = AllocFailed { value: 7 };
    assert_eq!(refused(|| items.try_push(7)), Err(failed));
    assert_eq!((&items[..], items.capacity()), (&b"items"[..], 5));
    let mut roomy = buffer_of(b"items", 1);
    assert_eq!(refused(|| roomy.try_push(7)), Ok(()));
    assert_eq!(items.try_push(7), Ok(()));
    assert_eq!(items, b"items\x07");
    assert_eq!(items, roomy);
}

/// A call that makes a `Vec` shorter, or adds nothing, asks nothing of the allocator.
#[test]
fn a_vec_that_does_not_grow_is_not_refused() {
    let mut items = buffer_of(b"items", 0);
    assert_eq!(refused(|| items.try_grow(0)), Ok(()));
    assert_eq!(refused(|| items.try_extend_from_slice(b"")), Ok(()));
    assert_eq!(refused(|| items.try_resize(5, 7)), Ok(()));
    assert_eq!(items, b"items");
    assert_eq!(refused(|| items.try_resize(2, 7)), Ok(()));
    assert_eq!(items, b"it");
}

/// No allocator has so much memory.
#[test]
fn more_than_a_vec_can_hold_is_refused() {
    let mut items = buffer_of(b"items", 0);
    assert_eq!(items.try_grow(usize::MAX), Err(AllocError));
    assert_eq!(items.try_resize(usize::MAX, 7), Err(AllocError));
    assert_eq!(items, b"items");
    assert_eq!(try_with_capacity::<u64>(usize::MAX), Err(AllocError));
}

#[test]
fn a_refused_new_vec_is_an_error() {
    assert_eq!(refused(|| try_with_capacity::<u8>(5)), Err(AllocError));
    assert_eq!(refused(|| try_to_vec(b"items")), Err(AllocError));
    assert_eq!(refused(|| try_with_capacity::<u8>(0)), Ok(Vec::new()));
    assert_eq!(refused(|| try_to_vec::<u8>(&[])), Ok(Vec::new()));
    let mut items = try_with_capacity(5).expect("memory");
    assert_eq!(refused(|| items.try_extend_from_slice(b"items")), Ok(()));
    assert_eq!(try_to_vec(b"items"), Ok(items));
}
