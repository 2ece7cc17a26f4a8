//! Which bytes are secret: memcheck sees them as undefined, and reports a branch or an address that depends on them.

// SAFETY: the functions are those of marks.c, which marks bytes and neither reads nor writes them.
#[link(name = "marks", kind = "static")]
unsafe extern "C" {
    fn mark_secret(bytes: *mut u8, len: usize);
    fn mark_known(bytes: *mut u8, len: usize);
}

/// What each secret byte is.
const BYTE: u8 = 0x5a;

/// Returns an array of secret bytes.
pub fn secret<const N: usize>() -> [u8; N] {
    let mut bytes = [BYTE; N];
    // SAFETY: the array has this length.
    unsafe { mark_secret(bytes.as_mut_ptr(), N) };
    bytes
}

/// Returns this many secret bytes.
pub fn secrets(len: usize) -> Vec<u8> {
    let mut bytes = vec![BYTE; len];
    // SAFETY: the vector has this length.
    unsafe { mark_secret(bytes.as_mut_ptr(), len) };
    bytes
}

/// Returns a copy that is no secret.
pub fn told(bytes: &[u8]) -> Vec<u8> {
    let mut bytes = bytes.to_vec();
    // SAFETY: the vector has this length.
    unsafe { mark_known(bytes.as_mut_ptr(), bytes.len()) };
    bytes
}

/// Asserts that these bytes are as `secrets` returned them.
#[track_caller]
pub fn assert_are_those(bytes: &[u8]) {
    assert!(told(bytes).iter().all(|byte| *byte == BYTE));
}
