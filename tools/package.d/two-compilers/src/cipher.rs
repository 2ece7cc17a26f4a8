//! What AES-GCM and XAES-256-GCM have in common, by the Rust and by the assembly.

/// The length of a tag, in bytes.
pub const TAG_LEN: usize = 16;

/// What a message is sealed and opened with, beside the key.
#[derive(Clone, Copy)]
pub struct Given<'a, const N: usize> {
    pub nonce: [u8; N],
    pub aad: &'a [u8],
}

/// A key whose nonces have `N` bytes. A call that is refused returns `None`.
pub trait Cipher<const N: usize> {
    /// Seals a message in place, and returns its tag.
    fn seal(&self, given: Given<N>, in_out: &mut [u8]) -> Option<[u8; TAG_LEN]>;

    /// Returns a sealed message with its tag after it.
    fn seal_append_tag(&self, given: Given<N>, message: &[u8]) -> Option<Vec<u8>>;

    /// Opens what begins at `start` and ends with its tag, to the front, and returns the length of the message.
    fn open(&self, given: Given<N>, in_out: &mut [u8], start: usize) -> Option<usize>;

    /// Does the same where the tag is apart.
    fn open_separate_tag(
        &self,
        given: Given<N>,
        tag: [u8; TAG_LEN],
        in_out: &mut [u8],
        start: usize,
    ) -> Option<usize>;

    /// Opens from one buffer to another.
    fn open_to(
        &self,
        given: Given<N>,
        tag: [u8; TAG_LEN],
        ciphertext: &[u8],
        out: &mut [u8],
    ) -> Option<usize>;
}
