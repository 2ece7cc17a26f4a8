//! The calls of `deerlapse.h`. `tools/package` of the repository uses a C compiler to compare these declarations with that
//! header, and relies on their layout: a struct `Sealer` for `deerlapse_sealer`, a function `sealer_next` for
//! `deerlapse_sealer_next`.

/// `deerlapse_key`.
#[repr(C)]
#[derive(Clone)]
pub(crate) struct Key {
    pub(crate) words: [u64; 399],
}

/// `deerlapse_xaes`.
#[repr(C)]
#[derive(Clone)]
pub(crate) struct Xaes {
    pub(crate) words: [u64; 33],
}

/// `deerlapse_message`.
#[repr(C)]
pub(crate) struct Message {
    pub(crate) words: [u64; 22],
}

/// `deerlapse_sealer`.
#[repr(C)]
pub(crate) struct Sealer {
    pub(crate) words: [u64; 430],
}

/// `deerlapse_opener`.
#[repr(C)]
pub(crate) struct Opener {
    pub(crate) words: [u64; 430],
}

/// `deerlapse_quic_key`.
#[repr(C)]
#[derive(Clone)]
pub(crate) struct QuicKey {
    pub(crate) words: [u64; 401],
}

/// `deerlapse_quic_header_key`.
#[repr(C)]
#[derive(Clone)]
pub(crate) struct QuicHeaderKey {
    pub(crate) words: [u64; 31],
}

/// `deerlapse_record_key`.
#[repr(C)]
#[derive(Clone)]
pub(crate) struct RecordKey {
    pub(crate) words: [u64; 401],
}

#[cfg(feature = "system")]
#[link(name = "deerlapse")]
extern "C" {}

/// A function of the library. In this package's assembly its name has the version, so that two versions in one program, or a
/// package beside an installed library, are two sets of functions. In the text of x86-64-v3 the level comes after it.
macro_rules! of_library {
    ($level:literal $name:ident($($parameter:ident: $type:ty),*) $(-> $result:ty)?) => {{
        extern "C" {
            #[cfg_attr(feature = "system", link_name = concat!("deerlapse_", stringify!($name)))]
            #[cfg_attr(not(feature = "system"), link_name = concat!(
                "deerlapse_",
                env!("CARGO_PKG_VERSION_MAJOR"), "_",
                env!("CARGO_PKG_VERSION_MINOR"), "_",
                env!("CARGO_PKG_VERSION_PATCH"), $level, "_",
                stringify!($name)
            ))]
            fn $name($($parameter: $type),*) $(-> $result)?;
        }
        $name
    }};
}

/// Defines functions that call the library's. Where the package has the text of x86-64-v3 beside that of v2, they are those of
/// v3 if the condition holds.
macro_rules! functions {
    (if $v3:expr; $(fn $name:ident($($parameter:ident: $type:ty),* $(,)?) $(-> $result:ty)?;)*) => {$(
        #[inline]
        #[allow(clippy::too_many_arguments)] // they are the header's
        pub(crate) unsafe fn $name($($parameter: $type),*) $(-> $result)? {
            #[cfg(all(
                not(feature = "system"),
                target_arch = "x86_64",
                any(target_os = "linux", target_os = "android", target_os = "freebsd"),
                any(
                    feature = "x86-64-v3",
                    all(target_feature = "avx2", target_feature = "bmi2", target_feature = "fma")
                )
            ))]
            if $v3 {
                return of_library!("_v3" $name($($parameter: $type),*) $(-> $result)?)($($parameter),*);
            }
            of_library!("" $name($($parameter: $type),*) $(-> $result)?)($($parameter),*)
        }
    )*};
}

// Those that take the width of a key's planes, which is the level's that made it, or that hash: by the processor.
functions! {
    if crate::cpu::takes_v3();

    fn key_init(key: *mut Key, bytes: *const u8, len: usize) -> bool;

    fn key_seal(
        key: &Key,
        nonce: &[u8; 12],
        aad: *const u8,
        aad_len: usize,
        in_out: *mut u8,
        in_out_len: usize,
        tag: &mut [u8; 16],
    ) -> bool;

    fn key_open(
        key: &Key,
        nonce: &[u8; 12],
        aad: *const u8,
        aad_len: usize,
        in_out: *mut u8,
        in_out_len: usize,
        start: usize,
        plaintext_len: &mut usize,
    ) -> bool;

    fn key_open_separate_tag(
        key: &Key,
        nonce: &[u8; 12],
        aad: *const u8,
        aad_len: usize,
        in_out: *mut u8,
        in_out_len: usize,
        start: usize,
        tag: &[u8; 16],
    ) -> bool;

    fn key_seal_to_sized(
        key: &Key,
        nonce: &[u8; 12],
        aad: *const u8,
        aad_len: usize,
        message: *const u8,
        message_len: usize,
        out: *mut u8,
        out_len: usize,
        tag: &mut [u8; 16],
    ) -> bool;

    fn key_open_to_sized(
        key: &Key,
        nonce: &[u8; 12],
        aad: *const u8,
        aad_len: usize,
        ciphertext: *const u8,
        ciphertext_len: usize,
        out: *mut u8,
        out_len: usize,
        tag: &[u8; 16],
    ) -> bool;

    fn key_seal_append_tag_sized(
        key: &Key,
        nonce: &[u8; 12],
        aad: *const u8,
        aad_len: usize,
        message: *const u8,
        message_len: usize,
        out: *mut u8,
        out_len: usize,
    ) -> bool;

    fn key_open_appended_tag_sized(
        key: &Key,
        nonce: &[u8; 12],
        aad: *const u8,
        aad_len: usize,
        ciphertext_and_tag: *const u8,
        ciphertext_and_tag_len: usize,
        out: *mut u8,
        out_len: usize,
    ) -> bool;

    fn key_begin(
        key: &Key,
        nonce: &[u8; 12],
        aad: *const u8,
        aad_len: usize,
        message: &mut Message,
    ) -> bool;

    fn key_update(
        key: &Key,
        message: &mut Message,
        in_out: *mut u8,
        in_out_len: usize,
    ) -> bool;

    fn key_finish(
        key: &Key,
        message: &mut Message,
        tag: &mut [u8; 16],
    ) -> bool;

    fn xaes_init(key: &mut Xaes, bytes: &[u8; 32]);

    fn xaes_seal(
        key: &Xaes,
        nonce: &[u8; 24],
        aad: *const u8,
        aad_len: usize,
        in_out: *mut u8,
        in_out_len: usize,
        tag: &mut [u8; 16],
    ) -> bool;

    fn xaes_open(
        key: &Xaes,
        nonce: &[u8; 24],
        aad: *const u8,
        aad_len: usize,
        in_out: *mut u8,
        in_out_len: usize,
        start: usize,
        plaintext_len: &mut usize,
    ) -> bool;

    fn xaes_open_separate_tag(
        key: &Xaes,
        nonce: &[u8; 24],
        aad: *const u8,
        aad_len: usize,
        in_out: *mut u8,
        in_out_len: usize,
        start: usize,
        tag: &[u8; 16],
    ) -> bool;

    fn xaes_seal_to_sized(
        key: &Xaes,
        nonce: &[u8; 24],
        aad: *const u8,
        aad_len: usize,
        message: *const u8,
        message_len: usize,
        out: *mut u8,
        out_len: usize,
        tag: &mut [u8; 16],
    ) -> bool;

    fn xaes_open_to_sized(
        key: &Xaes,
        nonce: &[u8; 24],
        aad: *const u8,
        aad_len: usize,
        ciphertext: *const u8,
        ciphertext_len: usize,
        out: *mut u8,
        out_len: usize,
        tag: &[u8; 16],
    ) -> bool;

    fn xaes_seal_append_tag_sized(
        key: &Xaes,
        nonce: &[u8; 24],
        aad: *const u8,
        aad_len: usize,
        message: *const u8,
        message_len: usize,
        out: *mut u8,
        out_len: usize,
    ) -> bool;

    fn xaes_open_appended_tag_sized(
        key: &Xaes,
        nonce: &[u8; 24],
        aad: *const u8,
        aad_len: usize,
        ciphertext_and_tag: *const u8,
        ciphertext_and_tag_len: usize,
        out: *mut u8,
        out_len: usize,
    ) -> bool;

    fn sealer_init(
        sealer: *mut Sealer,
        key: *const u8,
        key_len: usize,
        iv: &[u8; 12],
        first: u64,
        limit: u64,
    ) -> bool;

    fn sealer_seal(
        sealer: &mut Sealer,
        aad: *const u8,
        aad_len: usize,
        in_out: *mut u8,
        in_out_len: usize,
        tag: &mut [u8; 16],
    ) -> bool;

    fn opener_init(
        opener: *mut Opener,
        key: *const u8,
        key_len: usize,
        iv: &[u8; 12],
        first: u64,
        limit: u64,
    ) -> bool;

    fn opener_open(
        opener: &mut Opener,
        aad: *const u8,
        aad_len: usize,
        in_out: *mut u8,
        in_out_len: usize,
        start: usize,
        plaintext_len: &mut usize,
    ) -> bool;

    fn opener_open_number(
        opener: &Opener,
        number: u64,
        aad: *const u8,
        aad_len: usize,
        in_out: *mut u8,
        in_out_len: usize,
        start: usize,
        plaintext_len: &mut usize,
    ) -> bool;

    fn hmac(
        key: *const u8,
        key_len: usize,
        message: *const u8,
        message_len: usize,
        code: *mut u8,
        code_len: usize,
    ) -> bool;

    fn hkdf_extract(
        salt: *const u8,
        salt_len: usize,
        ikm: *const u8,
        ikm_len: usize,
        prk: *mut u8,
        prk_len: usize,
    ) -> bool;

    fn hkdf_expand(
        prk: *const u8,
        prk_len: usize,
        info: *const u8,
        info_len: usize,
        out: *mut u8,
        out_len: usize,
    ) -> bool;

    fn hkdf_expand_label(
        secret: *const u8,
        secret_len: usize,
        label: *const u8,
        label_len: usize,
        context: *const u8,
        context_len: usize,
        out: *mut u8,
        out_len: usize,
    ) -> bool;

    fn quic_key_init(
        key: *mut QuicKey,
        bytes: *const u8,
        len: usize,
        iv: &[u8; 12],
    ) -> bool;

    fn quic_key_from_secret(
        key: *mut QuicKey,
        version: u32,
        secret: *const u8,
        secret_len: usize,
    ) -> bool;

    fn quic_initial_secrets(
        version: u32,
        id: *const u8,
        id_len: usize,
        client: &mut [u8; 32],
        server: &mut [u8; 32],
    ) -> bool;

    fn quic_next_secret(version: u32, secret: *mut u8, secret_len: usize) -> bool;

    fn quic_key_seal(
        key: &QuicKey,
        number: u64,
        header: *const u8,
        header_len: usize,
        payload: *mut u8,
        payload_len: usize,
        tag: &mut [u8; 16],
    ) -> bool;

    fn quic_key_open(
        key: &QuicKey,
        number: u64,
        header: *const u8,
        header_len: usize,
        payload: *mut u8,
        payload_len: usize,
        plaintext_len: &mut usize,
    ) -> bool;

    fn quic_header_key_from_secret(
        key: *mut QuicHeaderKey,
        version: u32,
        secret: *const u8,
        secret_len: usize,
    ) -> bool;

    fn record_key_init(
        key: *mut RecordKey,
        bytes: *const u8,
        len: usize,
        iv: &[u8; 12],
    ) -> bool;

    fn record_key_from_secret(
        key: *mut RecordKey,
        secret: *const u8,
        secret_len: usize,
    ) -> bool;

    fn tls_next_secret(secret: *mut u8, secret_len: usize) -> bool;

    fn record_key_seal(
        key: &RecordKey,
        number: u64,
        content_type: u8,
        payload: *mut u8,
        payload_len: usize,
        content_len: usize,
    ) -> bool;

    fn record_key_open(
        key: &RecordKey,
        number: u64,
        payload: *mut u8,
        payload_len: usize,
        content_type: &mut u8,
        content_len: &mut usize,
    ) -> bool;
}

// The others, which do as much at either level: by what the program is compiled for.
functions! {
    if crate::cpu::V3;

    fn version() -> u32;

    fn key_wipe(key: &mut Key);

    fn xaes_wipe(key: &mut Xaes);

    fn sealer_next(sealer: &Sealer) -> u64;

    fn sealer_wipe(sealer: &mut Sealer);

    fn opener_next(opener: &Opener) -> u64;

    fn opener_wipe(opener: &mut Opener);

    fn quic_key_wipe(key: &mut QuicKey);

    fn quic_header_key_init(key: *mut QuicHeaderKey, bytes: *const u8, len: usize) -> bool;

    fn quic_header_key_mask(
        key: &QuicHeaderKey,
        sample: &[u8; 16],
        mask: &mut [u8; 5],
    ) -> bool;

    fn quic_header_key_wipe(key: &mut QuicHeaderKey);

    fn record_key_wipe(key: &mut RecordKey);

    fn nonce(iv: &[u8; 12], number: u64, nonce: &mut [u8; 12]);

    fn mask_aes(
        key: *const u8,
        key_len: usize,
        sample: &[u8; 16],
        mask: &mut [u8; 5],
    ) -> bool;

    fn mask_chacha20(key: &[u8; 32], sample: &[u8; 16], mask: &mut [u8; 5]);

    fn chacha20(
        key: &[u8; 32],
        nonce: &[u8; 12],
        counter: u32,
        in_out: *mut u8,
        in_out_len: usize,
    ) -> bool;
}
