//! QUIC's keys of a provider: the packets of RFC 9001 and RFC 9369, ring's provider beside it, and what is refused.

use rustls::crypto::ring::default_provider;
use rustls::crypto::CryptoProvider;
use rustls::quic::{Algorithm, Keys, PacketKey, Version};
use rustls::{CipherSuite, Error, Side, SupportedCipherSuite};

fn hex(digits: &str) -> Vec<u8> {
    (0..digits.len())
        .step_by(2)
        .map(|i| u8::from_str_radix(&digits[i..i + 2], 16).expect("two hexadecimal digits"))
        .collect()
}

fn suite(provider: CryptoProvider, wanted: CipherSuite) -> SupportedCipherSuite {
    let mut suites = provider.cipher_suites.into_iter();
    suites
        .find(|it| it.suite() == wanted)
        .expect("the provider has the suite")
}

/// The keys of the connection in RFC 9001 appendix A.1 or RFC 9369 appendix A.1.
fn initial_keys(provider: CryptoProvider, side: Side, version: Version) -> Keys {
    let suite = suite(provider, CipherSuite::TLS13_AES_128_GCM_SHA256);
    let keys = suite.tls13().and_then(|it| it.quic_suite());
    let keys = keys.expect("the suite has keys for QUIC");
    keys.keys(&hex("8394c8f03e515708"), side, version)
}

fn ours(side: Side, version: Version) -> Keys {
    let provider = deerlapse_rustls::with_deerlapse(default_provider());
    initial_keys(provider, side, version)
}

/// The server's packet of an appendix, whose number is 1, and its header before the mask.
struct Packet {
    version: Version,
    header: &'static str,
    packet: &'static str,
}

// RFC 9001 appendix A.3 and RFC 9369 appendix A.3.
const PAYLOAD: &str =
    "02000000000600405a020000560303eefce7f7b37ba1d1632e96677825ddf73988cfc79825df566dc5430b9a045a1200\
    130100002e00330024001d00209d3c940d89690b84d08a60993c144eca684d1081287c834d5311bcf32bb9da1a002b00\
    020304";
const PACKETS: [Packet; 2] = [
    Packet {
        version: Version::V1,
        header: "c1000000010008f067a5502a4262b50040750001",
        packet:
            "cf000000010008f067a5502a4262b5004075c0d95a482cd0991cd25b0aac406a5816b6394100f37a1c697975\
            54780bb38cc5a99f5ede4cf73c3ec2493a1839b3dbcba3f6ea46c5b7684df3548e7ddeb9c3bf9c73cc3f3bde\
            d74b562bfb19fb84022f8ef4cdd93795d77d06edbb7aaf2f58891850abbdca3d20398c276456cbc42158407d\
            d074ee",
    },
    Packet {
        version: Version::V2,
        header: "d16b3343cf0008f067a5502a4262b50040750001",
        packet:
            "dc6b3343cf0008f067a5502a4262b5004075d92faaf16f05d8a4398c47089698baeea26b91eb761d9b89237b\
            bf87263017915358230035f7fd3945d88965cf17f9af6e16886c61bfc703106fbaf3cb4cfa52382dd16a393e\
            42757507698075b2c984c707f0a0812d8cd5a6881eaf21ceda98f4bd23f6fe1a3e2c43edd9ce7ca84bed8521\
            e2e140",
    },
];

/// The lengths of the header and of the packet number at its end.
const HEADER_LEN: usize = 20;
const NUMBER_LEN: usize = 2;

#[test]
fn seals_the_packets_of_the_standards() -> Result<(), Error> {
    for wanted in PACKETS {
        let keys = ours(Side::Server, wanted.version).local;
        let (mut header, mut payload) = (hex(wanted.header), hex(PAYLOAD));
        let tag = keys.packet.encrypt_in_place(1, &header, &mut payload)?;
        payload.extend_from_slice(tag.as_ref());
        let sample = &payload[4 - NUMBER_LEN..][..keys.header.sample_len()];
        let (first, number) = header.split_at_mut(HEADER_LEN - NUMBER_LEN);
        keys.header
            .encrypt_in_place(sample, &mut first[0], number)?;
        assert_eq!([header, payload].concat(), hex(wanted.packet));
    }
    Ok(())
}

#[test]
fn opens_the_packets_of_the_standards() -> Result<(), Error> {
    for sealed in PACKETS {
        let keys = ours(Side::Client, sealed.version).remote;
        let mut packet = hex(sealed.packet);
        let (header, payload) = packet.split_at_mut(HEADER_LEN);
        let sample = &payload[4 - NUMBER_LEN..][..keys.header.sample_len()];
        // The bytes after the number may be in the slice: only as many as the first byte says are changed.
        let (first, number) = header.split_at_mut(HEADER_LEN - NUMBER_LEN);
        keys.header
            .decrypt_in_place(sample, &mut first[0], number)?;
        assert_eq!(header, hex(sealed.header));
        let opened = keys.packet.decrypt_in_place(1, header, payload)?;
        assert_eq!(opened, hex(PAYLOAD));
    }
    Ok(())
}

#[test]
fn a_number_of_one_byte_leaves_the_others() -> Result<(), Error> {
    let header = ours(Side::Client, Version::V1).local.header;
    // Short headers (RFC 9000 section 17.3.1): the length of the number is in the last two bits, before the masking.
    for (sample, length) in (0..16).flat_map(|it| [(it, 1), (it, 2), (it, 3), (it, 4)]) {
        let first = 0x40 | (length - 1);
        let (mut byte, mut number) = (first, [0; 4]);
        header.encrypt_in_place(&[sample; 16], &mut byte, &mut number)?;
        assert_eq!(byte & 0xe0, 0x40, "the first three bits aren't protected");
        let (changed, others) = number.split_at(length.into());
        assert!(others.iter().all(|&it| it == 0));
        assert!(changed.iter().any(|&it| it != 0));
        header.decrypt_in_place(&[sample; 16], &mut byte, &mut number)?;
        assert_eq!((byte, number), (first, [0; 4]));
    }
    Ok(())
}

#[test]
fn a_refusal_changes_nothing() {
    let keys = ours(Side::Client, Version::V1).remote;
    let header = hex(PACKETS[0].header);
    let sealed = hex(PACKETS[0].packet)[HEADER_LEN..].to_vec();
    for at in [0, sealed.len() - 17, sealed.len() - 1] {
        let mut payload = sealed.clone();
        payload[at] ^= 1;
        let before = payload.clone();
        let opened = keys.packet.decrypt_in_place(1, &header, &mut payload);
        assert_eq!(opened, Err(Error::DecryptError));
        assert_eq!(payload, before);
    }
    assert_eq!(
        keys.packet.decrypt_in_place(1, b"", &mut [0; 15]),
        Err(Error::DecryptError)
    );
    for (sample, number) in [(&[0; 15][..], 4), (&[0; 17], 4), (&[0; 16], 5)] {
        let (mut first, mut bytes) = (0xc3, vec![0; number]);
        let header = &keys.header;
        assert!(header
            .encrypt_in_place(sample, &mut first, &mut bytes)
            .is_err());
        assert!(header
            .decrypt_in_place(sample, &mut first, &mut bytes)
            .is_err());
        assert_eq!((first, bytes), (0xc3, vec![0; number]));
    }
}

/// The keys for QUIC of AES-256-GCM.
fn aes_256(provider: CryptoProvider) -> &'static dyn Algorithm {
    let suite = suite(provider, CipherSuite::TLS13_AES_256_GCM_SHA384);
    let keys = suite.tls13().and_then(|it| it.quic);
    keys.expect("the suite has keys for QUIC")
}

fn limits(key: &dyn PacketKey) -> (usize, u64, u64) {
    let limits = (key.confidentiality_limit(), key.integrity_limit());
    (key.tag_len(), limits.0, limits.1)
}

#[test]
fn ring_seals_the_same_packets() -> Result<(), Error> {
    let (theirs, ours) = (
        aes_256(default_provider()),
        aes_256(deerlapse_rustls::with_deerlapse(default_provider())),
    );
    assert_eq!(ours.aead_key_len(), 32);
    let keys = [theirs, ours].map(|it| it.packet_key([7; 32].into(), [9; 12].into()));
    let headers = [theirs, ours].map(|it| it.header_protection_key([8; 32].into()));
    assert_eq!(limits(&*keys[1]), limits(&*keys[0]));
    for len in (0..64).chain([1200, 1350]) {
        let plaintext: Vec<u8> = (0..=u8::MAX).cycle().take(len).collect();
        let mut sealed = [plaintext.clone(), plaintext.clone()];
        let mut tags = Vec::new();
        for (key, payload) in keys.iter().zip(&mut sealed) {
            tags.push(key.encrypt_in_place(1 << 40, b"header", payload)?);
        }
        assert_eq!(sealed[1], sealed[0]);
        assert_eq!(tags[1].as_ref(), tags[0].as_ref());
        let mut masked = [(0xc3, [0; 4]); 2];
        for (header, (first, number)) in headers.iter().zip(&mut masked) {
            header.encrypt_in_place(tags[0].as_ref(), first, number)?;
        }
        assert_eq!(masked[1], masked[0]);
        let mut payload = [sealed[0].as_slice(), tags[0].as_ref()].concat();
        let opened = keys[1].decrypt_in_place(1 << 40, b"header", &mut payload)?;
        assert_eq!(opened, plaintext);
    }
    Ok(())
}
