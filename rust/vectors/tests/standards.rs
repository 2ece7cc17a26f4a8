//! Vectors of NIST (CAVP) and of Project Wycheproof, by the keys over vectors and by those over words. The lines and what must be
//! answered are those of `crates/test_vectors`, whose README names their sources.

use deerlapse::aead::{
    AES_128_GCM, AES_256_GCM, Aad, Nonce, Tag, UnboundKey, Unspecified, generic,
};
use deerlapse::chacha;
use vectors::{hex, levels};

/// Returns the lines of the vectors, each with the answer that it must get.
fn lines() -> Vec<(String, String)> {
    let folder = concat!(env!("CARGO_MANIFEST_DIR"), "/../../crates/test_vectors");
    let read = |name: &str| {
        std::fs::read_to_string(format!("{folder}/{name}")).expect("the lines of the vectors")
    };
    let (lines, answers) = (read("stdin"), read("stdout"));
    assert_eq!(lines.lines().count(), answers.lines().count());
    lines
        .lines()
        .map(String::from)
        .zip(answers.lines().map(String::from))
        .collect()
}

fn key_of<K: aead_ciphers::aes_gcm::GcmKey>(
    key: &[u8],
) -> Result<generic::LessSafeKey<K>, Unspecified> {
    let algorithm = if key.len() == 16 {
        &AES_128_GCM
    } else {
        &AES_256_GCM
    };
    Ok(generic::LessSafeKey::new(UnboundKey::new(algorithm, key)?))
}

fn sealed<K: aead_ciphers::aes_gcm::GcmKey>(words: &[Vec<u8>]) -> Result<String, Unspecified> {
    let [key, nonce, aad, message] = words else {
        panic!("a line with {} words", words.len())
    };
    let nonce = Nonce::try_assume_unique_for_key(nonce)?;
    let mut buffer = message.clone();
    let tag = key_of::<K>(key)?.seal_in_place_separate_tag(
        nonce,
        Aad::from(aad.as_slice()),
        &mut buffer,
    )?;
    Ok(format!(
        "{} {}",
        hex::text(&buffer),
        hex::text(tag.as_ref())
    ))
}

fn opened<K: aead_ciphers::aes_gcm::GcmKey>(words: &[Vec<u8>]) -> Result<String, Unspecified> {
    let [key, nonce, aad, ciphertext, tag] = words else {
        panic!("a line with {} words", words.len())
    };
    let nonce = Nonce::try_assume_unique_for_key(nonce)?;
    let (key, tag) = (key_of::<K>(key)?, Tag::try_from(tag.as_slice())?);
    let mut buffer = ciphertext.clone();
    let answer = key
        .open_in_place_separate_tag(nonce, Aad::from(aad.as_slice()), tag, &mut buffer, 0..)
        .map(|it| hex::text(it));
    Ok(answer.unwrap_or_else(|_| format!("FAIL {}", hex::text(&buffer))))
}

fn answer<K: aead_ciphers::aes_gcm::GcmKey>(line: &str) -> Option<String> {
    let mut words = line.split(' ');
    let call = words.next()?;
    let words: Vec<_> = words.map(hex::bytes).collect();
    let answer = match call {
        "seal" => sealed::<K>(&words),
        "open" => opened::<K>(&words),
        _ => return None,
    };
    Some(answer.unwrap_or_else(|_| "refused".into()))
}

fn each_line_of_aes_gcm<K: aead_ciphers::aes_gcm::GcmKey>() {
    let mut count = 0;
    for (line, wanted) in lines() {
        if let Some(answer) = answer::<K>(&line) {
            assert_eq!(answer, wanted, "{line}");
            count += 1;
        }
    }
    assert!(count > 1500, "only {count} lines of AES-GCM");
}

#[test]
fn aes_gcm_by_vectors() {
    levels::enter();
    each_line_of_aes_gcm::<deerlapse::aes_gcm::ExpandedKey>();
}

#[test]
fn aes_gcm_by_words() {
    levels::enter();
    each_line_of_aes_gcm::<aead_ciphers::aes_gcm::ExpandedKey>();
}

#[test]
fn chacha20() {
    let mut count = 0;
    for (line, wanted) in lines()
        .into_iter()
        .filter(|(line, _)| line.starts_with("chacha20 "))
    {
        let words: Vec<_> = line.split(' ').skip(1).map(hex::bytes).collect();
        let (Ok(key), Ok(nonce)) = (
            words[0].as_slice().try_into(),
            Nonce::try_assume_unique_for_key(&words[1]),
        ) else {
            assert_eq!(wanted, "refused", "{line}");
            continue;
        };
        let mut buffer = words[2].clone();
        let counter = chacha::Counter::from_nonce_and_ctr(nonce, 1);
        chacha::Key::new(key).encrypt(counter, chacha::Overlapping::from(buffer.as_mut_slice()));
        assert_eq!(hex::text(&buffer), wanted, "{line}");
        count += 1;
    }
    assert!(count > 200, "only {count} lines of ChaCha20");
}

#[test]
fn at_each_level() {
    levels::run_lower("at_each_level");
}
