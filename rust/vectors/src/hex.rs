//! Bytes in hex, with `-` for none, as the lines of vectors have them.

/// Returns the bytes of a word.
///
/// # Panics
///
/// Panics if the word is neither `-` nor pairs of digits.
pub fn bytes(word: &str) -> Vec<u8> {
    if word == "-" {
        return Vec::new();
    }
    assert!(word.len() % 2 == 0, "{word} has a digit too many");
    let digits: Vec<u8> = word
        .chars()
        .map(|digit| digit.to_digit(16).expect("a digit in hex") as u8)
        .collect();
    digits
        .chunks(2)
        .map(|pair| 16 * pair[0] + pair[1])
        .collect()
}

/// Returns the word for some bytes.
pub fn text(bytes: &[u8]) -> String {
    if bytes.is_empty() {
        return "-".into();
    }
    bytes.iter().map(|byte| format!("{byte:02x}")).collect()
}
