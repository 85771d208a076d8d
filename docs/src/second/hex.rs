//! Bytes as text and back, and as numbers.

/// The bytes in lower-case hexadecimal, with nothing between them.
pub fn hex(bytes: &[u8]) -> String {
    bytes.iter().map(|b| format!("{b:02x}")).collect()
}

/// The bytes of hexadecimal text. Blanks between digits are skipped, so that a vector can be laid out as its paper
/// has it.
pub fn bytes(text: &str) -> Vec<u8> {
    let digits: Vec<u32> = text
        .chars()
        .filter(|c| !c.is_whitespace())
        .map(|c| c.to_digit(16).unwrap_or_else(|| panic!("no hexadecimal digit: {c:?}")))
        .collect();
    assert!(digits.len() % 2 == 0, "an odd number of digits: {text}");
    digits.chunks(2).map(|pair| (pair[0] * 16 + pair[1]) as u8).collect()
}

/// The 16 bytes of a key, an IV or a block.
pub fn block(text: &str) -> [u8; 16] {
    bytes(text)
        .try_into()
        .unwrap_or_else(|_| panic!("not 16 bytes: {text}"))
}

/// Up to 16 bytes as a number, most significant first.
pub fn number(bytes: &[u8]) -> u128 {
    bytes.iter().fold(0, |sum, &byte| sum << 8 | u128::from(byte))
}
