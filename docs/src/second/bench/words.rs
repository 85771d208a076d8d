//! What a command line of the bench is made of: words between blanks, and in them hexadecimal digits and numbers.

use crate::standard::aes::Block;

/// Why a line is answered with `error:`.
pub type Fault = &'static str;

/// The bytes of a line that is read, its comment among them, and of what one word of hexadecimal digits says.
pub const LONGEST_LINE: usize = 65_536;
pub const MOST_BYTES: usize = 4_096;
const MOST_ROOM: usize = 4_096;

/// The words before the comment.
pub fn words(line: &[u8]) -> Vec<&[u8]> {
    let end = line.iter().position(|&byte| byte == b'#').unwrap_or(line.len());
    line[..end]
        .split(|byte| b" \t\r".contains(byte))
        .filter(|word| !word.is_empty())
        .collect()
}

/// All words that are left, where there are as many as the command has.
pub fn exactly<'a, const N: usize>(words: &[&'a [u8]]) -> Result<[&'a [u8]; N], Fault> {
    as_many(words, N)?;
    Ok(std::array::from_fn(|i| words[i]))
}

pub fn as_many(words: &[&[u8]], count: usize) -> Result<(), Fault> {
    match words.len() {
        few if few < count => Err("word missing"),
        many if many > count => Err("word too many"),
        _ => Ok(()),
    }
}

/// The word that says which message or form, and those behind it.
pub fn first<'a, 'b>(words: &'b [&'a [u8]]) -> Result<(&'a [u8], &'b [&'a [u8]]), Fault> {
    words
        .split_first()
        .map(|(word, rest)| (*word, rest))
        .ok_or("word missing")
}

/// Bytes; a lone `-` is none.
pub fn bytes(word: &[u8]) -> Result<Vec<u8>, Fault> {
    if word == b"-" {
        return Ok(Vec::new());
    }
    let digits: Option<Vec<u8>> = word.iter().map(|&byte| digit(byte, 16)).collect();
    let digits = digits.ok_or("not hex")?;
    if digits.len() % 2 != 0 {
        return Err("odd number of hex digits");
    }
    if digits.len() / 2 > MOST_BYTES {
        return Err("over 4096 bytes");
    }
    Ok(digits.chunks(2).map(|two| 16 * two[0] + two[1]).collect())
}

/// A key, an IV or a block.
pub fn block(word: &[u8]) -> Result<Block, Fault> {
    bytes(word)?.try_into().map_err(|_| "not 16 bytes")
}

/// A decimal number, however many zeros are before it.
pub fn number(word: &[u8]) -> Result<usize, Fault> {
    let digits: Option<Vec<u8>> = word.iter().map(|&byte| digit(byte, 10)).collect();
    let past = usize::from(u16::MAX) + 1;
    let value = digits
        .ok_or("not a number")?
        .iter()
        .fold(0, |value, &digit| past.min(10 * value + usize::from(digit)));
    if value == past {
        return Err("number over 65535");
    }
    Ok(value)
}

pub fn room(word: &[u8]) -> Result<usize, Fault> {
    number(word).and_then(|room| {
        if room <= MOST_ROOM {
            Ok(room)
        } else {
            Err("room over 4096")
        }
    })
}

fn digit(byte: u8, radix: u32) -> Option<u8> {
    char::from(byte).to_digit(radix).map(|value| value as u8)
}

/// Bytes as the answers have them.
pub fn shown(bytes: &[u8]) -> String {
    match bytes {
        [] => "-".to_string(),
        _ => crate::hex::hex(bytes),
    }
}
