//! Lines of UTF-8.

use crate::limits::LINE_LIMIT;
use crate::refusal::Refusal;
use crate::word::Word;

/// The values of a line. Refusal 1 comes first, whatever the bytes are, then 7:
/// "a line is cut from its start in threes; some three isn't E1, then 80 or 81,
/// then 80 to BF, or is short".
pub fn decode(line: &[u8]) -> Result<Word, Refusal> {
    if line.len() > LINE_LIMIT {
        return Err(Refusal::TOO_LONG);
    }
    let mut word = Word::empty();
    for (number, three) in line.chunks(3).enumerate() {
        let value = decode_three(three).ok_or(Refusal::faulty_three(3 * number))?;
        word.extend(&[value]).ok_or(Refusal::TOO_LONG)?;
    }
    Ok(word)
}

/// The value 1000 to 107F that three bytes stand for.
fn decode_three(three: &[u8]) -> Option<u16> {
    match *three {
        [0xE1, middle @ (0x80 | 0x81), last @ 0x80..=0xBF] => {
            Some(0x1000 + u16::from(middle - 0x80) * 0x40 + u16::from(last - 0x80))
        }
        _ => None,
    }
}
