//! Code values as text.

use std::fmt::{self, Write};

/// Writes the characters that the values are.
pub(crate) fn write_values(
    values: impl IntoIterator<Item = u16>,
    f: &mut fmt::Formatter<'_>,
) -> fmt::Result {
    for character in char::decode_utf16(values) {
        f.write_char(character.unwrap_or(char::REPLACEMENT_CHARACTER))?;
    }
    Ok(())
}
