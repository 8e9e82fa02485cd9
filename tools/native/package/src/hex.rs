// The part of the crate `hex` that the sources use, so that no such crate is needed. It is not proved.

#[derive(Clone, Copy, Debug, PartialEq, Eq)]
pub enum FromHexError {
    InvalidHexCharacter { c: char, index: usize },
    OddLength,
    InvalidStringLength,
    OutOfMemory,
}

/// Decodes the digits of a text of twice the length of `out`.
pub fn decode_to_slice(text: &[u8], out: &mut [u8]) -> Result<(), FromHexError> {
    if !text.len().is_multiple_of(2) {
        return Err(FromHexError::OddLength);
    }
    if text.len() / 2 != out.len() {
        return Err(FromHexError::InvalidStringLength);
    }
    for (at, byte) in out.iter_mut().enumerate() {
        *byte = value(text, 2 * at)? << 4 | value(text, 2 * at + 1)?;
    }
    Ok(())
}

fn value(text: &[u8], index: usize) -> Result<u8, FromHexError> {
    let c = char::from(text[index]);
    c.to_digit(16).map(|digit| digit as u8).ok_or(FromHexError::InvalidHexCharacter { c, index })
}
