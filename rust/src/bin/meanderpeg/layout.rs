//! Fields at their offsets, for showing. Numbers are little-endian; a byte past the end counts as 0, so nothing here
//! panics.

use meanderpeg::Guid;

pub fn number_at(bytes: &[u8], at: usize, width: usize) -> usize {
    let field = bytes.iter().skip(at).take(width);
    field.rev().fold(0, |number, byte| number << 8 | usize::from(*byte))
}

pub fn guid_at(bytes: &[u8], at: usize) -> Guid {
    let mut guid = [0; 16];
    guid.iter_mut().zip(bytes.iter().skip(at)).for_each(|(to, from)| *to = *from);
    Guid::from_bytes(guid)
}
