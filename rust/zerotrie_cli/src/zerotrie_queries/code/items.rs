// Made from crates/zerotrie_queries/src/code/items.rt by rust/make: edit that.
//! Bytes as the items of a constant.

use crate::rstd::io;
use crate::rstd::io::Write;
use crate::zerotrie_files::Noted;
use crate::zerotrie_lines::hex_digit;

/// Returns the white space before an item: a new line before each sixteenth.
fn before_item(index: usize) -> &'static str {
    if index % 16 == 0 { "\n    " } else { " " }
}

/// Returns a byte in hexadecimal, and a comma.
fn item_number(byte: u8) -> [u8; 5] {
    [b'0', b'x', hex_digit(byte / 16), hex_digit(byte % 16), b',']
}

/// Writes bytes as items, sixteen a line. It does not allocate. If it fails, a beginning of them
/// was written.
pub fn write_items<W: Write>(bytes: &[u8], output: &mut Noted<W>) -> io::Result<()> {
    for (index, byte) in bytes.iter().enumerate() {
        output.write_bytes(before_item(index).as_bytes())?;
        output.write_bytes(&item_number(*byte))?;
    }
    Ok(())
}
