//! The bytes that are due, in the words of document 02; the Rust has no such number.

/// "An incomplete telegram should carry the least number of further bytes after which it could be other than
/// incomplete: 4 for a lone 10, 3 for a lone 68, the rest of L + 6 once a sound header is there, 1 for nothing."
/// None where the bytes are no incomplete telegram.
pub fn due(bytes: &[u8]) -> Option<usize> {
    // How many bytes there have to be.
    let whole = match bytes {
        [] => 1,
        [0x10, ..] => 1 + 4,
        [0x68] | [0x68, _] | [0x68, _, _] => 1 + 3,
        [0x68, l, again, 0x68, ..] if l == again && *l >= 3 => *l as usize + 6,
        _ => return None,
    };
    whole.checked_sub(bytes.len()).filter(|due| *due > 0)
}
