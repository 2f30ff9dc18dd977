//! Lent buffers: a pattern before the call, looked through after it.

/// What a lent byte holds before the call: another value from byte to byte, so that no write of one value goes unseen.
fn untouched(i: usize) -> u8 {
    (i as u8).wrapping_mul(29) ^ 0xA5
}

pub fn fill(buffer: &mut Vec<u8>, room: usize) {
    buffer.clear();
    buffer.extend((0..room).map(untouched));
}

pub fn filled(room: usize) -> Vec<u8> {
    (0..room).map(untouched).collect()
}

/// Whether the bytes behind the first `written` are as they were.
pub fn left(buffer: &[u8], written: usize) -> bool {
    buffer.iter().enumerate().skip(written).all(|(i, b)| *b == untouched(i))
}
