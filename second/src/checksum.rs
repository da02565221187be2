//! 01, "Message layout": the checksum.

/// The one's complement sum of the 16-bit words, carries brought round. `bytes` has an even length.
pub fn words_sum(bytes: &[u8]) -> u16 {
    let mut total: u32 = bytes
        .chunks_exact(2)
        .map(|pair| u32::from(u16::from_be_bytes([pair[0], pair[1]])))
        .sum();
    while total > 0xffff {
        total = (total & 0xffff) + (total >> 16);
    }
    total as u16
}

/// Whether a message with a checksum in it has the right one.
pub(crate) fn is_right(message: &[u8]) -> bool {
    words_sum(message) == 0xffff
}

/// The checksum to send, for a message whose checksum field is zero. A computed zero becomes FFFF.
pub(crate) fn to_send(message: &[u8]) -> u16 {
    match !words_sum(message) {
        0 => 0xffff,
        checksum => checksum,
    }
}
