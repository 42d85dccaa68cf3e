//! Numbers in bytes. All of them are unsigned and little-endian.

/// The number in the two bytes from `at` on.
pub fn u16_at(bytes: &[u8], at: usize) -> u16 {
    u16::from_le_bytes([bytes[at], bytes[at + 1]])
}

/// The number in the four bytes from `at` on.
pub fn u32_at(bytes: &[u8], at: usize) -> u32 {
    u32::from_le_bytes([bytes[at], bytes[at + 1], bytes[at + 2], bytes[at + 3]])
}

/// Two bytes more at the end.
pub fn push_u16(bytes: &mut Vec<u8>, value: u16) {
    bytes.extend_from_slice(&value.to_le_bytes());
}

/// Four bytes more at the end.
pub fn push_u32(bytes: &mut Vec<u8>, value: u32) {
    bytes.extend_from_slice(&value.to_le_bytes());
}

/// Four bytes at `at` written over.
pub fn put_u32(bytes: &mut [u8], at: usize, value: u32) {
    bytes[at..at + 4].copy_from_slice(&value.to_le_bytes());
}

/// The next multiple of four that is not below `size`. In 64 bits, so that
/// FFFFFFFFh does not become 0.
pub fn up_to_four(size: u64) -> u64 {
    (size + 3) / 4 * 4
}

#[cfg(test)]
mod tests {
    use super::*;

    #[test]
    fn little_endian() {
        let b = [1, 2, 3, 4, 5];
        assert_eq!(u16_at(&b, 1), 0x0302);
        assert_eq!(u32_at(&b, 1), 0x05040302);
    }

    #[test]
    fn rounding_does_not_wrap() {
        assert_eq!(up_to_four(0), 0);
        assert_eq!(up_to_four(1), 4);
        assert_eq!(up_to_four(4), 4);
        assert_eq!(up_to_four(0xffff_ffff), 0x1_0000_0000);
    }
}
