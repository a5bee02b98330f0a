//! The checksum of PNG files and index files.

/// CRC-32 as in ISO 3309 and PNG.
pub fn crc32(data: &[u8]) -> u32 {
    let mut sum = !0;
    for &byte in data {
        sum ^= u32::from(byte);
        for _ in 0..8 {
            sum = (sum >> 1) ^ (0xedb8_8320 * (sum & 1));
        }
    }
    !sum
}

#[cfg(test)]
mod tests {
    use super::*;

    #[test]
    fn sum() {
        // The check value that is given for this sum everywhere.
        assert_eq!(crc32(b"123456789"), 0xcbf4_3926);
    }
}
