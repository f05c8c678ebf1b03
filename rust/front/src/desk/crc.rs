//! The sum by which damage to a ledger is noticed: CRC-32, that of Ethernet and of ZIP files.

/// The polynomial, its lowest power in the highest bit.
const POLYNOMIAL: u32 = 0xEDB8_8320;

/// The CRC-32 of these bytes.
pub fn crc32(bytes: &[u8]) -> u32 {
    !bytes.iter().fold(!0, |crc, &byte| (0..8).fold(crc ^ u32::from(byte), |crc, _| step(crc)))
}

/// Takes one bit.
fn step(crc: u32) -> u32 {
    match crc & 1 {
        0 => crc >> 1,
        _ => (crc >> 1) ^ POLYNOMIAL,
    }
}

#[cfg(test)]
mod tests {
    use super::crc32;

    // The check value that is published for it, and those of the shortest inputs.
    #[test]
    fn known_sums() {
        assert_eq!(crc32(b"123456789"), 0xCBF4_3926);
        assert_eq!((crc32(b""), crc32(b"a")), (0, 0xE8B7_BE43));
    }
}
