//! CRC-64/XZ: tells damage by accident. Whoever may write the files can write a right one.

const POLYNOMIAL: u64 = 0xc96c_5795_d787_0f42; // ECMA-182, reflected
const TABLE: [u64; 256] = table();

const fn table() -> [u64; 256] {
    let mut table = [0; 256];
    let mut byte = 0;
    while byte < 256 {
        let mut crc = byte as u64;
        let mut bit = 0;
        while bit < 8 {
            crc = if crc & 1 == 1 { (crc >> 1) ^ POLYNOMIAL } else { crc >> 1 };
            bit += 1;
        }
        table[byte] = crc;
        byte += 1;
    }
    table
}

pub fn checksum(bytes: &[u8]) -> u64 {
    !bytes.iter().fold(!0, |crc: u64, &byte| TABLE[usize::from(crc as u8 ^ byte)] ^ (crc >> 8))
}

#[cfg(test)]
mod tests {
    /// The check value of the catalogue of CRC algorithms, and one computed by xz's own definition over no bytes.
    #[test]
    fn the_published_check_value() {
        assert_eq!(super::checksum(b"123456789"), 0x995d_c9bb_df19_39fa);
        assert_eq!(super::checksum(b""), 0);
    }
}
