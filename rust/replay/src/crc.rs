//! CRC-32 as IEEE 802.3 and zlib have it: the digest of a whole buffer or of a state's listing in
//! the output lines. Eight bytes are folded at a time because every line digests six buffers.

const POLYNOMIAL: u32 = 0xedb8_8320;
static TABLES: [[u32; 256]; 8] = tables();

const fn tables() -> [[u32; 256]; 8] {
    let mut tables = [[0u32; 256]; 8];
    let mut byte = 0;
    while byte < 256 {
        let mut rest = byte as u32;
        let mut bit = 0;
        while bit < 8 {
            rest = if rest & 1 == 1 { (rest >> 1) ^ POLYNOMIAL } else { rest >> 1 };
            bit += 1;
        }
        tables[0][byte] = rest;
        byte += 1;
    }
    let mut table = 1;
    while table < 8 {
        let mut byte = 0;
        while byte < 256 {
            let shorter = tables[table - 1][byte];
            tables[table][byte] = (shorter >> 8) ^ tables[0][(shorter & 255) as usize];
            byte += 1;
        }
        table += 1;
    }
    tables
}

/// The CRC-32 of `bytes`; 0 for none.
pub fn crc32(bytes: &[u8]) -> u32 {
    let mut rest = u32::MAX;
    let mut bytes = bytes;
    while let [a, b, c, d, e, f, g, h, after @ ..] = bytes {
        let low = rest ^ u32::from_le_bytes([*a, *b, *c, *d]);
        rest = TABLES[7][(low & 255) as usize]
            ^ TABLES[6][(low >> 8 & 255) as usize]
            ^ TABLES[5][(low >> 16 & 255) as usize]
            ^ TABLES[4][(low >> 24) as usize]
            ^ TABLES[3][*e as usize]
            ^ TABLES[2][*f as usize]
            ^ TABLES[1][*g as usize]
            ^ TABLES[0][*h as usize];
        bytes = after;
    }
    for byte in bytes {
        rest = (rest >> 8) ^ TABLES[0][((rest ^ u32::from(*byte)) & 255) as usize];
    }
    !rest
}

#[cfg(test)]
mod tests {
    use super::crc32;

    #[test]
    fn published_values() {
        assert_eq!(crc32(b""), 0);
        assert_eq!(crc32(b"123456789"), 0xcbf4_3926);
        assert_eq!(crc32(b"The quick brown fox jumps over the lazy dog"), 0x414f_a339);
    }
}
