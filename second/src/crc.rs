//! CRC5 and CRC16, computed from their polynomials.

/// x^5 + x^2 + 1, lowest power in the highest bit, since bits come low first.
const POLYNOMIAL_5: u8 = 0b1_0100;
/// x^16 + x^15 + x^2 + 1, in the same form.
const POLYNOMIAL_16: u16 = 0xA001;

/// The check of a token's eleven bits, its first sent bit lowest.
pub fn crc5(eleven: u16) -> u8 {
    let mut register = 0x1F;
    for bit in 0..11 {
        let out = (register ^ (eleven >> bit) as u8) & 1;
        register >>= 1;
        if out == 1 {
            register ^= POLYNOMIAL_5;
        }
    }
    register ^ 0x1F
}

/// CRC16 bit by bit, straight from the definition.
pub fn crc16_bitwise(bytes: &[u8]) -> u16 {
    let register = bytes.iter().fold(0xFFFF, |register, &byte| {
        shift_byte(register ^ u16::from(byte))
    });
    !register
}

/// CRC16 eight bytes at a step.
pub fn crc16(bytes: &[u8]) -> u16 {
    let (chunks, rest) = bytes.as_chunks();
    let mut register = 0xFFFF;
    for &chunk in chunks {
        register = slice_eight(register, chunk);
    }
    for &byte in rest {
        register = (register >> 8) ^ TABLE[0][usize::from(register as u8 ^ byte)];
    }
    !register
}

#[inline(always)]
fn slice_eight(register: u16, [a, b, c, d, e, f, g, h]: [u8; 8]) -> u16 {
    let [low, high] = register.to_le_bytes();
    // The six bytes that do not wait for the register come first.
    let ahead = TABLE[5][usize::from(c)]
        ^ TABLE[4][usize::from(d)]
        ^ TABLE[3][usize::from(e)]
        ^ TABLE[2][usize::from(f)]
        ^ TABLE[1][usize::from(g)]
        ^ TABLE[0][usize::from(h)];
    ahead ^ TABLE[7][usize::from(a ^ low)] ^ TABLE[6][usize::from(b ^ high)]
}

const fn shift_byte(mut register: u16) -> u16 {
    let mut bit = 0;
    while bit < 8 {
        let out = register & 1;
        register >>= 1;
        if out == 1 {
            register ^= POLYNOMIAL_16;
        }
        bit += 1;
    }
    register
}

/// Row k is what a byte leaves after k further zero bytes.
static TABLE: [[u16; 256]; 8] = table();

const fn table() -> [[u16; 256]; 8] {
    let mut rows = [[0; 256]; 8];
    let mut byte = 0;
    while byte < 256 {
        rows[0][byte] = shift_byte(byte as u16);
        byte += 1;
    }
    let mut row = 1;
    while row < 8 {
        let mut byte = 0;
        while byte < 256 {
            let before = rows[row - 1][byte];
            rows[row][byte] = (before >> 8) ^ rows[0][(before & 0xFF) as usize];
            byte += 1;
        }
        row += 1;
    }
    rows
}

#[cfg(test)]
mod tests {
    use super::*;

    #[test]
    fn crc5_examples() {
        assert_eq!([crc5(0), crc5(1), crc5(129)], [0x02, 0x1D, 0x0B]);
    }

    #[test]
    fn crc16_examples() {
        for check in [crc16, crc16_bitwise] {
            assert_eq!(
                [check(&[]), check(&[0]), check(&[0xFF])],
                [0x0000, 0xBF40, 0xFF00]
            );
        }
    }

    #[test]
    fn both_crc16_agree() {
        let bytes: Vec<u8> = (0..1100u32).map(|i| (i * i + 7 * i) as u8).collect();
        for end in 0..bytes.len() {
            assert_eq!(
                crc16(&bytes[..end]),
                crc16_bitwise(&bytes[..end]),
                "{end} bytes"
            );
        }
    }
}
