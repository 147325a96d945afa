//! Bits in the order of a sheet: the most significant bit of each byte first.

use crate::refusal::Fault;

pub struct BitReader {
    bits: Vec<bool>,
    next: usize,
}

impl BitReader {
    pub fn new(sheet: &[u8]) -> BitReader {
        let mut bits = Vec::with_capacity(8 * sheet.len());
        for byte in sheet {
            for place in (0..8).rev() {
                bits.push((byte >> place) & 1 == 1);
            }
        }
        BitReader { bits, next: 0 }
    }

    fn left(&self) -> usize {
        self.bits.len() - self.next
    }

    /// Enough bits are left for the fields of the next group.
    pub fn need(&self, width: usize) -> Result<(), Fault> {
        if self.left() < width {
            return Err(Fault::BitsRunOut);
        }
        Ok(())
    }

    /// The next field. The caller has seen that enough bits are left.
    pub fn take(&mut self, width: usize) -> u16 {
        let mut value = 0;
        for &bit in &self.bits[self.next..self.next + width] {
            value = 2 * value + u16::from(bit);
        }
        self.next += width;
        value
    }

    /// Nothing follows but the zero bits that fill the last byte.
    pub fn only_fill_left(&self) -> bool {
        self.left() < 8 && !self.bits[self.next..].contains(&true)
    }
}

pub struct BitWriter {
    bits: Vec<bool>,
}

impl BitWriter {
    pub fn new() -> BitWriter {
        BitWriter { bits: Vec::new() }
    }

    /// How many bits have been put.
    pub fn length(&self) -> usize {
        self.bits.len()
    }

    pub fn put(&mut self, value: u16, width: usize) {
        assert!(
            u32::from(value) < 1 << width,
            "{value} is wider than {width} bits"
        );
        for place in (0..width).rev() {
            self.bits.push((value >> place) & 1 == 1);
        }
    }

    /// The bytes, the last one filled with zero bits.
    pub fn into_bytes(self) -> Vec<u8> {
        let mut bytes = vec![0; self.bits.len().div_ceil(8)];
        for (position, bit) in self.bits.into_iter().enumerate() {
            if bit {
                bytes[position / 8] |= 0x80 >> (position % 8);
            }
        }
        bytes
    }
}

#[cfg(test)]
mod tests {
    use super::*;

    #[test]
    fn fields_are_read_across_byte_borders() {
        // 101 | 0010 1 | 100 0001 1110 00 | 11
        let mut bits = BitReader::new(&[0b1010_0101, 0b1000_0011, 0b1100_0011]);
        assert_eq!(bits.take(3), 0b101);
        assert_eq!(bits.take(5), 0b00101);
        assert_eq!(bits.take(14), 0b10000011110000);
        assert_eq!(bits.need(2), Ok(()));
        assert_eq!(bits.need(3), Err(Fault::BitsRunOut));
        assert_eq!(bits.take(2), 0b11);
        assert_eq!(bits.need(1), Err(Fault::BitsRunOut));
    }

    #[test]
    fn a_field_of_sixteen_bits_holds_its_largest_value() {
        let mut bits = BitReader::new(&[0x7f, 0xff, 0x80]);
        assert_eq!(bits.take(1), 0);
        assert_eq!(bits.take(16), 65_535);
    }

    #[test]
    fn fields_are_written_across_byte_borders() {
        let mut bits = BitWriter::new();
        bits.put(0b101, 3);
        bits.put(0b00101, 5);
        bits.put(0b10000011110001, 14);
        assert_eq!(bits.into_bytes(), [0b1010_0101, 0b1000_0011, 0b1100_0100]);
    }

    #[test]
    fn fill_is_under_eight_zero_bits() {
        let mut bits = BitReader::new(&[0b1110_0000, 0]);
        bits.take(3);
        assert!(!bits.only_fill_left(), "a whole byte follows the fill");
        bits.take(5);
        assert!(!bits.only_fill_left(), "eight bits are a byte, not fill");
        bits.take(1);
        assert!(bits.only_fill_left());
        bits.take(7);
        assert!(bits.only_fill_left());
    }

    #[test]
    fn a_set_bit_is_no_fill() {
        let mut bits = BitReader::new(&[0b1110_0001]);
        bits.take(3);
        assert!(!bits.only_fill_left());
    }

    #[test]
    #[should_panic(expected = "wider")]
    fn a_value_wider_than_its_field_is_not_packed() {
        BitWriter::new().put(8, 3);
    }
}
