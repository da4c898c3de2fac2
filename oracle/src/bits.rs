//! The packing layer: "Fields are packed most significant bit first." It
//! knows nothing of sets.

/// The field of `width` bits (1 to 32) that begins at bit `start`.
pub fn field(bytes: &[u8], start: usize, width: usize) -> u32 {
    let (first, last) = (start / 8, (start + width - 1) / 8);
    let mut word: u64 = 0;
    for byte in &bytes[first..=last] {
        word = word << 8 | u64::from(*byte);
    }
    let bits_after = (last + 1) * 8 - (start + width);
    ((word >> bits_after) & ((1 << width) - 1)) as u32
}

/// Puts `value` in the field of `width` bits (1 to 32) that begins at bit
/// `start`; the bits beside it stay.
pub fn put_field(bytes: &mut [u8], start: usize, width: usize, value: u32) {
    assert!(u64::from(value) < 1 << width, "value {value} does not fit in {width} bits");
    let (first, last) = (start / 8, (start + width - 1) / 8);
    let bits_after = (last + 1) * 8 - (start + width);
    let mut mask: u64 = ((1 << width) - 1) << bits_after;
    let mut word: u64 = u64::from(value) << bits_after;
    for byte in bytes[first..=last].iter_mut().rev() {
        *byte = (*byte & !(mask as u8)) | word as u8;
        mask >>= 8;
        word >>= 8;
    }
}

/// Reads fields one after another.
pub struct Reader<'a> {
    bytes: &'a [u8],
    at: usize,
}

impl<'a> Reader<'a> {
    pub fn new(bytes: &'a [u8]) -> Reader<'a> {
        Reader { bytes, at: 0 }
    }

    pub fn take(&mut self, width: usize) -> u32 {
        let value = field(self.bytes, self.at, width);
        self.at += width;
        value
    }
}

/// Writes fields one after another.
pub struct Writer<'a> {
    bytes: &'a mut [u8],
    at: usize,
}

impl<'a> Writer<'a> {
    pub fn new(bytes: &'a mut [u8]) -> Writer<'a> {
        Writer { bytes, at: 0 }
    }

    pub fn put(&mut self, width: usize, value: usize) {
        put_field(self.bytes, self.at, width, value as u32);
        self.at += width;
    }
}

#[cfg(test)]
mod tests {
    use super::*;

    #[test]
    fn fields_come_most_significant_bit_first() {
        let bytes = [0b1010_0000, 0b0000_0011, 0xFF];
        assert_eq!(field(&bytes, 0, 1), 1);
        assert_eq!(field(&bytes, 0, 3), 0b101);
        assert_eq!(field(&bytes, 14, 4), 0b1111);
        assert_eq!(field(&bytes, 0, 24), 0xA003FF);
    }

    #[test]
    fn a_field_put_is_the_field_read_and_no_other_bit_changes() {
        for width in 1..=20 {
            for start in 0..=(40 - width) {
                for value in [0, 1, (1 << width) - 1, (1 << width) / 3] {
                    for fill in [0x00u8, 0xFF, 0x5A] {
                        let mut bytes = [fill; 5];
                        put_field(&mut bytes, start, width, value);
                        assert_eq!(field(&bytes, start, width), value);
                        for bit in (0..start).chain(start + width..40) {
                            assert_eq!(field(&bytes, bit, 1), field(&[fill; 5], bit, 1));
                        }
                    }
                }
            }
        }
    }
}
