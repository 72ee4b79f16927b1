//! Packed fields, most significant bit first, one after another.

/// Takes fields from octets at a running bit position, and counts the bits that it takes.
pub struct BitReader<'a> {
    octets: &'a [u8],
    position: usize,
    taken: usize,
}

impl<'a> BitReader<'a> {
    pub fn new(octets: &'a [u8]) -> Self {
        BitReader {
            octets,
            position: 0,
            taken: 0,
        }
    }

    /// How many bits were taken so far.
    pub fn taken(&self) -> usize {
        self.taken
    }

    /// The next field of `width` bits, at most 32. It must not pass the last octet.
    pub fn take(&mut self, width: usize) -> u32 {
        self.taken += width;
        let mut value = 0;
        let mut left = width;
        while left > 0 {
            // The bits of this octet that are not taken yet are its lowest `rest`.
            let octet = u32::from(self.octets[self.position / 8]);
            let rest = 8 - self.position % 8;
            let count = left.min(rest);
            let part = (octet >> (rest - count)) & ((1 << count) - 1);
            value = (value << count) | part;
            self.position += count;
            left -= count;
        }
        value
    }
}

/// Puts fields one after another into octets of its own.
#[derive(Default)]
pub struct BitWriter {
    octets: Vec<u8>,
    position: usize,
}

impl BitWriter {
    pub fn with_capacity(octets: usize) -> Self {
        BitWriter {
            octets: Vec::with_capacity(octets),
            position: 0,
        }
    }

    /// Puts `value` as a field of `width` bits, at most 32. It must be below 2 to the `width`.
    pub fn put(&mut self, width: usize, value: u32) {
        let mut left = width;
        while left > 0 {
            if self.position == 8 * self.octets.len() {
                self.octets.push(0);
            }
            let rest = 8 - self.position % 8;
            let count = left.min(rest);
            let part = (value >> (left - count)) & ((1 << count) - 1);
            self.octets[self.position / 8] |= (part << (rest - count)) as u8;
            self.position += count;
            left -= count;
        }
    }

    /// The octets filled so far. Bits of the last one that no field holds are zero.
    pub fn finish(self) -> Vec<u8> {
        self.octets
    }
}

#[cfg(test)]
mod tests {
    use super::*;

    #[test]
    fn takes_the_most_significant_bit_first() {
        let mut bits = BitReader::new(&[0b1010_0110, 0b1100_0001]);
        assert_eq!(bits.take(1), 0b1);
        assert_eq!(bits.take(4), 0b0100);
        assert_eq!(bits.take(9), 0b1_1011_0000);
        assert_eq!(bits.take(2), 0b01);
        assert_eq!(bits.taken(), 16);
    }

    #[test]
    fn puts_what_is_taken() {
        let fields = [
            (1, 1),
            (32, 0xDEAD_BEEF),
            (11, 2047),
            (4, 5),
            (9, 0),
            (20, 0xFFFFF),
            (3, 2),
        ];
        let mut writer = BitWriter::default();
        for (width, value) in fields {
            writer.put(width, value);
        }
        let octets = writer.finish();
        assert_eq!(octets.len(), 10);
        let mut reader = BitReader::new(&octets);
        for (width, value) in fields {
            assert_eq!(reader.take(width), value);
        }
    }
}
