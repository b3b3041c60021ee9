//! 01, Blocks: "Bits are packed most significant first."

/// A row of bits that is read from the front and written at the back.
pub struct Bits {
    bits: Vec<bool>,
}

impl Bits {
    pub fn empty() -> Bits {
        Bits { bits: Vec::new() }
    }

    /// All bits of the bytes, the most significant bit of the first byte in front.
    pub fn unpack(bytes: &[u8]) -> Bits {
        let mut row = Bits::empty();
        for byte in bytes {
            row.put(u64::from(*byte), 8);
        }
        row
    }

    /// Takes a number of `width` bits away from the front. There must be as many.
    pub fn take(&mut self, width: usize) -> u64 {
        let mut number = 0;
        for bit in self.bits.drain(..width) {
            number = 2 * number + u64::from(bit);
        }
        number
    }

    /// Puts the lowest `width` bits of a number at the back, the highest of them first.
    pub fn put(&mut self, number: u64, width: usize) {
        for place in (0..width).rev() {
            self.bits.push((number >> place) & 1 == 1);
        }
    }

    /// Whether no bit that is still there is set.
    pub fn all_zero(&self) -> bool {
        self.bits.iter().all(|bit| !bit)
    }

    /// The bits as bytes, after zero bits to a whole byte.
    pub fn pack(mut self) -> Vec<u8> {
        while self.bits.len() % 8 != 0 {
            self.bits.push(false);
        }
        let mut bytes = Vec::new();
        while !self.bits.is_empty() {
            bytes.push(self.take(8) as u8);
        }
        bytes
    }
}
