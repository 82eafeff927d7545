//! Fields packed most significant bit first, one bit at a time.

pub struct BitReader<'a> {
    bytes: &'a [u8],
    at: usize,
}

impl<'a> BitReader<'a> {
    pub fn new(bytes: &'a [u8]) -> BitReader<'a> {
        BitReader { bytes, at: 0 }
    }

    fn bit(&self, at: usize) -> u32 {
        u32::from(self.bytes[at / 8] >> (7 - at % 8) & 1)
    }

    /// The next field, or nothing if the bytes end before it is complete.
    pub fn take(&mut self, width: usize) -> Option<u32> {
        if self.at + width > self.bytes.len() * 8 {
            return None;
        }
        let mut value = 0;
        for at in self.at..self.at + width {
            value = value << 1 | self.bit(at);
        }
        self.at += width;
        Some(value)
    }

    /// True when the rest of the last byte is zero bits and nothing follows.
    pub fn tail_is_clean(&self) -> bool {
        let end = self.bytes.len() * 8;
        end - self.at < 8 && (self.at..end).all(|at| self.bit(at) == 0)
    }
}

#[derive(Default)]
pub struct BitWriter {
    bytes: Vec<u8>,
    bits: usize,
}

impl BitWriter {
    pub fn put(&mut self, width: usize, value: u32) {
        assert!(width == 32 || value < 1 << width, "{value} does not fit {width} bits");
        for k in (0..width).rev() {
            if self.bits.is_multiple_of(8) {
                self.bytes.push(0);
            }
            let bit = (value >> k & 1) as u8;
            *self.bytes.last_mut().unwrap() |= bit << (7 - self.bits % 8);
            self.bits += 1;
        }
    }

    /// The bytes, the last one filled with zero bits.
    pub fn finish(self) -> Vec<u8> {
        self.bytes
    }
}

/// A file of fields, each with its width.
pub fn pack(fields: &[(usize, u32)]) -> Vec<u8> {
    let mut out = BitWriter::default();
    for &(width, value) in fields {
        out.put(width, value);
    }
    out.finish()
}
