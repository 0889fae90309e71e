//! Random numbers from a fixed beginning: xorshift64.

pub struct Rng(pub u64);

impl Rng {
    pub fn next(&mut self) -> u64 {
        self.0 ^= self.0 << 13;
        self.0 ^= self.0 >> 7;
        self.0 ^= self.0 << 17;
        self.0
    }

    pub fn below(&mut self, n: u64) -> u64 {
        (self.next() >> 11) % n
    }

    pub fn ascii(&mut self) -> char {
        (0x20 + self.below(0x5F) as u8) as char
    }

    // A character of the given width in bytes.
    pub fn wide(&mut self, width: u64) -> char {
        loop {
            let code = match width {
                1 => self.below(0x80),
                2 => 0x80 + self.below(0x780),
                3 => 0x800 + self.below(0xF800),
                _ => 0x10000 + self.below(0x100000),
            };
            if let Some(c) = char::from_u32(code as u32) {
                return c;
            }
        }
    }
}
