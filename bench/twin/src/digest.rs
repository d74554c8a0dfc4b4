//! A number that tells runs apart.

#[derive(Clone, Copy, Debug, Default)]
pub struct Digest {
    value: u64,
}

impl Digest {
    pub fn value(&self) -> u64 {
        self.value
    }

    pub fn add(&mut self, number: u64) {
        self.value = (self.value ^ number).wrapping_mul(0x0000_0100_0000_01b3);
    }

    pub fn add_bytes(&mut self, bytes: &[u8]) {
        for byte in bytes {
            self.add((*byte).into());
        }
    }
}
