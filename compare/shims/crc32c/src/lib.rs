//! What the original calls of the crate `crc32c`: the CRC of RFC 3720, by a table of 256 numbers.
use std::hash::Hasher;

const fn table() -> [u32; 256] {
    let mut t = [0; 256];
    let mut i = 0;
    while i < 256 {
        let (mut c, mut k) = (i as u32, 0);
        while k < 8 {
            c = (c >> 1) ^ if c & 1 == 1 { 0x82f63b78 } else { 0 };
            k += 1;
        }
        t[i] = c;
        i += 1;
    }
    t
}

static TABLE: [u32; 256] = table();

pub fn crc32c_append(crc: u32, data: &[u8]) -> u32 {
    !data.iter().fold(!crc, |c, &b| TABLE[((c ^ b as u32) & 255) as usize] ^ (c >> 8))
}

pub fn crc32c(data: &[u8]) -> u32 {
    crc32c_append(0, data)
}

pub struct Crc32cHasher(u32);

impl Crc32cHasher {
    pub fn new(initial: u32) -> Crc32cHasher {
        Crc32cHasher(initial)
    }
}

impl Hasher for Crc32cHasher {
    fn write(&mut self, data: &[u8]) {
        self.0 = crc32c_append(self.0, data);
    }
    fn finish(&self) -> u64 {
        self.0 as u64
    }
}
