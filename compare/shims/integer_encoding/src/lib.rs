//! What the original calls of the crate `integer-encoding`, by the format's rule: varints of 7 bits a byte, least first, at most
//! 10 bytes and below 2^64; fixed numbers least byte first.
use std::io::{Result, Write};

pub trait VarInt: Sized + Copy {
    fn required_space(self) -> usize;
    fn decode_var(src: &[u8]) -> Option<(Self, usize)>;
    fn encode_var(self, dst: &mut [u8]) -> usize;
}

impl VarInt for u64 {
    fn required_space(self) -> usize {
        let mut n = 1;
        while n < 10 && self >> (7 * n) > 0 {
            n += 1;
        }
        n
    }
    fn decode_var(src: &[u8]) -> Option<(u64, usize)> {
        let mut value = 0u64;
        for (i, &b) in src.iter().take(10).enumerate() {
            if i == 9 && b > 1 {
                return None;
            }
            value |= ((b & 127) as u64) << (7 * i);
            if b < 128 {
                return Some((value, i + 1));
            }
        }
        None
    }
    fn encode_var(self, dst: &mut [u8]) -> usize {
        let n = self.required_space();
        for (i, place) in dst[..n].iter_mut().enumerate() {
            *place = (self >> (7 * i)) as u8 & 127 | if i + 1 < n { 128 } else { 0 };
        }
        n
    }
}

impl VarInt for usize {
    fn required_space(self) -> usize {
        (self as u64).required_space()
    }
    fn decode_var(src: &[u8]) -> Option<(usize, usize)> {
        u64::decode_var(src).map(|(value, n)| (value as usize, n))
    }
    fn encode_var(self, dst: &mut [u8]) -> usize {
        (self as u64).encode_var(dst)
    }
}

pub trait VarIntWriter {
    fn write_varint<V: VarInt>(&mut self, n: V) -> Result<usize>;
}

impl<W: Write> VarIntWriter for W {
    fn write_varint<V: VarInt>(&mut self, n: V) -> Result<usize> {
        let mut bytes = [0; 10];
        let len = n.encode_var(&mut bytes);
        self.write_all(&bytes[..len]).map(|_| len)
    }
}

pub trait FixedInt: Sized + Copy {
    const LEN: usize;
    fn decode_fixed(src: &[u8]) -> Self;
    fn encode_fixed(self, dst: &mut [u8]);
    fn encode_fixed_vec(self) -> Vec<u8> {
        let mut bytes = vec![0; Self::LEN];
        self.encode_fixed(&mut bytes);
        bytes
    }
}

macro_rules! fixed {
    ($t:ty) => {
        impl FixedInt for $t {
            const LEN: usize = std::mem::size_of::<$t>();
            fn decode_fixed(src: &[u8]) -> $t {
                <$t>::from_le_bytes(src.try_into().expect("as many bytes as the number has"))
            }
            fn encode_fixed(self, dst: &mut [u8]) {
                dst.copy_from_slice(&self.to_le_bytes());
            }
        }
    };
}
fixed!(u16);
fixed!(u32);
fixed!(u64);

pub trait FixedIntWriter {
    fn write_fixedint<F: FixedInt>(&mut self, n: F) -> Result<usize>;
}

impl<W: Write> FixedIntWriter for W {
    fn write_fixedint<F: FixedInt>(&mut self, n: F) -> Result<usize> {
        let mut bytes = [0; 8];
        n.encode_fixed(&mut bytes[..F::LEN]);
        self.write_all(&bytes[..F::LEN]).map(|_| F::LEN)
    }
}
