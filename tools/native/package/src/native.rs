// What stands here for parts of Rattle that stable Rust does not have. It is not proved; the tests of this package and
// `tools/native/check.py` are all that looks at it.

/// The string of ASCII bytes. The proved source has `from_utf8_unchecked`, whose condition a proof meets.
#[inline(always)]
pub(crate) fn ascii(bytes: &[u8]) -> &str {
    match core::str::from_utf8(bytes) {
        Ok(text) => text,
        Err(_) => unreachable!(),
    }
}

/// SipHash-1-3 with the key 0, as `DefaultHasher` of std.
pub(crate) struct DefaultHasher {
    state: [u64; 4],
    // The bytes after the last whole word, the first of them lowest.
    tail: u64,
    len: u64,
}

impl DefaultHasher {
    pub(crate) fn new() -> DefaultHasher {
        let state =
            [0x736f_6d65_7073_6575, 0x646f_7261_6e64_6f6d, 0x6c79_6765_6e65_7261, 0x7465_6462_7974_6573];
        DefaultHasher { state, tail: 0, len: 0 }
    }

    fn round(&mut self) {
        let [a, b, c, d] = &mut self.state;
        *a = a.wrapping_add(*b);
        *b = b.rotate_left(13) ^ *a;
        *a = a.rotate_left(32);
        *c = c.wrapping_add(*d);
        *d = d.rotate_left(16) ^ *c;
        *a = a.wrapping_add(*d);
        *d = d.rotate_left(21) ^ *a;
        *c = c.wrapping_add(*b);
        *b = b.rotate_left(17) ^ *c;
        *c = c.rotate_left(32);
    }

    fn word(&mut self, word: u64) {
        self.state[3] ^= word;
        self.round();
        self.state[0] ^= word;
    }

    pub(crate) fn write(&mut self, bytes: &[u8]) {
        for byte in bytes {
            self.tail |= u64::from(*byte) << (8 * (self.len % 8));
            self.len += 1;
            if self.len % 8 == 0 {
                self.word(self.tail);
                self.tail = 0;
            }
        }
    }

    pub(crate) fn finish(mut self) -> u64 {
        self.word(self.tail | self.len << 56);
        self.state[2] ^= 0xff;
        for _ in 0..3 {
            self.round();
        }
        self.state[0] ^ self.state[1] ^ self.state[2] ^ self.state[3]
    }
}

#[cfg(test)]
#[test]
fn hashes_as_std() {
    use std::hash::Hasher;
    let bytes: [u8; 40] = core::array::from_fn(|i| (i * 37 + 5) as u8);
    for len in 0..=bytes.len() {
        for cut in 0..=len {
            let (mut ours, mut other) = (DefaultHasher::new(), std::hash::DefaultHasher::new());
            ours.write(&bytes[..cut]);
            ours.write(&bytes[cut..len]);
            other.write(&bytes[..cut]);
            other.write(&bytes[cut..len]);
            assert_eq!(ours.finish(), other.finish());
        }
    }
}
