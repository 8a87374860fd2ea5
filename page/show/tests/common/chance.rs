//! Numbers by chance, the same at each run.

/// A source of chance: xorshift64*.
pub struct Chance(u64);

impl Chance {
    pub fn new(seed: u64) -> Chance {
        Chance(seed.wrapping_mul(0x9e37_79b9_7f4a_7c15) | 1)
    }

    fn next(&mut self) -> u64 {
        self.0 ^= self.0 >> 12;
        self.0 ^= self.0 << 25;
        self.0 ^= self.0 >> 27;
        self.0.wrapping_mul(0x2545_f491_4f6c_dd1d) >> 16
    }

    /// A number below `end`, which is not 0.
    pub fn below(&mut self, end: usize) -> usize {
        (self.next() % end as u64) as usize
    }

    pub fn bytes(&mut self, length: usize) -> Vec<u8> {
        (0..length).map(|_| self.next() as u8).collect()
    }

    /// Bytes of the sorts that break things: signs of HTML and JSON, line ends, controls, overrides,
    /// broken UTF-8.
    pub fn nasty(&mut self, pieces: usize) -> Vec<u8> {
        let sorts: [&[u8]; 24] = [
            b"<",
            b">",
            b"&",
            b"\"",
            b"'",
            b"`",
            b"\\",
            b"\n",
            b"\r\n",
            b"\r",
            b"\t",
            b"\0",
            b"\x1b[31m",
            b"</pre>",
            b"<script>alert(1)</script>",
            b"--></style>",
            b"{0}",
            b"\xff",
            b"\xc3",
            "\u{202e}".as_bytes(),
            "\u{2066}".as_bytes(),
            "é".as_bytes(),
            "😀".as_bytes(),
            b"word ",
        ];
        (0..pieces).flat_map(|_| sorts[self.below(sorts.len())]).copied().collect()
    }

    /// Two span words for a source of this length: mostly inside, sometimes turned round or outside.
    pub fn span(&mut self, length: usize) -> (u32, u32) {
        let (a, b) = (self.below(length + 1) as u32, self.below(length + 1) as u32);
        match self.below(12) {
            0 => (a, a),
            1 => (a.max(b), a.min(b)),
            2 => (a, length as u32 + 1),
            3 => (u32::MAX, u32::MAX),
            4 => (0, length as u32),
            5 => (self.next() as u32, self.next() as u32),
            _ => (a.min(b), a.max(b)),
        }
    }
}
