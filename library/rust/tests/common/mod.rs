//! What the tests share: sheets in bytes, buffers, and sheets by chance.

/// A sheet: its sizes n, m, p, D, k, and its entries, each a key and a value.
pub fn sheet([n, m, p, d, k]: [u16; 5], entries: &[(u16, i32)]) -> Vec<u8> {
    let count = u16::try_from(entries.len()).unwrap();
    let mut bytes = Vec::new();
    for number in [n, m, count, p, d, k].into_iter().chain(entries.iter().map(|entry| entry.0)) {
        bytes.extend(number.to_le_bytes());
    }
    for (_, value) in entries {
        bytes.extend(value.to_le_bytes());
    }
    bytes
}

/// The entries of C1.
pub const C1: [(u16, i32); 7] =
    [(0, 3), (1, 1), (128, 10), (129, 10), (192, -2), (193, -1), (194, -12)];

/// What a buffer holds before a call: bytes that differ by place.
pub fn filled(length: usize) -> Vec<u8> {
    (0..length).map(|i| (7 * i + 3) as u8).collect()
}

/// A generator of pseudo-random numbers: the upper half of x, which each call makes
/// 6,364,136,223,846,793,005 x + 1,442,695,040,888,963,407 of 64 bits.
pub struct Generator(pub u64);

impl Generator {
    pub fn below(&mut self, bound: u32) -> u32 {
        self.0 =
            self.0.wrapping_mul(6_364_136_223_846_793_005).wrapping_add(1_442_695_040_888_963_407);
        (self.0 >> 32) as u32 % bound
    }

    /// A figure of a small sheet, at a row and a column; now and then one out of range, or a limit that none keeps.
    fn figure(&mut self, row: u32, column: u32, n: u32) -> i32 {
        let small = self.below(10) as i32;
        match (row, self.below(100)) {
            (3.., 0..8) if column == n => -(1 + small) * 1_000_000,
            (3.., 0..8) if column > n => 1_073_741_825 - small,
            (1, 0) => -small,
            (0 | 1, _) => small,
            (2, _) => 9 + small,
            _ if column == n => 2 * small - 12,
            _ if column > n => 4 * small,
            _ => small - 5,
        }
    }

    /// The sizes and the entries of a small sheet. A figure of 0 has no entry.
    pub fn parts(&mut self) -> ([u16; 5], Vec<(u16, i32)>) {
        let (n, m) = (1 + self.below(6), self.below(4));
        let p = if self.below(5) == 0 { 1024 } else { 1 + self.below(5) };
        let (d, k) = (1 + self.below(40), 1 + self.below(60));
        let columns = |row| if row > 2 { n + 2 } else { n };
        let places = (0..m + 3).flat_map(|row| (0..columns(row)).map(move |column| (row, column)));
        let entries: Vec<_> = places
            .map(|(row, column)| ((64 * row + column) as u16, self.figure(row, column, n)))
            .collect();
        let entries = entries.into_iter().filter(|entry| entry.1 != 0).collect();
        ([n, m, p, d, k].map(|size| size as u16), entries)
    }
}
