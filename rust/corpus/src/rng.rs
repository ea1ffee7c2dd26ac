//! A small seeded random number generator (splitmix64).

/// Deterministic on every machine; not for cryptography.
#[derive(Clone, Debug)]
pub struct Rng {
    state: u64,
}

/// Numbers at which limits and comparisons change.
const EDGES: [u32; 22] = [
    0,
    1,
    2,
    3,
    7,
    8,
    16,
    23,
    24,
    25,
    64,
    65,
    255,
    256,
    0xFFFF,
    0x1_0000,
    0x100_0000,
    0x7FFF_FFFF,
    0x8000_0000,
    0x8000_0001,
    0xFFFF_FFFE,
    0xFFFF_FFFF,
];

impl Rng {
    pub fn new(seed: u64) -> Self {
        Rng { state: seed }
    }

    pub fn next_u64(&mut self) -> u64 {
        self.state = self.state.wrapping_add(0x9E37_79B9_7F4A_7C15);
        let mut mixed = self.state;
        mixed = (mixed ^ (mixed >> 30)).wrapping_mul(0xBF58_476D_1CE4_E5B9);
        mixed = (mixed ^ (mixed >> 27)).wrapping_mul(0x94D0_49BB_1331_11EB);
        mixed ^ (mixed >> 31)
    }

    pub fn next_u32(&mut self) -> u32 {
        (self.next_u64() >> 32) as u32
    }

    pub fn byte(&mut self) -> u8 {
        (self.next_u64() >> 56) as u8
    }

    /// From 0 to one less than `bound`; 0 when `bound` is 0.
    pub fn below(&mut self, bound: usize) -> usize {
        ((u128::from(self.next_u64()) * bound as u128) >> 64) as usize
    }

    /// From `low` to `high`, both included.
    pub fn range(&mut self, low: usize, high: usize) -> usize {
        low + self.below(high - low + 1)
    }

    /// True in `percent` of a hundred draws.
    pub fn chance(&mut self, percent: usize) -> bool {
        self.below(100) < percent
    }

    /// From 0 to `max`, with more small numbers and ends than a plain draw.
    pub fn skewed(&mut self, max: usize) -> usize {
        match self.below(8) {
            0 => 0,
            1 => max.min(1),
            2 => max,
            3..=5 => self.below(max.min(4) + 1),
            _ => self.below(max + 1),
        }
    }

    /// A number of an edge, next to one, or any.
    pub fn edge_u32(&mut self) -> u32 {
        match self.below(4) {
            0 => self.next_u32(),
            1 => (*self.pick(&EDGES)).wrapping_add(1),
            _ => *self.pick(&EDGES),
        }
    }

    /// One of a non-empty slice.
    pub fn pick<'a, T>(&mut self, items: &'a [T]) -> &'a T {
        &items[self.below(items.len())]
    }

    /// One of a slice, or nothing when it is empty.
    pub fn pick_any<'a, T>(&mut self, items: &'a [T]) -> Option<&'a T> {
        items.get(self.below(items.len()))
    }

    pub fn fill(&mut self, out: &mut [u8]) {
        for chunk in out.chunks_mut(8) {
            let word = self.next_u64().to_le_bytes();
            chunk.copy_from_slice(&word[..chunk.len()]);
        }
    }

    pub fn bytes(&mut self, count: usize) -> Vec<u8> {
        let mut out = vec![0; count];
        self.fill(&mut out);
        out
    }

    pub fn shuffle<T>(&mut self, items: &mut [T]) {
        for last in (1..items.len()).rev() {
            items.swap(last, self.below(last + 1));
        }
    }
}
