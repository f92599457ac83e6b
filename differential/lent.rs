//! Lent buffers with canaries on both sides, and the noise that fills them.

/// A stream of numbers from a seed (splitmix64).
#[derive(Clone)]
pub struct Rng(pub u64);

impl Rng {
    pub fn next(&mut self) -> u64 {
        self.0 = self.0.wrapping_add(0x9e37_79b9_7f4a_7c15);
        let mut z = self.0;
        z = (z ^ (z >> 30)).wrapping_mul(0xbf58_476d_1ce4_e5b9);
        z = (z ^ (z >> 27)).wrapping_mul(0x94d0_49bb_1331_11eb);
        z ^ (z >> 31)
    }
    /// A number below n.
    pub fn below(&mut self, n: u64) -> u64 {
        self.next() % n
    }
    pub fn one_in(&mut self, n: u64) -> bool {
        self.below(n) == 0
    }
    pub fn pick<'a, T>(&mut self, from: &'a [T]) -> &'a T {
        &from[self.below(from.len() as u64) as usize]
    }
}

pub trait Noise: Copy + PartialEq {
    fn noise(x: u64) -> Self;
}
impl Noise for i64 {
    fn noise(x: u64) -> i64 {
        x as i64
    }
}
impl Noise for u64 {
    fn noise(x: u64) -> u64 {
        x
    }
}
impl Noise for u32 {
    fn noise(x: u64) -> u32 {
        x as u32
    }
}
impl Noise for u8 {
    fn noise(x: u64) -> u8 {
        x as u8
    }
}

const EDGE: usize = 24;

pub struct Lent<T> {
    all: Vec<T>,
    before: Vec<T>,
    null: bool,
}

impl<T: Noise> Lent<T> {
    /// A buffer that holds `words`, noise before and behind them. An empty one is a null pointer now and then.
    pub fn holding(rng: &mut Rng, words: &[T]) -> Lent<T> {
        let null = words.is_empty() && rng.one_in(2);
        let mut all: Vec<T> = Vec::with_capacity(words.len() + 2 * EDGE);
        all.extend((0..EDGE).map(|_| T::noise(rng.next())));
        all.extend_from_slice(words);
        all.extend((0..EDGE).map(|_| T::noise(rng.next())));
        Lent { before: all.clone(), all, null }
    }
    /// A buffer of so many words of noise.
    pub fn noise(rng: &mut Rng, len: usize) -> Lent<T> {
        let words: Vec<T> = (0..len).map(|_| T::noise(rng.next())).collect();
        Lent::holding(rng, &words)
    }
    pub fn len(&self) -> usize {
        self.all.len() - 2 * EDGE
    }
    pub fn ptr(&self) -> *const T {
        if self.null { std::ptr::null() } else { self.all[EDGE..].as_ptr() }
    }
    pub fn mut_ptr(&mut self) -> *mut T {
        if self.null { std::ptr::null_mut() } else { self.all[EDGE..].as_mut_ptr() }
    }
    pub fn words(&self) -> &[T] {
        &self.all[EDGE..self.all.len() - EDGE]
    }
    pub fn words_before(&self) -> &[T] {
        &self.before[EDGE..self.all.len() - EDGE]
    }
    /// The words before and behind the buffer are as they were.
    pub fn edges_kept(&self) -> bool {
        let end = self.all.len() - EDGE;
        self.all[..EDGE] == self.before[..EDGE] && self.all[end..] == self.before[end..]
    }
    /// So is the buffer.
    pub fn kept(&self) -> bool {
        self.all == self.before
    }
}
