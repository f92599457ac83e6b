//! The unchanged Rust asked in the words of foreituka.h.
use crate::circuit::Circuit;
use crate::driver;
use crate::semantics::channel::{self, Channel, ChannelLimits, Difference};
use crate::semantics::test_support::Scalar;
use crate::semantics::{self, Error, Limits, Matrix};
use num_bigint::BigInt;
use num_traits::{ToPrimitive, Zero};

/// A circuit as the calls take it. `store` has one byte a bit where the circuit is sound.
#[derive(Clone, PartialEq)]
pub struct Words {
    pub qubits: u32,
    pub bits: u32,
    pub store: Vec<u8>,
    pub gates: Vec<u32>,
}

const NAMES: [&str; 27] = ["h", "x", "z", "s", "sdg", "t", "tdg", "rz", "cnot", "cz", "ccx", "ccz", "measure", "reset", "p", "y", "sx", "rx", "ry",
    "swap", "cy", "cp", "crx", "cry", "crz", "ch", "cswap"];

impl std::fmt::Debug for Words {
    fn fmt(&self, f: &mut std::fmt::Formatter) -> std::fmt::Result {
        write!(f, "{} qubits, {} bits, store {:?}, gates [", self.qubits, self.bits, self.store)?;
        for (i, g) in self.gates.chunks(5).enumerate() {
            let name = NAMES.get(g[0] as usize).map_or(g[0].to_string(), |n| n.to_string());
            let rest: Vec<String> = g[1..].iter().map(|w| w.to_string()).collect();
            write!(f, "{}{name} {}", if i > 0 { "; " } else { "" }, rest.join(" "))?;
        }
        write!(f, "] (kind, then words a b c k)")
    }
}

impl Words {
    /// Measures and resets, and the distinct bits measured into.
    pub fn splits(&self) -> (u32, u32) {
        let gates = || self.gates.chunks_exact(5);
        let splits = gates().filter(|g| g[0] == 12 || g[0] == 13).count() as u32;
        let mut bits: Vec<u32> = gates().filter(|g| g[0] == 12).map(|g| g[2]).collect();
        bits.sort_unstable();
        bits.dedup();
        (splits, bits.len() as u32)
    }
    /// The result and work words that question 10 asks for.
    pub fn channel_sizes(&self) -> (usize, usize) {
        let (splits, bits) = self.splits();
        let d = 1usize << self.qubits;
        (channel_words(d, 1usize << bits), (2 * (1usize << splits) + 2) * (5 * d * d + 2))
    }
    pub fn unitary_sizes(&self) -> (usize, usize) {
        let d = 1usize << self.qubits;
        (5 * d * d, 4 * (5 * d * d + 2))
    }
    /// The Rust's own circuit; None where its types cannot hold the words.
    pub fn circuit(&self) -> Option<Circuit> {
        if self.gates.len() % 5 != 0 {
            return None;
        }
        let mut c = Circuit::with_cbits(self.qubits as usize, self.bits as usize);
        for g in self.gates.chunks_exact(5) {
            let words: Vec<i64> = g.iter().map(|w| *w as i64).collect();
            c.gates.push(driver::gate(&words)?);
        }
        Some(c)
    }
}

/// The words of a header and of a record's head (next, two store words, the exponent that the block shares); four numerators an entry follow.
pub const HEADER: usize = 4;
pub const HEAD: usize = 4;
pub const EXPONENT: usize = 3;
pub const NUMERATORS: usize = 4;

/// The words of a record whose block has so many rows: d² of a channel's, d of an effect.
pub fn record_words(side: usize) -> usize {
    HEAD + NUMERATORS * side * side
}

/// The words of a channel of dimension d with so many blocks.
pub fn channel_words(d: usize, blocks: usize) -> usize {
    HEADER + record_words(d * d) * blocks
}

pub fn limits(l: &[u64; 6]) -> ChannelLimits {
    let matrices = Limits {
        max_qubits: l[0] as usize,
        max_matrix_cells: l[1] as usize,
        max_multiply_terms: l[2] as usize,
        max_operations: l[3] as usize,
    };
    ChannelLimits { matrices, max_branches: l[4] as usize, max_classical_bits: l[5] as usize }
}

/// Document 01's number and index of the Rust's error.
pub fn refusal(e: Error) -> (u32, u64) {
    match e {
        Error::LimitExceeded => (1, 0),
        Error::UnsupportedOperation { index } => (2, index as u64),
        Error::InvalidOperand { index } => (3, index as u64),
        Error::InvalidInitialStore => (4, 0),
    }
}

pub fn circuit_channel(c: &Circuit, store: &[u8], l: &[u64; 6]) -> Result<Channel, Error> {
    let bits: Vec<bool> = store.iter().map(|b| *b == 1).collect();
    channel::circuit_channel(c, &bits, limits(l))
}

pub fn circuit_unitary(c: &Circuit, l: &[u64; 6]) -> Result<Matrix, Error> {
    semantics::circuit_unitary(c, limits(l).matrices)
}

/// Five words, where they fit.
pub fn cell(s: &Scalar) -> Option<[i64; 5]> {
    if s.0.iter().all(|r| r.is_zero()) {
        return Some([0; 5]);
    }
    // denominators are powers of two: the largest is the common one
    let e = s.0.iter().map(|r| r.denom().bits() - 1).max().unwrap();
    let mut out = [0; 5];
    for (word, r) in out.iter_mut().zip(&s.0) {
        let scale = e - (r.denom().bits() - 1);
        *word = match r.numer().to_i64() {
            Some(n) if scale < 62 && n.unsigned_abs().leading_zeros() as u64 > scale + 1 => n << scale,
            _ => (r.numer() * (BigInt::from(1) << scale)).to_i64()?,
        };
    }
    out[4] = e as i64;
    Some(out)
}

/// The words of a matrix, without a header.
pub fn cells(m: &Matrix) -> Option<Vec<i64>> {
    let mut out = Vec::with_capacity(5 * m.entries.len());
    for s in &m.entries {
        out.extend_from_slice(&cell(s)?);
    }
    Some(out)
}

/// The exponent that the entries of a matrix share, the largest of theirs in lowest form, and behind it all their numerators over it; none where one is out of range.
pub fn shared(m: &Matrix) -> Option<Vec<i64>> {
    let cells = cells(m)?;
    let e = cells.chunks_exact(5).map(|x| x[4]).max().unwrap_or(0);
    let mut out = Vec::with_capacity(1 + NUMERATORS * m.entries.len());
    out.push(e);
    for x in cells.chunks_exact(5) {
        let scale = e - x[4];
        for n in &x[..4] {
            out.push(if *n == 0 { 0 } else if scale < 63 { n.checked_mul(1 << scale)? } else { return None });
        }
    }
    (e <= 60 && out[1..].iter().all(|n| n.unsigned_abs() <= 1 << 61)).then_some(out)
}

pub fn scalar(w: &[i64]) -> Scalar {
    driver::scalar(w)
}

pub fn number(store: &[bool]) -> u64 {
    store.iter().enumerate().fold(0, |s, (j, b)| s | (*b as u64) << j)
}

/// Header, chain and records of these blocks, laid out in the order of `order`.
pub fn layout<'a>(dim: usize, bits: usize, order: &[u64], blocks: impl Iterator<Item = (&'a Vec<bool>, &'a Matrix)>) -> Option<Vec<i64>> {
    let rising: Vec<(u64, &Matrix)> = blocks.map(|(s, m)| (number(s), m)).collect();
    let width = rising.first().map_or(0, |(_, m)| m.dim);
    let size = record_words(width);
    let at = |s: u64| order.iter().position(|x| *x == s).map(|j| (HEADER + j * size) as i64);
    let mut words = vec![dim as i64, bits as i64, rising.len() as i64, rising.first().map_or(Some(0), |(s, _)| at(*s))?];
    if order.len() != rising.len() {
        return None;
    }
    for s in order {
        let k = rising.iter().position(|(x, _)| x == s)?;
        let next = rising.get(k + 1).map_or(Some(0), |(t, _)| at(*t))?;
        words.extend_from_slice(&[next, (s & 0xffff_ffff) as i64, (s >> 32) as i64]);
        words.extend(shared(rising[k].1)?);
    }
    Some(words)
}

/// Number, place and both scalars of the Rust's comparison.
pub fn compared(x: &Channel, y: &Channel) -> (u32, [u64; 3], [i64; 10]) {
    match x.compare(y) {
        Ok(()) => (100, [0; 3], [0; 10]),
        Err(Difference::Dimensions) => (101, [0; 3], [0; 10]),
        Err(Difference::Entry { classical, row, col, values }) => {
            let mut scalars = [0; 10];
            scalars[..5].copy_from_slice(&cell(&values.0).unwrap());
            scalars[5..].copy_from_slice(&cell(&values.1).unwrap());
            (102, [number(&classical), row as u64, col as u64], scalars)
        }
    }
}
