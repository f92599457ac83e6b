//! The cases: each set is a number of cases and a rule from a case's number and a seed to the case.
use crate::calls::CEILINGS;
use crate::calls::kind::{CH, CNOT, H, MEASURE, RESET, RZ, SX, T, X};
use crate::checks::{Case, Damage, Edit, KEPT_HEAD, MAX_WEIGHT, NARROW, NARROW_EXPONENT, Operation, WIDEST, terms, weight};
use crate::lent::Rng;
use crate::packed;
use crate::programs;
use crate::rust::{EXPONENT, HEAD, HEADER, NUMERATORS, Words, record_words};
use std::sync::LazyLock;

pub struct Set {
    pub name: &'static str,
    pub about: &'static str,
    pub count: u64,
    /// Of a quick run.
    pub quick: u64,
    pub case: fn(u64, &mut Rng) -> Case,
}

const ONE: [u32; 11] = [0, 1, 2, 3, 4, 5, 6, 15, 16, 13, 7];
const UNSUPPORTED: [u32; 8] = [14, 17, 18, 21, 22, 23, 24, 7];
const PLAIN: [u32; 18] = [0, 1, 2, 3, 4, 5, 6, 7, 8, 9, 10, 11, 15, 16, 19, 20, 25, 26];

pub fn qubit_words(kind: u32) -> usize {
    match kind {
        10 | 11 | 26 => 3,
        8 | 9 | 19..=25 => 2,
        _ => 1,
    }
}

// ---- all circuits of a few gates

/// Every gate on one qubit with two bits: 10 kinds, rz with k from 0 to 8, measures, unsupported kinds.
fn one_qubit_gates() -> Vec<[u32; 5]> {
    let mut out: Vec<[u32; 5]> = ONE[..10].iter().map(|k| [*k, 0, 0, 0, 0]).collect();
    out.extend((0..9).map(|k| [RZ, 0, 0, 0, k]));
    out.extend([[MEASURE, 0, 0, 0, 0], [MEASURE, 0, 1, 0, 0], [14, 0, 0, 0, 0], [17, 0, 0, 0, 0], [18, 0, 0, 0, 0]]);
    out
}

/// Every gate on two qubits with two bits, the repeated operand included.
fn two_qubit_gates() -> Vec<[u32; 5]> {
    let mut out = Vec::new();
    for q in 0..2 {
        for mut g in one_qubit_gates() {
            g[1] = q;
            out.push(g);
        }
    }
    for kind in [8, 9, 19, 20, 25, 21] {
        out.extend([[kind, 0, 1, 0, 0], [kind, 1, 0, 0, 0], [kind, 1, 1, 0, 0]]);
    }
    out
}

fn numbered(mut i: u64, gates: &[[u32; 5]]) -> Vec<u32> {
    // numbers 0, 1..=k, k+1..=k+k², ... are the circuits of 0, 1, 2, ... gates
    let (k, mut length, mut many) = (gates.len() as u64, 0, 1);
    while i >= many {
        i -= many;
        many *= k;
        length += 1;
    }
    let mut out = Vec::new();
    for _ in 0..length {
        out.extend(gates[(i % k) as usize]);
        i /= k;
    }
    out
}

fn up_to(length: u32, gates: usize) -> u64 {
    (0..=length).map(|l| (gates as u64).pow(l)).sum()
}

fn all_one_qubit(i: u64, _: &mut Rng) -> Case {
    let words = Words { qubits: 1, bits: 2, store: vec![0, 1], gates: numbered(i, &one_qubit_gates()) };
    Case::Channel { words, limits: CEILINGS, extra: (0, 0) }
}

fn all_two_qubit(i: u64, _: &mut Rng) -> Case {
    let words = Words { qubits: 2, bits: 2, store: vec![1, 0], gates: numbered(i, &two_qubit_gates()) };
    Case::Channel { words, limits: CEILINGS, extra: (0, 0) }
}

fn all_one_qubit_unitaries(i: u64, _: &mut Rng) -> Case {
    let words = Words { qubits: 1, bits: 0, store: vec![], gates: numbered(i, &one_qubit_gates()) };
    Case::Unitary { words, limits: CEILINGS, extra: (0, 0) }
}

fn all_two_qubit_unitaries(i: u64, _: &mut Rng) -> Case {
    let words = Words { qubits: 2, bits: 0, store: vec![], gates: numbered(i, &two_qubit_gates()) };
    Case::Unitary { words, limits: CEILINGS, extra: (0, 0) }
}

// ---- random circuits

fn gate(rng: &mut Rng, n: u32, bits: u32, kinds: &[u32]) -> Option<[u32; 5]> {
    let fitting: Vec<u32> = kinds.iter().copied().filter(|k| qubit_words(*k) <= n as usize && (*k != MEASURE || bits > 0)).collect();
    if fitting.is_empty() {
        return None;
    }
    let kind = *rng.pick(&fitting);
    let mut qubits: Vec<u32> = (0..n).collect();
    let mut g = [kind, 0, 0, 0, 0];
    for i in 0..qubit_words(kind) {
        g[1 + i] = qubits.swap_remove(rng.below(qubits.len() as u64) as usize);
    }
    if kind == MEASURE {
        g[2] = rng.below(bits as u64) as u32;
    }
    if kind == RZ {
        g[4] = rng.below(8) as u32;
    }
    Some(g)
}

/// A sound circuit: at most so many gates, a weight of at most MAX_WEIGHT, at most `splits` measures and resets.
pub fn circuit(rng: &mut Rng, n: u32, bits: u32, length: u64, splits: u32) -> Words {
    let mut kinds = PLAIN.to_vec();
    // measures and resets often enough to matter
    kinds.extend([MEASURE, MEASURE, MEASURE, RESET]);
    let (mut gates, mut left): (Vec<u32>, u32) = (Vec::new(), splits);
    for _ in 0..rng.below(length + 1) {
        let Some(g) = gate(rng, n, bits, &kinds) else { break };
        let split = (g[0] == MEASURE || g[0] == RESET) as u32;
        if split > left || weight(&gates) + weight(&g) > MAX_WEIGHT {
            continue;
        }
        left -= split;
        gates.extend(g);
    }
    let store = (0..bits).map(|_| rng.below(2) as u8).collect();
    Words { qubits: n, bits, store, gates }
}

pub fn some_bits(rng: &mut Rng) -> u32 {
    *rng.pick(&[0, 1, 1, 2, 2, 3, 5, 31, 32, 33, 63, 64])
}

/// Words beyond those asked for, or one word too few.
fn extra(rng: &mut Rng) -> (i64, i64) {
    *rng.pick(&[(0, 0), (0, 0), (3, 0), (0, 5), (1, 1), (-1, 0), (0, -1), (-1, -1)])
}

fn random_small(_: u64, rng: &mut Rng) -> Case {
    let n = *rng.pick(&[0, 1, 1, 1, 2]);
    let bits = some_bits(rng);
    let words = circuit(rng, n, bits, if n == 2 { 6 } else { 9 }, 4);
    Case::Channel { words, limits: CEILINGS, extra: (rng.below(4) as i64, rng.below(4) as i64) }
}

fn random_three(_: u64, rng: &mut Rng) -> Case {
    let bits = some_bits(rng);
    let words = circuit(rng, 3, bits, 8, 3);
    Case::Channel { words, limits: CEILINGS, extra: (0, 0) }
}

fn random_four(_: u64, rng: &mut Rng) -> Case {
    let words = circuit(rng, 4, 1, 6, 2);
    Case::Channel { words, limits: CEILINGS, extra: (0, 0) }
}

fn many_branches(_: u64, rng: &mut Rng) -> Case {
    let n = 1 + rng.below(2) as u32;
    let bits = 1 + rng.below(7) as u32;
    let mut words = circuit(rng, n, bits, 10, 6);
    let mut splits = words.splits().0;
    while splits < 6 {
        words.gates.extend(gate(rng, n, bits, &[MEASURE, MEASURE, RESET]).unwrap());
        words.gates.extend(gate(rng, n, bits, &[H, T, SX]).unwrap());
        splits += 1;
    }
    if weight(&words.gates) > MAX_WEIGHT {
        words.gates.truncate(100);
    }
    Case::Channel { words, limits: CEILINGS, extra: (0, 0) }
}

fn random_unitary(_: u64, rng: &mut Rng) -> Case {
    let n = *rng.pick(&[0, 1, 2, 2, 3, 3, 4, 5]);
    let mut words = circuit(rng, n, 0, if n > 3 { 4 } else { 8 }, 0);
    if rng.one_in(8) && n > 0 {
        words.gates.extend([*rng.pick(&[MEASURE, RESET]), rng.below(n as u64) as u32, 0, 0, 0]);
    }
    Case::Unitary { words, limits: CEILINGS, extra: extra(rng) }
}

// ---- hard circuits: denominators that grow with each h

/// h·t and sx·t strings of this weight, with cnot, ch and ccx between them.
fn syllables(rng: &mut Rng, n: u32, target: usize) -> Vec<u32> {
    let mut gates: Vec<u32> = Vec::new();
    while weight(&gates) < target {
        let q = rng.below(n as u64) as u32;
        if rng.one_in(3) {
            gates.extend([3, q, 0, 0, 0]);
        }
        gates.extend([*rng.pick(&[H, H, SX]), q, 0, 0, 0, T, q, 0, 0, 0]);
        if n > 1 && rng.one_in(3) {
            let kinds: &[u32] = if weight(&gates) < target { &[CNOT, CNOT, 10, CH] } else { &[CNOT, 10] };
            gates.extend(gate(rng, n, 0, kinds).unwrap());
        }
    }
    gates
}

/// ch after ch, each controlled by the target before it, with a t now and then, on two qubits or more: exponents come to the largest that a weight allows.
fn walk(rng: &mut Rng, n: u32, target: usize) -> Vec<u32> {
    let (mut gates, mut control): (Vec<u32>, u32) = (Vec::new(), rng.below(n as u64) as u32);
    for _ in 0..target {
        if rng.one_in(3) {
            gates.extend([T, rng.below(n as u64) as u32, 0, 0, 0]);
        }
        let to = (control + 1 + rng.below(n as u64 - 1) as u32) % n;
        gates.extend([CH, control, to, 0, 0]);
        control = to;
    }
    gates
}

fn hard_of(rng: &mut Rng, n: u32, measures: u64) -> Case {
    let target = MAX_WEIGHT - rng.below(9) as usize;
    let mut gates = if n > 1 && rng.one_in(2) { walk(rng, n, target) } else { syllables(rng, n, target) };
    for _ in 0..measures {
        let at = rng.below(gates.len() as u64 / 5 + 1) as usize * 5;
        let g = gate(rng, n, 1, &[MEASURE, MEASURE, RESET]).unwrap();
        gates.splice(at..at, g);
    }
    let words = Words { qubits: n, bits: 1, store: vec![0], gates };
    if rng.one_in(4) && measures == 0 {
        Case::Unitary { words: Words { bits: 0, store: vec![], ..words }, limits: CEILINGS, extra: (0, 0) }
    } else {
        Case::Channel { words, limits: CEILINGS, extra: (0, 0) }
    }
}

fn hard_small(_: u64, rng: &mut Rng) -> Case {
    let (n, measures) = (if rng.one_in(4) { 2 } else { 1 }, rng.below(3));
    hard_of(rng, n, measures)
}

fn hard_three(_: u64, rng: &mut Rng) -> Case {
    let measures = rng.below(2);
    hard_of(rng, 3, measures)
}

fn hard_four(_: u64, rng: &mut Rng) -> Case {
    hard_of(rng, 4, 0)
}

/// Weights about MAX_WEIGHT: the Rust is asked up to it on short strings of h, document 01 above.
fn weight_edges(i: u64, rng: &mut Rng) -> Case {
    let n = 1 + (i % 2) as u32;
    let mut gates = Vec::new();
    for _ in 0..MAX_WEIGHT as u64 - 2 + i % 6 {
        let kinds: &[u32] = if n > 1 { &[H, SX, CH] } else { &[H, SX] };
        gates.extend(gate(rng, n, 0, kinds).unwrap());
    }
    let words = Words { qubits: n, bits: 0, store: vec![], gates };
    if i / 6 % 3 == 0 { Case::Unitary { words, limits: CEILINGS, extra: (0, 0) } } else { Case::Channel { words, limits: CEILINGS, extra: (0, 0) } }
}

// ---- refusals

/// Each limit at what the circuit needs, one below, at and above its ceiling, and 0.
fn limit_edges(i: u64, rng: &mut Rng) -> Case {
    let n = rng.below(3) as u32;
    let bits = 1 + rng.below(3) as u32;
    let words = circuit(rng, n, bits, 5, 3);
    let (s, t) = words.splits();
    let (b, v, d, g) = (1u64 << s, 1u64 << s.min(t), 1u64 << n, words.gates.len() as u64 / 5);
    let unitary = rng.one_in(3);
    let needed = if unitary {
        [n as u64, 8 * d * d, d * d * d * g, g, b, bits as u64]
    } else {
        [n as u64, v * d.pow(4) + (3 * b + 8) * d * d, 2 * g * b * d.pow(3) + b * d.pow(4), g, b, bits as u64]
    };
    let mut limits = CEILINGS;
    for _ in 0..1 + rng.below(2) {
        let k = (i + rng.below(6)) as usize % 6;
        limits[k] = match rng.below(8) {
            0..=2 => needed[k],
            3..=4 => needed[k].saturating_sub(1),
            5 => CEILINGS[k] + 1,
            6 => 0,
            _ => *rng.pick(&[u64::MAX, 1 << 63, 1 << 32, CEILINGS[k]]),
        };
    }
    if unitary { Case::Unitary { words, limits, extra: extra(rng) } } else { Case::Channel { words, limits, extra: extra(rng) } }
}

/// Gates with words out of place: other kinds, operands out of range or repeated, unused words that are not 0, odd lengths, bad stores.
fn spoil(rng: &mut Rng, words: &mut Words) {
    let (n, bits) = (words.qubits, words.bits);
    if rng.one_in(4) {
        let kind = *rng.pick(&UNSUPPORTED);
        if let Some(mut g) = gate(rng, n, bits, &[kind]) {
            g[4] = if kind == RZ { 8 } else { 0 };
            words.gates.extend(g);
        }
    }
    for _ in 0..rng.below(4) {
        let odd = [0, 1, 2, 3, 4, 5, 7, 8, 9, 12, 13, 26, 27, 31, 64, 255, 256, 1 << 16, (1 << 31) - 1, 1 << 31, u32::MAX - 1, u32::MAX];
        let value = *rng.pick(&odd);
        if words.gates.is_empty() || rng.one_in(4) {
            words.gates.push(value);
        } else {
            let at = rng.below(words.gates.len() as u64) as usize;
            words.gates[at] = value;
        }
    }
    match rng.below(12) {
        0 => words.store.push(0),
        1 => {
            words.store.pop();
        }
        2 if bits > 0 => words.store[0] = *rng.pick(&[2, 3, 128, 255]),
        3 => words.bits = *rng.pick(&[63, 64, 65, 66, 1000, u32::MAX]),
        4 => words.qubits = *rng.pick(&[4, 5, 6, 31, 32, 63, 64, 65, u32::MAX]),
        5 => {
            words.bits = *rng.pick(&[64, 65, 66]);
            words.store = vec![1; words.bits as usize];
        }
        _ => (),
    }
}

fn faulty(_: u64, rng: &mut Rng) -> Case {
    let n = rng.below(4) as u32;
    let bits = rng.below(3) as u32;
    let mut words = circuit(rng, n, bits, 4, 2);
    spoil(rng, &mut words);
    if rng.one_in(3) {
        Case::Unitary { words, limits: CEILINGS, extra: extra(rng) }
    } else {
        Case::Channel { words, limits: CEILINGS, extra: extra(rng) }
    }
}

fn short_buffers(_: u64, rng: &mut Rng) -> Case {
    let n = rng.below(3) as u32;
    let words = circuit(rng, n, 2, 3, 3);
    let extra = *rng.pick(&[(-1, 0), (0, -1), (-1, -1), (-2, 7), (9, -3), (-1_000_000, 0), (0, -1_000_000)]);
    if rng.one_in(3) { Case::Unitary { words, limits: CEILINGS, extra } } else { Case::Channel { words, limits: CEILINGS, extra } }
}

// ---- comparisons

/// Whether two gates use a qubit or a bit in common.
fn share(x: &[u32], y: &[u32]) -> bool {
    let qubits = |g: &[u32]| g[1..1 + qubit_words(g[0])].to_vec();
    qubits(x).iter().any(|q| qubits(y).contains(q)) || (x[0] == MEASURE && y[0] == MEASURE && x[2] == y[2])
}

fn comparison(_: u64, rng: &mut Rng) -> Case {
    let n = *rng.pick(&[0, 1, 1, 2, 2, 2, 3]);
    let bits = *rng.pick(&[0, 1, 2, 33]);
    let left = circuit(rng, n, bits, if n == 3 { 4 } else { 7 }, 3);
    let mut right = left.clone();
    match rng.below(6) {
        // a schedule: neighbours that share nothing change places
        0 | 1 => {
            let count = right.gates.len() / 5;
            for _ in 0..3 * count {
                let i = 5 * rng.below(count as u64) as usize;
                if i + 10 <= right.gates.len() && !share(&right.gates[i..i + 5], &right.gates[i + 5..i + 10]) {
                    right.gates[i..i + 10].rotate_left(5);
                }
            }
        }
        // one gate more, one changed, another store
        2 => {
            if let Some(g) = gate(rng, n, bits, &PLAIN) {
                if weight(&right.gates) + weight(&g) <= MAX_WEIGHT {
                    right.gates.extend(g);
                }
            }
        }
        3 if !right.gates.is_empty() => {
            let at = 5 * rng.below(right.gates.len() as u64 / 5) as usize;
            if let Some(g) = gate(rng, n, bits, &[1, 2, 3, 4, 5, 6, 7, 15]) {
                right.gates.splice(at..at + 5, g);
            }
        }
        4 if bits > 0 => {
            let at = rng.below(bits as u64) as usize;
            right.store[at] ^= 1;
        }
        // any other circuit, now and then of other dimensions
        _ => {
            let (m, b) = if rng.one_in(2) { (n, bits) } else { (rng.below(3) as u32, rng.below(3) as u32) };
            right = circuit(rng, m, b, 5, 3);
        }
    }
    Case::Compare { left, right }
}

/// A word that may do harm where it is put.
pub fn harmful(rng: &mut Rng) -> i64 {
    let words = [0, 1, 2, 3, 4, 5, 8, 12, 16, 32, 60, 61, 64, 65, 68, 72, 140, -1, -2, NARROW, 1 << 31, (1 << 32) - 1, 1 << 32, WIDEST / 2,
        WIDEST - 1, WIDEST, WIDEST + 1, -WIDEST, -WIDEST - 1, i64::MAX, i64::MIN];
    *rng.pick(&words)
}

fn damaged(i: u64, rng: &mut Rng) -> Case {
    let n = *rng.pick(&[0, 0, 1, 1, 1, 2]);
    let bits = *rng.pick(&[0, 1, 2, 2, 3, 32, 33, 64]);
    let left = circuit(rng, n, bits, 5, 3);
    let right = if rng.one_in(2) { left.clone() } else { circuit(rng, n, bits, 5, 3) };
    let (header, head, numerators, exponent) = (HEADER as u64, HEAD as u64, NUMERATORS as u64, (HEADER + EXPONENT) as u64);
    let size = record_words(1 << (2 * n)) as u64;
    let mut sets = Vec::new();
    for _ in 0..rng.below(4) {
        // headers and the records' heads more often than numerators
        let (at, value) = match rng.below(5) {
            0 => (rng.below(header), harmful(rng)),
            1 => (header + rng.below(head) + size * rng.below(3), harmful(rng)),
            2 => (exponent + size * rng.below(3), *rng.pick(&[-1, 0, 1, 2, 59, 60, 61, i64::MIN])),
            3 => (header + head + rng.below(80), harmful(rng)),
            _ => (rng.next() >> 1, harmful(rng)),
        };
        sets.push((rng.one_in(2), at, value));
    }
    // numerators that an effect adds up, near the ranges' ends, at an exponent that they may share with an odd one: of the same effect, or of its block alone
    if n > 0 && rng.one_in(3) {
        let d = 1u64 << n;
        let (r, c, part) = (rng.below(d), rng.below(d), rng.below(4));
        let place = |r: u64, c: u64| header + head + numerators * (r * d * d + c);
        sets.clear();
        for o in 0..d {
            let value = *rng.pick(&[WIDEST, WIDEST - 1, WIDEST / 2, -WIDEST, -WIDEST / 2, 1, -1, 0]);
            sets.push((false, place(o * d + r, o * d + c) + part, value));
        }
        if !rng.one_in(3) {
            sets.push((false, exponent, *rng.pick(&[0, 1, 1, 2, 3, 60])));
            let (r, c) = (rng.below(d * d), rng.below(d * d));
            sets.push((false, place(r, if rng.one_in(2) { r } else { c }) + rng.below(4), *rng.pick(&[1, 1, 2, 3, -1, 4])));
        }
    }
    let mut store = left.store.clone();
    if bits > 0 && rng.one_in(2) {
        let at = rng.below(bits as u64) as usize;
        store[at] ^= 1;
    }
    match rng.below(8) {
        0 => store.push(0),
        1 if bits > 0 => store[0] = 2,
        _ => (),
    }
    let cut = if i % 5 == 0 { 1 + rng.below(3) } else { 0 };
    // blocks of zeros on either side, in any place, alone or beside other faults
    let mut blanks = Vec::new();
    if rng.one_in(3) {
        for _ in 0..1 + rng.below(2) {
            blanks.push((rng.one_in(2), rng.next() >> 1));
        }
        if rng.one_in(2) {
            sets.clear();
        }
    }
    // the same blocks at exponents that are one too large, on either side
    let mut doubled = Vec::new();
    if rng.one_in(6) {
        doubled.push((rng.one_in(2), rng.next() >> 1));
        if !rng.one_in(3) {
            sets.clear();
        }
    }
    Case::Damaged { left, right, blanks, doubled, sets, cut, store, short: if rng.one_in(4) { 1 + rng.below(3) } else { 0 } }
}

// ---- layers

/// The ends of layers whose gates share nothing; now and then a layer ends earlier than it must.
fn layering(rng: &mut Rng, gates: &[u32]) -> Vec<u32> {
    let gates: Vec<&[u32]> = gates.chunks_exact(5).collect();
    let (mut ends, mut start) = (Vec::new(), 0);
    for i in 1..gates.len() {
        if gates[start..i].iter().any(|g| share(g, gates[i])) || rng.one_in(6) {
            ends.push(i as u32);
            start = i;
        }
    }
    if !gates.is_empty() {
        ends.push(gates.len() as u32);
    }
    ends
}

/// One gate a layer, all in one, two layers as one, or ends that are none: too low, too high, repeated, out of order, missing.
fn other_ends(rng: &mut Rng, ends: &mut Vec<u32>, count: u32) {
    let odd = [0, 0, 1, 2, count.saturating_sub(1), count, count + 1, (1 << 31) - 1, 1 << 31, u32::MAX - 1, u32::MAX];
    let at = rng.below(ends.len().max(1) as u64) as usize;
    match rng.below(9) {
        0 => *ends = (1..=count).collect(),
        1 => *ends = vec![count],
        2 => *ends = vec![],
        3 | 4 if at < ends.len() => {
            ends.remove(at);
        }
        5 if at < ends.len() => ends[at] = *rng.pick(&odd),
        6 if at < ends.len() => ends.insert(at, *rng.pick(&[ends[at], ends[at] - 1, ends[at] + 1, 0, u32::MAX])),
        7 if at + 1 < ends.len() => ends.swap(at, at + 1),
        _ => ends.push(*rng.pick(&odd)),
    }
}

/// 1,024 gates on different qubits in one layer, and what stands close to that: a gate more or less, two that share, other ends.
fn full_layer(rng: &mut Rng) -> Case {
    let count = *rng.pick(&[1024, 1024, 1024, 1023, 1025]);
    let mut gates: Vec<[u32; 5]> = (0..count).map(|q| [*rng.pick(&[H, T, X, RESET, MEASURE]), q, 0, 0, 0]).collect();
    for (g, bit) in gates.iter_mut().filter(|g| g[0] == MEASURE).zip(0..) {
        g[2] = bit;
    }
    for _ in 0..rng.below(3) {
        let (i, j) = (rng.below(count as u64) as usize, rng.below(count as u64) as usize);
        if rng.one_in(2) {
            gates[i][1] = gates[j][1];
        } else {
            (gates[i], gates[j]) = ([MEASURE, gates[i][1], 1023, 0, 0], [MEASURE, gates[j][1], 1023, 0, 0]);
        }
    }
    let mut ends = vec![count];
    match rng.below(4) {
        0 => ends.insert(0, 1 + rng.below(count as u64 - 1) as u32),
        1 => other_ends(rng, &mut ends, count),
        _ => (),
    }
    let bits = *rng.pick(&[64, 1024, 2000]);
    let words = Words { qubits: *rng.pick(&[1024, 1025, 1023, u32::MAX]), bits, store: vec![0; bits as usize], gates: gates.concat() };
    Case::Layers { words, ends, limits: CEILINGS, extra: (0, 0), shuffle: rng.next() }
}

/// Lists at the edges, with their ends: no gates, two gates, 1,024.
fn edges() -> Vec<(Words, Vec<u32>)> {
    let list = |qubits: u32, gates: Vec<[u32; 5]>| Words { qubits, bits: 0, store: vec![], gates: gates.concat() };
    let x = |count: u32, qubits: u32| (0..count).map(|i| [X, i % qubits, 0, 0, 0]).collect();
    let mut out: Vec<(Words, Vec<u32>)> = [vec![], vec![0], vec![1], vec![0, 0], vec![u32::MAX]].map(|ends| (list(1, vec![]), ends)).to_vec();
    let two = [vec![2], vec![1, 2], vec![], vec![0], vec![1], vec![3], vec![0, 2], vec![0, 1, 2], vec![1, 1, 2], vec![2, 2], vec![2, 1], vec![1, 2, 3],
        vec![u32::MAX], vec![1, u32::MAX], vec![2, u32::MAX], vec![u32::MAX, 2], vec![1 << 31, 2], vec![u32::MAX, u32::MAX]];
    for ends in two {
        out.push((list(2, x(2, 2)), ends.clone()));
        out.push((list(1, x(2, 1)), ends));
    }
    out.push((list(1024, x(1024, 1024)), vec![1024]));
    out.push((list(1024, x(1024, 1023)), vec![1024]));
    out.push((list(1024, x(1024, 1024)), (1..=1024).collect()));
    out.push((list(2, x(1024, 2)), (1..=1024).collect()));
    out.push((list(2, x(1024, 2)), (1..=512).map(|k| 2 * k).collect()));
    out.push((list(2, x(1025, 2)), vec![]));
    out
}

static EDGES: LazyLock<Vec<(Words, Vec<u32>)>> = LazyLock::new(edges);

fn layers(i: u64, rng: &mut Rng) -> Case {
    if let Some((words, ends)) = EDGES.get(i as usize) {
        return Case::Layers { words: words.clone(), ends: ends.clone(), limits: CEILINGS, extra: (0, 0), shuffle: rng.next() };
    }
    if i % 100 == 99 {
        return full_layer(rng);
    }
    // on many qubits layers are long, and a circuit with no other fault is over the limits
    let n = *rng.pick(&[0, 1, 1, 2, 2, 2, 2, 3, 3, 3, 6, 12, 64]);
    let bits = *rng.pick(&[0, 1, 1, 2, 2, 5, 33]);
    let mut words = circuit(rng, n, bits, if n == 3 { 7 } else if n > 3 { 30 } else { 10 }, 3);
    if rng.one_in(40) {
        words.gates.extend((0..=MAX_WEIGHT).flat_map(|_| [H, 0, 0, 0, 0]));
    }
    let mut ends = layering(rng, &words.gates);
    // a layer of measures, on different qubits and maybe into one bit
    if n > 1 && bits > 0 && rng.one_in(5) {
        for q in 0..n.min(3) {
            words.gates.extend([MEASURE, q, rng.below(bits.min(4) as u64) as u32, 0, 0]);
        }
        ends.push(words.gates.len() as u32 / 5);
    }
    if rng.one_in(3) {
        let count = words.gates.len() as u32 / 5;
        other_ends(rng, &mut ends, count);
    }
    if rng.one_in(5) {
        spoil(rng, &mut words);
    }
    let mut limits = CEILINGS;
    if rng.one_in(10) {
        let k = rng.below(6) as usize;
        limits[k] = *rng.pick(&[0, 1, 2, 3, 4, CEILINGS[k] + 1, u64::MAX]);
    }
    let extra = if rng.one_in(4) { extra(rng) } else { (0, 0) };
    Case::Layers { words, ends, limits, extra, shuffle: rng.next() }
}

// ---- the plain-gate profile

/// A gate of the profile in place of one that is none, on the same qubits; none for a gate on three.
fn admitted(g: &[u32]) -> Option<[u32; 5]> {
    let mut out: [u32; 5] = g.try_into().unwrap();
    match g[0] {
        5 | 6 => out[0] -= 2,
        25 => out[0] = 20,
        7 => out[4] -= out[4] % 2,
        10 | 11 | 26 => return None,
        _ => (),
    }
    Some(out)
}

fn profiles(i: u64, rng: &mut Rng) -> Case {
    // every gate on one and on two qubits by itself
    let (one, two) = (one_qubit_gates(), two_qubit_gates());
    if let Some(g) = one.iter().map(|g| (1, g)).chain(two.iter().map(|g| (2, g))).nth(i as usize) {
        let words = Words { qubits: g.0, bits: 2, store: vec![0, 1], gates: g.1.to_vec() };
        return Case::Plain { words, limits: CEILINGS, extra: (0, 0) };
    }
    let n = *rng.pick(&[0, 1, 1, 1, 2, 2, 2, 3]);
    let bits = some_bits(rng);
    let mut words = circuit(rng, n, bits, if n == 3 { 7 } else { 12 }, 3);
    // all gates in the profile, or all but one, or any
    let spared = rng.below(words.gates.len() as u64 / 5 + 1) as usize;
    let mode = rng.below(4);
    if mode > 0 {
        let kept = |(i, g): (usize, &[u32])| if mode == 1 && i == spared { Some(g.try_into().unwrap()) } else { admitted(g) };
        let gates: Vec<[u32; 5]> = words.gates.chunks_exact(5).enumerate().filter_map(kept).collect();
        words.gates = gates.concat();
    }
    if n > 0 && rng.one_in(40) {
        words.gates.extend((0..=MAX_WEIGHT).flat_map(|_| [H, 0, 0, 0, 0]));
    }
    if rng.one_in(5) {
        spoil(rng, &mut words);
    }
    let mut limits = CEILINGS;
    if rng.one_in(10) {
        let k = rng.below(6) as usize;
        limits[k] = *rng.pick(&[0, 1, 2, 3, 4, CEILINGS[k] + 1, u64::MAX]);
    }
    let extra = if rng.one_in(4) { extra(rng) } else { (0, 0) };
    Case::Plain { words, limits, extra }
}

// ---- schedules

/// A schedule at random: of the gates whose forerunners are all placed, one after another.
fn scheduled(rng: &mut Rng, gates: &[u32]) -> (Vec<u32>, Vec<u32>) {
    let gates: Vec<&[u32]> = gates.chunks_exact(5).collect();
    let mut left: Vec<usize> = (0..gates.len()).collect();
    let (mut new, mut table) = (Vec::new(), Vec::new());
    // of a long list, only the first few that are left may come next
    while !left.is_empty() {
        let free: Vec<usize> = (0..left.len().min(40)).filter(|i| left[..*i].iter().all(|j| !share(gates[*j], gates[left[*i]]))).collect();
        let k = left.remove(*rng.pick(&free));
        new.extend(gates[k]);
        table.push(k as u32);
    }
    (new, table)
}

/// One thing wrong, or maybe nothing: two gates exchanged with their entries or without, an entry that is another's or no position, the table read backwards, a word of a gate, a length.
fn unschedule(rng: &mut Rng, new: &mut Vec<u32>, table: &mut Vec<u32>) {
    let count = table.len() as u32;
    let odd = [0, 1, count.saturating_sub(1), count, count + 1, (1 << 31) - 1, 1 << 31, u32::MAX - 1, u32::MAX];
    let (i, j) = (rng.below(table.len().max(1) as u64) as usize, rng.below(table.len().max(1) as u64) as usize);
    let (near, exchange) = (i + 1 < table.len(), |new: &mut [u32], i: usize, j: usize| (0..5).for_each(|w| new.swap(5 * i + w, 5 * j + w)));
    match rng.below(12) {
        0 | 1 if near => {
            table.swap(i, i + 1);
            exchange(new, i, i + 1);
        }
        2 | 3 if i < table.len() => {
            table.swap(i, j);
            exchange(new, i, j);
        }
        4 if i < table.len() => table.swap(i, j),
        5 if i < table.len() => exchange(new, i, j),
        6 if i < table.len() => table[i] = table[j],
        7 if i < table.len() => table[i] = *rng.pick(&odd),
        8 => {
            let mut back = vec![0; table.len()];
            (0..).zip(table.iter()).for_each(|(i, k)| back[*k as usize] = i);
            *table = back;
        }
        9 if !new.is_empty() => {
            let at = rng.below(new.len() as u64) as usize;
            new[at] = *rng.pick(&[0, 1, 2, 3, 12, 14, u32::MAX]);
        }
        10 => match rng.below(4) {
            0 => table.push(*rng.pick(&odd)),
            1 => {
                table.pop();
            }
            2 => new.truncate(new.len().saturating_sub(5)),
            _ => new.extend([X, 0, 0, 0, 0]),
        },
        _ => {
            new.push(0);
        }
    }
}

fn schedules(i: u64, rng: &mut Rng) -> Case {
    // no gates, beside tables and lists of other lengths
    let none: [(&[u32], &[u32]); 6] = [(&[], &[]), (&[], &[0]), (&[], &[u32::MAX]), (&[X, 0, 0, 0, 0], &[0]), (&[X, 0, 0, 0, 0], &[]), (&[X], &[])];
    if let Some((new, table)) = none.get(i as usize) {
        let words = Words { qubits: 1, bits: 0, store: vec![], gates: vec![] };
        return Case::Schedule { words, new: new.to_vec(), table: table.to_vec() };
    }
    let long = i % 100 == 99;
    let n = *rng.pick(if long { &[8, 64, 2000] } else { &[0, 1, 1, 2, 2, 2, 2, 3, 3, 6, 12] });
    let bits = *rng.pick(&[0, 1, 1, 2, 2, 5, 33]);
    let mut words = circuit(rng, n, bits, if long { 1500 } else if n == 3 { 7 } else if n > 3 { 20 } else { 10 }, 3);
    // question 6 is not asked here
    if rng.one_in(5) {
        let kind = *rng.pick(&UNSUPPORTED);
        if let Some(mut g) = gate(rng, n, bits, &[kind]) {
            g[4] = if kind == RZ { 8 } else { 0 };
            let at = 5 * rng.below(words.gates.len() as u64 / 5 + 1) as usize;
            words.gates.splice(at..at, g);
        }
    }
    let (mut new, mut table) = scheduled(rng, &words.gates);
    if rng.one_in(2) {
        unschedule(rng, &mut new, &mut table);
    }
    // faults in either list, or in both
    if rng.one_in(8) {
        let mut other = Words { gates: new.clone(), ..words.clone() };
        match rng.below(3) {
            0 => spoil(rng, &mut words),
            1 => {
                spoil(rng, &mut other);
                new = other.gates;
            }
            _ => {
                let at = rng.below(words.gates.len().max(1) as u64) as usize;
                let odd = *rng.pick(&[2, 27, u32::MAX]);
                [&mut words.gates, &mut new].into_iter().filter_map(|g| g.get_mut(at)).for_each(|w| *w = odd);
            }
        }
    }
    Case::Schedule { words, new, table }
}

// ---- circuits kept with their counts

/// A gate, sound for the most part.
fn edit_gate(rng: &mut Rng, n: u32, bits: u32) -> [u32; 5] {
    let mut kinds = PLAIN.to_vec();
    kinds.extend([MEASURE, MEASURE, MEASURE, MEASURE, MEASURE, RESET, RESET]);
    let mut g = gate(rng, n, bits, &kinds).unwrap_or([H, 0, 0, 0, 0]);
    if rng.one_in(10) {
        g[rng.below(5) as usize] = *rng.pick(&[0, 1, 4, 5, 7, 8, 12, 14, 24, 27, 63, 64, u32::MAX]);
    } else if rng.one_in(20) {
        let kind = *rng.pick(&UNSUPPORTED);
        g = gate(rng, n, bits, &[kind]).unwrap_or(g);
        g[4] = if g[0] == RZ { 8 } else { 0 };
    }
    g
}

fn kept(i: u64, rng: &mut Rng) -> Case {
    let (n, bits) = (*rng.pick(&[0, 1, 1, 2, 2, 3, 4, 5, 5]), *rng.pick(&[0, 1, 1, 2, 2, 3, 3, 63, 64]));
    let odd = rng.one_in(30);
    let n = if odd { *rng.pick(&[6, 5, u32::MAX]) } else { n };
    let bits = if odd { *rng.pick(&[64, 65, u32::MAX]) } else { bits };
    let long = i % 200 == 199;
    let places = if long { 1026 } else { *rng.pick(&[0, 1, 2, 3, 5, 8, 12, 20, 70]) };
    let size = if rng.one_in(40) { *rng.pick(&[0, 1, 69, 70]) } else { KEPT_HEAD + 5 * places + rng.below(5) as usize };
    let mut store: Vec<u8> = (0..bits.min(100)).map(|_| rng.below(2) as u8).collect();
    if rng.one_in(15) {
        store.push(2);
    }
    // heavy ones, up to a weight past the most
    let heavy = i % 40 == 7;
    let places = if heavy { 70 } else { places };
    let size = if heavy { KEPT_HEAD + 5 * places } else { size };
    let count = if heavy { 66 } else if long { 1040 } else { rng.below(30) };
    let removal = if long || heavy { 40 } else { 4 };
    let edits = (0..count).map(|_| {
        if rng.one_in(removal) {
            Edit::Remove
        } else if !heavy && rng.one_in(3) {
            Edit::Replace(rng.below(places as u64 + 2) as usize, edit_gate(rng, n.min(5), bits.min(64)))
        } else if heavy {
            Edit::Append([*rng.pick(&[H, H, SX]), 0, 0, 0, 0])
        } else {
            Edit::Append(edit_gate(rng, n.min(5), bits.min(64)))
        }
    });
    let edits: Vec<Edit> = edits.collect();
    let last = Edit::Replace(rng.below(places as u64 + 1) as usize, edit_gate(rng, n.min(5), bits.min(64)));
    let mut limits = CEILINGS;
    if rng.one_in(5) {
        let k = rng.below(6) as usize;
        limits[k] = *rng.pick(&[0, 1, 2, 3, 5, CEILINGS[k] - 1, CEILINGS[k] + 1, u64::MAX]);
    }
    let lent = (*rng.pick(&[0, 11, 12, 71, 72, 140, 1032, 1 << 20, 1 << 20]), *rng.pick(&[0, 27, 28, 88, 132, 328, 1 << 20, 1 << 20]));
    // every count and every word of the first gates, one at a time, in a few cases; in the others some of them
    let value = |rng: &mut Rng| *rng.pick(&[-1, 0, 1, 2, 3, 5, 6, 64, 65, 1024, 1025, 1 << 32, u32::MAX as i64, i64::MAX, i64::MIN]);
    let mut damages: Vec<Damage> = (0..6).map(|_| Damage::Set(rng.below(size.max(1) as u64) as usize, value(rng))).collect();
    damages.extend((0..6).map(|_| Damage::Set(rng.below(6) as usize, value(rng))));
    damages.extend((0..4).map(|_| Damage::Set(6 + rng.below(bits.clamp(1, 64) as u64) as usize, value(rng))));
    damages.extend([Damage::Cut(1 + rng.below(6) as usize), Damage::Cut(size.saturating_sub(*rng.pick(&[0, 1, 69, 70, 75])))]);
    if i % 50 == 0 {
        damages.extend((0..size.min(90)).flat_map(|at| [-1, 0, 1, 2, 70, 1 << 32].map(|v| Damage::Set(at, v))));
    }
    Case::Kept { words: Words { qubits: n, bits, store, gates: vec![] }, size, edits, limits, lent, damages, last }
}

// ---- phases and scalars

fn cell(rng: &mut Rng, bounds: &[i64], exponents: &[i64]) -> [i64; 5] {
    let mut x = [0; 5];
    for n in &mut x[..4] {
        if !rng.one_in(3) {
            let b = *rng.pick(bounds);
            let near = b.saturating_add(*rng.pick(&[0, 0, -1, 1, -2, 3]));
            *n = if rng.one_in(2) { near.wrapping_neg() } else { near };
        }
    }
    x[4] = *rng.pick(exponents);
    // mostly in lowest form
    if x[4] > 0 && !rng.one_in(6) && x[..4].iter().all(|n| n & 1 == 0) {
        x[rng.below(4) as usize] |= 1;
    }
    x
}

fn phases(_: u64, rng: &mut Rng) -> Case {
    let n = *rng.pick(&[0, 1, 1, 2, 2, 3, 4, 5]);
    let left = circuit(rng, n, 0, if n > 2 { 2 } else { 6 }, 0);
    let mut right = left.clone();
    if rng.one_in(3) {
        if let Some(g) = gate(rng, n, 0, &PLAIN) {
            right.gates.extend(g);
        }
    }
    // powers of omega, other numbers of modulus 1, and numbers that are not
    let scale = match rng.below(8) {
        0..=3 => *rng.pick(&[[1, 0, 0, 0, 0], [0, 1, 0, 1, 1], [0, 0, 1, 0, 0], [0, -1, 0, 1, 1], [-1, 0, 0, 0, 0], [0, -1, 0, -1, 1], [0, 0, -1, 0, 0]]),
        4 => [1, 0, 0, 2, 0],
        5 => [0, 0, 0, 0, 0],
        6 => [-1, 2, 2, 1, 2],
        _ => cell(rng, &[0, 1, 2, 5, 1 << 20, NARROW / 2 + 1], &[0, 1, 3]),
    };
    let mut sets = Vec::new();
    for _ in 0..if rng.one_in(3) { 1 + rng.below(2) } else { 0 } {
        let value = *rng.pick(&[0, 1, -1, 2, NARROW - 1, NARROW, NARROW + 1, -NARROW, WIDEST, WIDEST + 1, NARROW_EXPONENT, NARROW_EXPONENT + 1, 60, 61, i64::MIN]);
        sets.push((rng.one_in(2), rng.next() >> 1, value));
    }
    let d = 1usize << n;
    let dims = if rng.one_in(10) { (d, *rng.pick(&[0, 1, 2, 3, 4, 8, 16, 32, 64, usize::MAX])) } else { (d, d) };
    if rng.one_in(12) {
        right = circuit(rng, (n + 1) % 4, 0, 3, 0);
        return Case::Phase { left, dims: (d, 1 << right.qubits), right, scale, sets, cut: 0 };
    }
    Case::Phase { left, right, scale, sets, dims, cut: if rng.one_in(15) { 1 } else { 0 } }
}

fn scalars(_: u64, rng: &mut Rng) -> Case {
    use Operation::*;
    let bounds = [0, 1, 2, 3, NARROW / 2, NARROW, NARROW * 2, 1 << 31, 1 << 32, WIDEST / 2, WIDEST, WIDEST * 2, i64::MAX];
    let narrow = [0, 1, 2, 3, 5, 1 << 14, NARROW / 2, NARROW - 3, NARROW];
    let exponents = [0, 0, 0, 1, 2, 27, 28, NARROW_EXPONENT, NARROW_EXPONENT + 1, 58, 59, 60, 60, 61, 62, -1, 1 << 32, i64::MAX, i64::MIN];
    let sound = [0, 0, 1, 2, 3, 27, 28, NARROW_EXPONENT];
    let wide = [0, 1, 3, 1 << 20, WIDEST / 2 - 2, WIDEST - 3, WIDEST];
    let any = |rng: &mut Rng| cell(rng, &bounds, &exponents);
    let operation = match rng.below(14) {
        0 => Integer((*rng.pick(&bounds)).saturating_add(*rng.pick(&[0, 1, -1])).wrapping_mul(*rng.pick(&[1, -1]))),
        1 => Omega(*rng.pick(&[0, 1, 2, 3, 4, 5, 6, 7, 8, 255, 256, 257, u32::MAX - 1, u32::MAX])),
        2 => rng.pick(&[Zero, I, InvSqrtTwo]).clone(),
        3 => Neg(any(rng)),
        4 => Conj(any(rng)),
        5 => Half(any(rng)),
        6 => Half(cell(rng, &wide, &[0, 1, 58, 59, 60])),
        7 => Add(any(rng), any(rng)),
        8 | 9 => Add(cell(rng, &wide, &[0, 1, 2, 30, 59, 60]), cell(rng, &wide, &[0, 1, 2, 30, 59, 60])),
        // operands that cancel
        10 => {
            let x = cell(rng, &wide, &[0, 1, 2, 30, 59, 60]);
            let mut y = x.map(|n| n.wrapping_neg());
            y[4] = x[4];
            y[rng.below(4) as usize] += *rng.pick(&[0, 2, 4, -2]);
            Add(x, y)
        }
        11 => Mul(any(rng), any(rng)),
        _ => Mul(cell(rng, &narrow, &sound), cell(rng, &narrow, &sound)),
    };
    Case::Scalar(operation)
}

// ---- lists of pairs

fn work_lists(i: u64, rng: &mut Rng) -> Case {
    let pairs: usize = match i {
        0..5 => [0, 1, 32, 33, 40][i as usize],
        _ => *rng.pick(&[0, 1, 1, 2, 2, 3, 3, 4, 6, 32, 33]),
    };
    let (mut words, mut stores, mut sums, mut rooms) = (Vec::new(), Vec::new(), vec![0], (4, 4, 4));
    for _ in 0..pairs {
        let (n, bits) = (*rng.pick(&[0, 1, 1, 1, 2]), *rng.pick(&[0, 1, 1, 2]));
        let left = circuit(rng, n, bits, 6, 2);
        // the same circuit, another of its counts, or of others
        let mut pair = [left.clone(), if rng.one_in(3) { left } else if rng.one_in(3) { circuit(rng, 1, 1, 6, 2) } else { circuit(rng, n, bits, 6, 2) }];
        for w in &mut pair {
            if rng.one_in(8) {
                spoil(rng, w);
            }
        }
        for (k, w) in pair.iter().enumerate() {
            words.extend([w.qubits, w.bits, w.gates.len() as u32]);
            if w.qubits < 4 && w.splits().0 < 7 && w.splits().1 < 7 {
                let (result, work) = w.channel_sizes();
                rooms = if k == 0 { (rooms.0.max(result), rooms.1, rooms.2.max(work)) } else { (rooms.0, rooms.1.max(result), rooms.2.max(work)) };
            }
        }
        pair.iter().for_each(|w| words.extend(&w.gates));
        pair.iter().for_each(|w| stores.extend(&w.store));
        if pair.iter().all(|w| w.qubits < 4 && w.splits().0 < 7) {
            sums.push(sums[sums.len() - 1] + terms(&pair[0]) + terms(&pair[1]));
        }
    }
    // what is spent after some pairs, where none is refused, and one more or less
    let some = *rng.pick(&sums);
    let allowance = *rng.pick(&[0, 1, u64::MAX, u64::MAX - 1, 1 << 63, some, some, some.saturating_sub(1), some + 1, sums[sums.len() - 1]]);
    let mut count = pairs;
    let mut places = (7 * pairs, 10 * pairs);
    if rng.one_in(6) {
        match rng.below(6) {
            0 => count += 1,
            1 => count = count.saturating_sub(1),
            2 => words.push(*rng.pick(&[0, 1, u32::MAX])),
            3 => {
                words.pop();
            }
            4 => stores.push(0),
            _ => {
                let at = rng.below(words.len().max(1) as u64) as usize;
                let odd = *rng.pick(&[0, 1, 5, 6, 64, 65, 1 << 31, u32::MAX]);
                words.get_mut(at).into_iter().for_each(|w| *w = odd);
            }
        }
    }
    if rng.one_in(8) {
        places = *rng.pick(&[(7 * pairs + 3, 10 * pairs + 3), (places.0.saturating_sub(1), places.1), (places.0, places.1.saturating_sub(1)), (0, 0)]);
    }
    if rng.one_in(5) {
        let short = |rng: &mut Rng, n: usize| *rng.pick(&[n, n, n + 9, n / 2, n.saturating_sub(1), 0]);
        rooms = (short(rng, rooms.0), short(rng, rooms.1), short(rng, rooms.2));
    }
    let mut limits = CEILINGS;
    if rng.one_in(10) {
        let k = rng.below(6) as usize;
        limits[k] = *rng.pick(&[0, 1, 2, 3, 64, CEILINGS[k] + 1, u64::MAX]);
    }
    Case::WorkList { count, words, stores, limits, allowance, rooms, places }
}

pub fn sets() -> Vec<Set> {
    let (one, two) = (one_qubit_gates().len(), two_qubit_gates().len());
    vec![
        Set { name: "one-qubit", about: "all circuits of up to 3 gates on one qubit", count: up_to(3, one), quick: up_to(2, one), case: all_one_qubit },
        Set { name: "two-qubit", about: "all circuits of up to 2 gates on two qubits", count: up_to(2, two), quick: up_to(1, two), case: all_two_qubit },
        Set { name: "one-qubit-unitaries", about: "the same, as unitaries", count: up_to(3, one), quick: up_to(2, one), case: all_one_qubit_unitaries },
        Set { name: "two-qubit-unitaries", about: "the same, as unitaries", count: up_to(2, two), quick: up_to(1, two), case: all_two_qubit_unitaries },
        Set { name: "random", about: "random circuits of 0 to 2 qubits", count: 20000, quick: 500, case: random_small },
        Set { name: "random-3", about: "random circuits of 3 qubits", count: 2000, quick: 20, case: random_three },
        Set { name: "random-4", about: "random circuits of 4 qubits", count: 300, quick: 2, case: random_four },
        Set { name: "branches", about: "64 branches", count: 1000, quick: 20, case: many_branches },
        Set { name: "unitaries", about: "random unitaries of 0 to 5 qubits", count: 6000, quick: 200, case: random_unitary },
        Set { name: "hard", about: "weights 48 to 56, 1 and 2 qubits", count: 3000, quick: 30, case: hard_small },
        Set { name: "hard-3", about: "weights 48 to 56, 3 qubits", count: 200, quick: 1, case: hard_three },
        Set { name: "hard-4", about: "weights 48 to 56, 4 qubits", count: 12, quick: 0, case: hard_four },
        Set { name: "weights", about: "weights 54 to 59", count: 180, quick: 36, case: weight_edges },
        Set { name: "limits", about: "limits at their edges", count: 8000, quick: 400, case: limit_edges },
        Set { name: "faulty", about: "faulty circuits", count: 20000, quick: 800, case: faulty },
        Set { name: "short", about: "short buffers", count: 3000, quick: 200, case: short_buffers },
        Set { name: "compare", about: "pairs of circuits, both orders", count: 12000, quick: 300, case: comparison },
        Set { name: "layers", about: "layered circuits, in order and shuffled", count: 20000, quick: 500, case: layers },
        Set { name: "plain", about: "the plain-gate profile, its circuits and others", count: 20000, quick: 500, case: profiles },
        Set { name: "schedules", about: "schedules, sound and spoilt", count: 20000, quick: 500, case: schedules },
        Set { name: "kept", about: "circuits kept with their counts: edits, verdicts, damaged words", count: 20000, quick: 500, case: kept },
        Set { name: "programs", about: "random Pauli programs of 0 to 3 qubits", count: 20000, quick: 500, case: programs::random },
        Set { name: "programs-deep", about: "Pauli programs with products hundreds deep", count: 200, quick: 12, case: programs::deep },
        Set { name: "programs-heavy", about: "Pauli programs of weights 48 to 59", count: 1000, quick: 30, case: programs::heavy },
        Set { name: "programs-faulty", about: "Pauli programs with faults of every kind", count: 30000, quick: 1000, case: programs::faulty },
        Set { name: "programs-as-circuits", about: "Pauli programs that do what a circuit does, compared with it", count: 3000, quick: 200, case: programs::as_circuits },
        Set { name: "work-list", about: "lists of pairs under an allowance", count: 6000, quick: 300, case: work_lists },
        Set { name: "damaged", about: "channels with words damaged, blocks of zeros and blocks at other exponents", count: 20000, quick: 600, case: damaged },
        Set { name: "packed", about: "channels packed and unpacked, as delivered and damaged", count: 20000, quick: 1000, case: packed::packed },
        Set { name: "plain-words", about: "channels written and read without √2 parts, as delivered and damaged", count: 20000, quick: 1000, case: packed::plain },
        Set { name: "phases", about: "phase tests, both orders", count: 8000, quick: 300, case: phases },
        Set { name: "scalars", about: "scalar calls at the ranges' ends", count: 100000, quick: 3000, case: scalars },
    ]
}
