//! One comparison: a call's input, the archive's reply, the plain C version's, and the Rust's where it can be asked.
use crate::calls::{ARCHIVE, CEILINGS, Calls, PLAIN};
use crate::lent::{Lent, Rng};
use crate::packed::{self, Form, Hurt, Origin};
use crate::programs::{self, Program};
use crate::rust::{self, EXPONENT, HEAD, HEADER, NUMERATORS, Words, record_words};
use crate::semantics::Matrix;
use crate::semantics::channel::Channel;
use crate::semantics::test_support::Scalar;
use std::collections::{BTreeMap, HashMap, HashSet};

/// Calls compared, by name: with the Rust, with document 01 alone (the plain C version and the rules in this file), and how often with each reply. A
/// reply that the Rust does not have (8, 9, 10) is document 01's, also where the Rust was asked. Beside them, by call, the largest numerator, without its
/// sign, and the largest exponent of the words that were equal to the Rust's.
#[derive(Default, Clone)]
pub struct Counts(pub BTreeMap<&'static str, (u64, u64, BTreeMap<String, u64>)>, pub BTreeMap<&'static str, (i64, i64)>);

impl Counts {
    pub fn add(&mut self, call: &'static str, rust: bool, reply: impl ToString) {
        let n = self.0.entry(call).or_default();
        if rust {
            n.0 += 1;
        } else {
            n.1 += 1;
        }
        *n.2.entry(format!("{:>3}", reply.to_string())).or_default() += 1;
    }
    fn larger(&mut self, call: &'static str, (n, e): (i64, i64)) {
        let largest = self.1.entry(call).or_default();
        *largest = (largest.0.max(n), largest.1.max(e));
    }
    pub fn met(&mut self, call: &'static str, entries: &[i64]) {
        let cells = || entries.chunks_exact(5);
        let n = cells().flat_map(|x| &x[..4]).map(|n| n.abs()).max();
        self.larger(call, (n.unwrap_or(0), cells().map(|x| x[4]).max().unwrap_or(0)));
    }
    /// Of the records of a channel, whose blocks have so many rows.
    pub fn met_records(&mut self, call: &'static str, words: &[i64], side: usize) {
        for record in words[HEADER..].chunks_exact(record_words(side)) {
            self.larger(call, (record[HEAD..].iter().map(|n| n.abs()).max().unwrap_or(0), record[EXPONENT]));
        }
    }
    pub fn join(&mut self, other: &Counts) {
        for (call, n) in &other.0 {
            let sum = self.0.entry(call).or_default();
            sum.0 += n.0;
            sum.1 += n.1;
            for (reply, m) in &n.2 {
                *sum.2.entry(reply.clone()).or_default() += m;
            }
        }
        for (call, largest) in &other.1 {
            self.larger(call, *largest);
        }
    }
    pub fn total(&self) -> u64 {
        self.0.values().map(|n| n.0 + n.1).sum()
    }
}

#[derive(Clone, Debug, PartialEq)]
pub enum Operation {
    Integer(i64),
    Zero,
    I,
    InvSqrtTwo,
    Omega(u32),
    Neg([i64; 5]),
    Conj([i64; 5]),
    Half([i64; 5]),
    Add([i64; 5], [i64; 5]),
    Mul([i64; 5], [i64; 5]),
}

/// An edit of a kept circuit.
#[derive(Clone, Debug, PartialEq)]
pub enum Edit {
    Append([u32; 5]),
    Remove,
    Replace(usize, [u32; 5]),
}

/// A word of a kept circuit set to a value, or fewer words lent.
#[derive(Clone, Debug, PartialEq)]
pub enum Damage {
    Set(usize, i64),
    Cut(usize),
}

/// An input. `more` and `less` are words lent beyond what is asked for, or fewer, as pairs for result and work.
#[derive(Clone, Debug, PartialEq)]
pub enum Case {
    /// circuit_channel, then classical_blocks, povm_effects, lookup and compare with itself on what it left.
    Channel { words: Words, limits: [u64; 6], extra: (i64, i64) },
    Unitary { words: Words, limits: [u64; 6], extra: (i64, i64) },
    /// layered_channel and its verdict alone, beside circuit_channel on the gate list; then the same with the gates of each layer shuffled, by a seed, and compare of the two.
    Layers { words: Words, ends: Vec<u32>, limits: [u64; 6], extra: (i64, i64), shuffle: u64 },
    /// plain_channel and its verdict alone, beside circuit_channel.
    Plain { words: Words, limits: [u64; 6], extra: (i64, i64) },
    /// judge_schedule; of a schedule that it accepts, both channels and their comparison in both orders.
    Schedule { words: Words, new: Vec<u32>, table: Vec<u32> },
    /// A circuit kept in so many words: started, edited, and after each edit counted afresh and judged; then each of the damages alone, followed by every call.
    Kept { words: Words, size: usize, edits: Vec<Edit>, limits: [u64; 6], lent: (usize, usize), damages: Vec<Damage>, last: Edit },
    /// pauli_verdict, pauli_channel and the Rust's pbc_channel.
    Program { program: Program, limits: [u64; 6], extra: (i64, i64) },
    /// compare_list on so many pairs in words and bytes, with words lent for both channels and the work, and for answers and scalars.
    WorkList { count: usize, words: Vec<u32>, stores: Vec<u8>, limits: [u64; 6], allowance: u64, rooms: (usize, usize, usize), places: (usize, usize) },
    /// The channels of two circuits, compared in both orders.
    Compare { left: Words, right: Words },
    /// compare (both orders), classical_blocks, povm_effects and lookup on words of any kind: those of two circuits' channels with blocks set to zero, blocks at an exponent that is one too
    /// large, and words set to values.
    Damaged { left: Words, right: Words, blanks: Vec<(bool, u64)>, doubled: Vec<(bool, u64)>, sets: Vec<(bool, u64, i64)>, cut: u64, store: Vec<u8>, short: u64 },
    /// A channel and its words in a form that keeps less, each with damages, written and read, with words more or less than the result needs.
    Forms { origin: Origin, form: Form, hurts: Vec<Hurt>, kept_hurts: Vec<Hurt>, extra: i64 },
    /// The phase test on the unitaries of two circuits, the right one times a scalar, with words set to values.
    Phase { left: Words, right: Words, scale: [i64; 5], sets: Vec<(bool, u64, i64)>, dims: (usize, usize), cut: u64 },
    Scalar(Operation),
}

type Fault = Result<(), String>;

pub fn same<T: PartialEq + std::fmt::Debug>(what: &str, got: T, want: T, source: &str) -> Fault {
    if got == want { Ok(()) } else { Err(format!("{what}: the archive {got:?}, {source} {want:?}")) }
}

/// The first place where words differ.
pub fn same_words(what: &str, got: &[i64], want: &[i64], source: &str) -> Fault {
    if got == want {
        return Ok(());
    }
    match got.iter().zip(want).position(|(x, y)| x != y) {
        Some(i) => Err(format!("{what}, word {i}: the archive {}, {source} {}", got[i], want[i])),
        None => Err(format!("{what}: the archive has {} words, {source} {}", got.len(), want.len())),
    }
}

// ---- document 01's rules, as far as they say whether the Rust can be asked

pub const WIDEST: i64 = 1 << 61;
pub const NARROW: i64 = 1 << 29;
pub const NARROW_EXPONENT: i64 = 29;
pub const MAX_WEIGHT: usize = 56;

fn well_formed(x: &[i64]) -> bool {
    x[..4].iter().all(|n| (-WIDEST..=WIDEST).contains(n)) && (0..=60).contains(&x[4]) && (x[4] == 0 || x[..4].iter().any(|n| n & 1 == 1))
}
fn narrow(x: &[i64]) -> bool {
    x[..4].iter().all(|n| (-NARROW..=NARROW).contains(n)) && x[4] <= NARROW_EXPONENT
}
/// The words of an exact number, where it is in range.
fn fitting(s: &Scalar) -> Option<[i64; 5]> {
    rust::cell(s).filter(|w| well_formed(w))
}
fn qubit_words(kind: u32) -> usize {
    match kind {
        10 | 11 | 26 => 3,
        8 | 9 | 19..=25 => 2,
        _ => 1,
    }
}
/// Question 4 for every gate, with question 2: the Rust's gates are always so.
fn gates_well_formed(gates: &[u32]) -> bool {
    let well = |g: &[u32]| {
        let used = qubit_words(g[0]) + (g[0] == 12) as usize;
        g[0] <= 26 && g[4] <= if g[0] == 7 { 8 } else { 0 } && g[1 + used..4].iter().all(|w| *w == 0)
    };
    gates.len() % 5 == 0 && gates.chunks_exact(5).all(well)
}
pub fn weight(gates: &[u32]) -> usize {
    gates.chunks(5).filter(|g| matches!(g[0], 0 | 16 | 25)).count()
}

// ---- the calls, with buffers lent and looked after

#[derive(PartialEq, Debug)]
struct Reply {
    verdict: u32,
    index: u64,
    result: Vec<i64>,
    work: Vec<i64>,
}

/// The words lent to circuit_channel or circuit_unitary: as many as are asked for, and `extra`.
pub fn lengths(need: (usize, usize), extra: (i64, i64)) -> (usize, usize) {
    let of = |n: usize, e: i64| (n as i64 + e).max(0) as usize;
    (of(need.0, extra.0), of(need.1, extra.1))
}

/// Sizes are only meaningful for circuits within the limits; others get a few words.
fn need(w: &Words, unitary: bool) -> (usize, usize) {
    if w.qubits > if unitary { 5 } else { 4 } || w.splits().0 > 6 {
        (64, 64)
    } else if unitary {
        w.unitary_sizes()
    } else {
        w.channel_sizes()
    }
}

/// A call on a circuit; a layered one has its ends.
#[derive(Clone, Copy)]
enum Ask<'a> {
    Channel,
    Layered(&'a [u32]),
    Plain,
    Unitary,
}

fn circuit_call(calls: &Calls, ask: Ask, w: &Words, limits: &[u64; 6], extra: (i64, i64)) -> Result<Reply, String> {
    let unitary = matches!(ask, Ask::Unitary);
    let need = need(w, unitary);
    let (result_words, work_words) = lengths(need, extra);
    let mut rng = Rng(w.gates.iter().fold(w.qubits as u64, |h, g| h.wrapping_mul(31).wrapping_add(*g as u64)));
    let store = Lent::holding(&mut rng, &w.store);
    let gates = Lent::holding(&mut rng, &w.gates);
    let ends = Lent::holding(&mut rng, if let Ask::Layered(ends) = ask { ends } else { &[] });
    let lent_limits = Lent::holding(&mut rng, limits);
    let mut result = Lent::<i64>::noise(&mut rng, result_words);
    let mut work = Lent::<i64>::noise(&mut rng, work_words);
    let mut index = Lent::<u64>::noise(&mut rng, 1);
    let verdict = unsafe {
        match ask {
            Ask::Unitary => (calls.circuit_unitary)(w.qubits, gates.ptr(), gates.len(), lent_limits.ptr(), result.mut_ptr(), result.len(),
                work.mut_ptr(), work.len(), index.mut_ptr()),
            Ask::Layered(_) => (calls.layered_channel)(w.qubits, w.bits, store.ptr(), store.len(), gates.ptr(), gates.len(), ends.ptr(), ends.len(),
                lent_limits.ptr(), result.mut_ptr(), result.len(), work.mut_ptr(), work.len(), index.mut_ptr()),
            Ask::Plain => (calls.plain_channel)(w.qubits, w.bits, store.ptr(), store.len(), gates.ptr(), gates.len(), lent_limits.ptr(),
                result.mut_ptr(), result.len(), work.mut_ptr(), work.len(), index.mut_ptr()),
            Ask::Channel => (calls.circuit_channel)(w.qubits, w.bits, store.ptr(), store.len(), gates.ptr(), gates.len(), lent_limits.ptr(),
                result.mut_ptr(), result.len(), work.mut_ptr(), work.len(), index.mut_ptr()),
        }
    };
    if matches!(ask, Ask::Layered(_) | Ask::Plain) {
        // the verdict alone, of buffers of these lengths
        let mut alone = Lent::<u64>::noise(&mut rng, 1);
        let number = unsafe {
            match ask {
                Ask::Plain => (calls.plain_verdict)(w.qubits, w.bits, store.ptr(), store.len(), gates.ptr(), gates.len(), lent_limits.ptr(), result_words,
                    work_words, alone.mut_ptr()),
                _ => (calls.layered_verdict)(w.qubits, w.bits, store.ptr(), store.len(), gates.ptr(), gates.len(), ends.ptr(), ends.len(),
                    lent_limits.ptr(), result_words, work_words, alone.mut_ptr()),
            }
        };
        if (number, alone.words()[0]) != (verdict, index.words()[0]) || !alone.edges_kept() {
            return Err(format!("{}: replies {verdict} at {}, and the verdict alone is {number} at {}", calls.name, index.words()[0], alone.words()[0]));
        }
    }
    if !(store.kept() && gates.kept() && ends.kept() && lent_limits.kept()) {
        return Err(format!("{}: an input has changed", calls.name));
    }
    if !(result.edges_kept() && work.edges_kept() && index.edges_kept()) {
        return Err(format!("{}: words outside a buffer have changed", calls.name));
    }
    if verdict != 0 && !(result.kept() && work.kept()) {
        return Err(format!("{}: refused with {verdict}, and a buffer has changed", calls.name));
    }
    if verdict == 0 {
        if work.words()[..need.1].iter().any(|w| *w != 0) || work.words()[need.1..] != work.words_before()[need.1..] {
            return Err(format!("{}: work words are not as they should be", calls.name));
        }
        let used = if unitary { need.0 } else { rust::channel_words(1 << w.qubits, result.words()[2].clamp(0, 64) as usize) };
        if used > result.len() || result.words()[used..] != result.words_before()[used..] {
            return Err(format!("{}: words behind the result have changed", calls.name));
        }
        return Ok(Reply { verdict, index: index.words()[0], result: result.words()[..used].to_vec(), work: Vec::new() });
    }
    Ok(Reply { verdict, index: index.words()[0], result: Vec::new(), work: Vec::new() })
}

/// The archive's reply, after a comparison with the plain C version's.
fn both(ask: Ask, w: &Words, limits: &[u64; 6], extra: (i64, i64)) -> Result<Reply, String> {
    let got = circuit_call(&ARCHIVE, ask, w, limits, extra)?;
    let want = circuit_call(&PLAIN, ask, w, limits, extra)?;
    same("verdict and index", (got.verdict, got.index), (want.verdict, want.index), "plain C")?;
    same_words("result", &got.result, &want.result, "plain C")?;
    Ok(got)
}

/// The verdict due where the Rust accepts: the questions that it does not ask.
fn added(w: &Words, limits_need: (usize, usize), extra: (i64, i64)) -> u32 {
    let lent = lengths(limits_need, extra);
    if weight(&w.gates) > MAX_WEIGHT {
        7
    } else if lent.0 < limits_need.0 || lent.1 < limits_need.1 {
        8
    } else {
        0
    }
}

fn askable(w: &Words, limits: &[u64]) -> bool {
    gates_well_formed(&w.gates) && limits.iter().zip(&CEILINGS).all(|(l, c)| l <= c) && weight(&w.gates) <= MAX_WEIGHT
}

/// Whether the Rust can be asked for a channel.
fn channel_askable(w: &Words, limits: &[u64]) -> bool {
    askable(w, limits) && w.store.iter().all(|b| *b <= 1)
}

/// The archive's reply to circuit_channel and, where it accepts, the Rust's channel, equal.
fn channel_reply(w: &Words, limits: &[u64; 6], extra: (i64, i64), counts: &mut Counts) -> Result<(Reply, Option<Channel>), String> {
    let got = both(Ask::Channel, w, limits, extra)?;
    let ask = channel_askable(w, limits);
    counts.add("circuit_channel", ask && got.verdict != 8, got.verdict);
    if !ask {
        return if got.verdict == 0 { Err("accepted, where the Rust cannot be asked".into()) } else { Ok((got, None)) };
    }
    match rust::circuit_channel(&w.circuit().unwrap(), &w.store, limits) {
        Err(e) => same("verdict and index", (got.verdict, got.index), rust::refusal(e), "the Rust").map(|_| (got, None)),
        Ok(c) => {
            same("verdict and index", (got.verdict, got.index), (added(w, need(w, false), extra), 0), "document 01")?;
            if got.verdict != 0 {
                return Ok((got, None));
            }
            let side = 1 << (2 * w.qubits);
            let order: Vec<u64> = (0..got.result[2] as usize).map(|j| store_at(&got.result, HEADER + j * record_words(side))).collect();
            let want = rust::layout(c.quantum_dim, c.num_cbits, &order, c.blocks.iter())
                .ok_or_else(|| format!("stores: the archive {order:?}, the Rust {:?}", c.blocks.keys().collect::<Vec<_>>()))?;
            same_words("channel", &got.result, &want, "the Rust")?;
            counts.met_records("circuit_channel", &got.result, side);
            Ok((got, Some(c)))
        }
    }
}

/// The archive's channel and the Rust's, equal; None where it is refused.
fn channel(w: &Words, limits: &[u64; 6], extra: (i64, i64), counts: &mut Counts) -> Result<Option<(Vec<i64>, Channel)>, String> {
    channel_reply(w, limits, extra, counts).map(|(got, c)| c.map(|c| (got.result, c)))
}

pub fn store_at(words: &[i64], at: usize) -> u64 {
    words[at + 1] as u64 | (words[at + 2] as u64) << 32
}

fn unitary(w: &Words, limits: &[u64; 6], extra: (i64, i64), counts: &mut Counts) -> Fault {
    let got = both(Ask::Unitary, w, limits, extra)?;
    let ask = askable(w, &limits[..4]);
    counts.add("circuit_unitary", ask && got.verdict != 8, got.verdict);
    if !ask {
        return if got.verdict == 0 { Err("accepted, where the Rust cannot be asked".into()) } else { Ok(()) };
    }
    match rust::circuit_unitary(&w.circuit().unwrap(), limits) {
        Err(e) => same("verdict and index", (got.verdict, got.index), rust::refusal(e), "the Rust"),
        Ok(m) => {
            same("verdict and index", (got.verdict, got.index), (added(w, need(w, true), extra), 0), "document 01")?;
            if got.verdict != 0 {
                return Ok(());
            }
            same_words("unitary", &got.result, &rust::cells(&m).unwrap(), "the Rust")?;
            counts.met("circuit_unitary", &got.result);
            Ok(())
        }
    }
}

// ---- layers

/// The gates of the plain-gate profile, by their kinds, and the turns of rz.
pub fn in_profile(g: &[u32]) -> bool {
    matches!((g[0], g[4]), (0..=4 | 8 | 9 | 12 | 13 | 15 | 16 | 19 | 20, _) | (7, 0 | 2 | 4 | 6))
}

/// Number and index of the first of questions 1 to 6, and 23 where a profile is asked for, that is answered by no.
fn words_due(w: &Words, limits: &[u64; 6], profile: bool) -> Option<(u32, u64)> {
    if limits.iter().zip(&CEILINGS).any(|(l, c)| l > c) {
        Some((6, 0))
    } else if w.gates.len() % 5 != 0 {
        Some((5, 0))
    } else if w.gates.len() as u64 / 5 > limits[3] {
        Some((1, 0))
    } else {
        w.gates.chunks_exact(5).zip(0..).find_map(|(g, i)| {
            let outside = profile && !in_profile(g);
            gate_due(g, w).or(outside.then_some(23)).map(|v| (v, i))
        })
    }
}

/// 5, 3 or 2, by questions 4 to 6 of a gate.
fn gate_due(g: &[u32], w: &Words) -> Option<u32> {
    let able = !matches!(g[0], 14 | 17 | 18 | 21..=24) && !(g[0] == 7 && g[4] == 8);
    placing_due(g, w).or((!able).then_some(2))
}

/// 5 or 3, by questions 4 and 5 of a gate.
fn placing_due(g: &[u32], w: &Words) -> Option<u32> {
    let qubits = || g[1..1 + qubit_words(g[0])].iter();
    if !gates_well_formed(g) {
        Some(5)
    } else {
        let apart = qubits().collect::<HashSet<_>>().len() == qubits().len();
        (qubits().any(|q| *q >= w.qubits) || !apart || (g[0] == 12 && g[2] >= w.bits)).then_some(3)
    }
}

/// The qubits and bits that a gate uses.
fn wires(g: &[u32]) -> Vec<(&'static str, u32)> {
    let mut own: Vec<(&str, u32)> = g[1..1 + qubit_words(g[0])].iter().map(|q| ("qubit", *q)).collect();
    if g[0] == 12 {
        own.push(("bit", g[2]));
    }
    own
}

/// 11 or 12 with its index. The qubits and bits that a layer uses are gathered; the first gate that finds one of its own among them clashes.
fn layers_due(gates: &[u32], ends: &[u32]) -> Option<(u32, u64)> {
    let edges: Vec<usize> = std::iter::once(0).chain(ends.iter().map(|e| *e as usize)).collect();
    if edges.windows(2).any(|e| e[0] >= e[1]) || edges[ends.len()] != gates.len() / 5 {
        return Some((11, 0));
    }
    for layer in edges.windows(2) {
        let mut used = HashSet::new();
        for i in layer[0]..layer[1] {
            let own = wires(&gates[5 * i..5 * i + 5]);
            if own.iter().any(|u| used.contains(u)) {
                return Some((12, i as u64));
            }
            used.extend(own);
        }
    }
    None
}

/// The archive's reply to layered_channel: the first refusal that is due, or circuit_channel's of the gate list, with its words. Also the Rust's channel.
fn layered(w: &Words, ends: &[u32], limits: &[u64; 6], extra: (i64, i64), counts: &mut Counts) -> Result<(Reply, Option<Channel>), String> {
    let (list, c) = channel_reply(w, limits, extra, counts)?;
    let got = both(Ask::Layered(ends), w, limits, extra)?;
    let words = words_due(w, limits, false);
    if let Some(due) = words {
        same("circuit_channel", (list.verdict, list.index), due, "document 01")?;
    }
    let due = words.or_else(|| layers_due(&w.gates, ends)).unwrap_or((list.verdict, list.index));
    let rust = channel_askable(w, limits) && got.verdict <= 4;
    counts.add("layered_channel", rust, got.verdict);
    counts.add("layered_verdict", rust, got.verdict);
    same("layered_channel", (got.verdict, got.index), due, "the rules of layers")?;
    if got.verdict == 0 {
        same_words("layered channel", &got.result, &list.result, "circuit_channel")?;
    }
    Ok((got, c))
}

/// The gates of each layer in another order. The layer of a gate is how many ends it has passed, whatever they are; a list that is no list of gates has only itself.
fn shuffled(gates: &[u32], ends: &[u32], rng: &mut Rng) -> Vec<u32> {
    if gates.len() % 5 != 0 {
        return gates.to_vec();
    }
    let mut order: Vec<usize> = (0..gates.len() / 5).collect();
    let layer: Vec<usize> = order.iter().map(|i| ends.iter().filter(|e| **e as usize <= *i).count()).collect();
    for i in (0..order.len()).rev() {
        let first = layer.partition_point(|l| *l < layer[i]);
        order.swap(i, first + rng.below((i - first + 1) as u64) as usize);
    }
    order.iter().flat_map(|i| gates[5 * i..5 * i + 5].to_vec()).collect()
}

fn layers(w: &Words, ends: &[u32], limits: &[u64; 6], extra: (i64, i64), shuffle: u64, counts: &mut Counts) -> Fault {
    let other = Words { gates: shuffled(&w.gates, ends, &mut Rng(shuffle)), ..w.clone() };
    let (x, a) = layered(w, ends, limits, extra, counts)?;
    let (y, b) = layered(&other, ends, limits, extra, counts)?;
    // a refusal that names a gate may be another one's; every other is the same
    let shown = |r: &Reply| if matches!(r.verdict, 2 | 3 | 5 | 12) { (12, 0) } else { (r.verdict, r.index) };
    same("shuffled layers", shown(&y), shown(&x), "the layers in order")?;
    if x.verdict != 0 {
        return Ok(());
    }
    let (Some(a), Some(b)) = (a, b) else { return Err("accepted, where the Rust has no channel".into()) };
    same_channel("compare of shuffled layers", (&x, &a), (&y, &b), counts)
}

// ---- the plain-gate profile

/// The archive's reply to plain_channel: the first refusal that is due, or circuit_channel's, with its words, which have no √2 part.
fn profile(w: &Words, limits: &[u64; 6], extra: (i64, i64), counts: &mut Counts) -> Fault {
    let (list, _) = channel_reply(w, limits, extra, counts)?;
    let got = both(Ask::Plain, w, limits, extra)?;
    let due = words_due(w, limits, true).unwrap_or((list.verdict, list.index));
    let rust = channel_askable(w, limits) && got.verdict <= 4;
    counts.add("plain_channel", rust, got.verdict);
    counts.add("plain_verdict", rust, got.verdict);
    same("plain_channel", (got.verdict, got.index), due, "the rules of the profile")?;
    if got.verdict == 0 {
        same_words("plain channel", &got.result, &list.result, "circuit_channel")?;
        let size = record_words(1 << (2 * w.qubits));
        let entries = || got.result[HEADER..].chunks_exact(size).flat_map(|record| record[HEAD..].chunks_exact(NUMERATORS));
        if entries().any(|e| e[1] != 0 || e[3] != 0) {
            return Err("plain_channel: an entry has a √2 part".into());
        }
    }
    Ok(())
}

/// Two channels are the same, whichever is on the left.
fn same_channel(what: &str, x: (&Reply, &Channel), y: (&Reply, &Channel), counts: &mut Counts) -> Fault {
    for (l, r) in [(x, y), (y, x)] {
        compare(&l.0.result, &r.0.result, Ok((l.1, r.1)), counts)?;
        same(what, compare_call(&ARCHIVE, &l.0.result, &r.0.result)?.0, 100, "the schedule rule")?;
    }
    Ok(())
}

// ---- schedules

/// The verdict that is due. Each qubit and bit keeps the latest old position of the new gates that have used it, and the next such gate must come behind that.
fn schedule_due(w: &Words, new: &[u32], table: &[u32]) -> (u32, u64) {
    let list = |gates: &[u32]| {
        if gates.len() % 5 != 0 {
            return Some((5, 0));
        }
        gates.chunks_exact(5).zip(0..).find_map(|(g, i)| placing_due(g, w).map(|v| (v, i)))
    };
    if let Some(due) = list(&w.gates).or_else(|| list(new)) {
        return due;
    }
    let old: Vec<&[u32]> = w.gates.chunks_exact(5).collect();
    if new.len() != w.gates.len() || table.len() != old.len() {
        return (15, 0);
    }
    let (mut used, mut latest) = (HashSet::new(), HashMap::new());
    for (i, (g, k)) in new.chunks_exact(5).zip(table).enumerate() {
        let own = wires(g);
        if old.get(*k as usize) != Some(&g) || !used.insert(k) || own.iter().any(|u| latest.get(u).is_some_and(|l| *l > k)) {
            return (15, i as u64);
        }
        latest.extend(own.into_iter().map(|u| (u, k)));
    }
    (0, 0)
}

fn schedule_call(calls: &Calls, w: &Words, new: &[u32], table: &[u32]) -> Result<(u32, u64), String> {
    let mut rng = Rng(table.len() as u64);
    let (old, new, table) = (Lent::holding(&mut rng, &w.gates), Lent::holding(&mut rng, new), Lent::holding(&mut rng, table));
    let mut index = Lent::<u64>::noise(&mut rng, 1);
    let verdict = unsafe {
        (calls.judge_schedule)(w.qubits, w.bits, old.ptr(), old.len(), new.ptr(), new.len(), table.ptr(), table.len(), index.mut_ptr())
    };
    if !(old.kept() && new.kept() && table.kept() && index.edges_kept()) {
        return Err(format!("{}: judge_schedule changed other words than its reply's", calls.name));
    }
    Ok((verdict, index.words()[0]))
}

fn schedule(w: &Words, new: &[u32], table: &[u32], counts: &mut Counts) -> Fault {
    let got = schedule_call(&ARCHIVE, w, new, table)?;
    counts.add("judge_schedule", false, got.0);
    same("judge_schedule", got, schedule_call(&PLAIN, w, new, table)?, "plain C")?;
    same("judge_schedule", got, schedule_due(w, new, table), "the rules of schedules")?;
    if got.0 != 0 {
        return Ok(());
    }
    let other = Words { gates: new.to_vec(), ..w.clone() };
    let ((x, a), (y, b)) = (channel_reply(w, &CEILINGS, (0, 0), counts)?, channel_reply(&other, &CEILINGS, (0, 0), counts)?);
    // an unsupported gate may stand elsewhere; every other reply is the same
    let shown = |r: &Reply| if r.verdict == 2 { (2, 0) } else { (r.verdict, r.index) };
    same("circuit_channel of a schedule", shown(&y), shown(&x), "its original")?;
    if x.verdict != 0 {
        return Ok(());
    }
    let (Some(a), Some(b)) = (a, b) else { return Err("accepted, where the Rust has no channel".into()) };
    same_channel("compare of a schedule", (&x, &a), (&y, &b), counts)
}

// ---- circuits kept with their counts

pub const KEPT_HEAD: usize = 70;

/// The words of a gate list, counted afresh.
fn kept_words(w: &Words, gates: &[[u32; 5]], size: usize) -> Vec<i64> {
    let mut out = vec![0; size];
    let number = |p: &dyn Fn(&[u32; 5]) -> bool| gates.iter().filter(|g| p(g)).count() as i64;
    (out[0], out[1], out[2]) = (w.qubits as i64, w.bits as i64, gates.len() as i64);
    (out[3], out[4]) = (number(&|g| matches!(g[0], 0 | 16 | 25)), number(&|g| matches!(g[0], 12 | 13)));
    for b in 0..64 {
        out[6 + b as usize] = number(&|g| g[0] == 12 && g[2] == b);
    }
    out[5] = out[6..KEPT_HEAD].iter().filter(|n| **n != 0).count() as i64;
    out[KEPT_HEAD..].iter_mut().zip(gates.concat()).for_each(|(x, g)| *x = g as i64);
    out
}

/// The counts may be those of a circuit.
fn kept_sound(l: &[i64]) -> bool {
    let places = || (l.len() as i64 - KEPT_HEAD as i64) / 5;
    let up_to = |x: i64, top: i64| (0..=top).contains(&x);
    l.len() >= KEPT_HEAD && up_to(l[0], 5) && up_to(l[1], 64) && up_to(l[2], places().min(1024)) && l[3..KEPT_HEAD].iter().all(|n| up_to(*n, l[2]))
}

/// The reply that is due to an edit of any words, by the words of the request.
fn edit_due(l: &[i64], edit: &Edit) -> (u32, u64) {
    if !kept_sound(l) {
        return (25, 0);
    }
    let w = Words { qubits: l[0] as u32, bits: l[1] as u32, store: vec![], gates: vec![] };
    let count = l[2] as usize;
    let judged = |g: &[u32], i: usize| gate_due(g, &w).map_or((0, 0), |v| (v, i as u64));
    // 25 or 21, of the gate that is taken out
    let taken = |i: usize| {
        let Some(at) = (i < count).then_some(KEPT_HEAD + 5 * i) else { return Some((21, 0)) };
        let g: Option<Vec<u32>> = l[at..at + 5].iter().map(|x| u32::try_from(*x).ok()).collect();
        let less = |g: &[u32]| {
            let bit = g[0] == 12;
            let measures = if bit { l[6 + g[2] as usize] } else { 0 };
            l[3] >= matches!(g[0], 0 | 16 | 25) as i64 && l[4] >= matches!(g[0], 12 | 13) as i64 && measures >= bit as i64 && l[5] >= (bit && measures == 1) as i64
        };
        (!g.is_some_and(|g| gate_due(&g, &w).is_none() && less(&g))).then_some((25, 0))
    };
    match edit {
        Edit::Append(g) if count < 1024.min((l.len() - KEPT_HEAD) / 5) => judged(g, count),
        Edit::Append(_) => (20, 0),
        Edit::Remove => taken(count.saturating_sub(1)).unwrap_or((0, 0)),
        Edit::Replace(i, g) => taken(*i).unwrap_or_else(|| judged(g, *i)),
    }
}

/// The edit of a gate list.
fn edited(gates: &mut Vec<[u32; 5]>, edit: &Edit) {
    match edit {
        Edit::Append(g) => gates.push(*g),
        Edit::Remove => {
            gates.pop();
        }
        Edit::Replace(i, g) => gates[*i] = *g,
    }
}

fn edit_call(calls: &Calls, l: &[i64], edit: &Edit) -> Result<(u32, u64, Vec<i64>), String> {
    let mut rng = Rng(l.len() as u64);
    let mut words = Lent::holding(&mut rng, l);
    let gate = Lent::<u32>::holding(&mut rng, &match edit {
        Edit::Append(g) | Edit::Replace(_, g) => *g,
        Edit::Remove => [0; 5],
    });
    let mut index = Lent::<u64>::holding(&mut rng, &[0]);
    let verdict = unsafe {
        match edit {
            Edit::Append(_) => (calls.kept_append)(words.mut_ptr(), words.len(), gate.ptr(), index.mut_ptr()),
            Edit::Remove => (calls.kept_remove)(words.mut_ptr(), words.len()),
            Edit::Replace(i, _) => (calls.kept_replace)(words.mut_ptr(), words.len(), *i, gate.ptr(), index.mut_ptr()),
        }
    };
    if !(words.edges_kept() && gate.kept() && index.edges_kept()) {
        return Err(format!("{}: an edit changed other words than its own", calls.name));
    }
    if verdict != 0 && !words.kept() {
        return Err(format!("{}: an edit refused with {verdict} changed words", calls.name));
    }
    Ok((verdict, index.words()[0], words.words().to_vec()))
}

/// The verdict, and the gates copied out into a buffer of so many words.
fn kept_asked(calls: &Calls, l: &[i64], store: &[u8], limits: &[u64; 6], lent: (usize, usize), room: usize) -> Result<(u32, u32, Vec<u32>), String> {
    let mut rng = Rng(l.len() as u64);
    let (words, store, limits) = (Lent::holding(&mut rng, l), Lent::holding(&mut rng, store), Lent::holding(&mut rng, limits));
    let mut out = Lent::<u32>::noise(&mut rng, room);
    let verdict = unsafe { (calls.kept_verdict)(words.ptr(), words.len(), store.ptr(), store.len(), limits.ptr(), lent.0, lent.1) };
    let copied = unsafe { (calls.kept_gates)(words.ptr(), words.len(), out.mut_ptr(), out.len()) };
    if !(words.kept() && store.kept() && limits.kept() && out.edges_kept() && (copied == 0 || out.kept())) {
        return Err(format!("{}: a question of a kept circuit changed other words than its reply's", calls.name));
    }
    Ok((verdict, copied, out.words().to_vec()))
}

fn kept(case: &Case, counts: &mut Counts) -> Fault {
    let Case::Kept { words: w, size, edits, limits, lent, damages, last } = case else { unreachable!() };
    let start = |calls: &Calls| {
        let mut words = Lent::<i64>::noise(&mut Rng(*size as u64), *size);
        let verdict = unsafe { (calls.kept_start)(w.qubits, w.bits, words.mut_ptr(), words.len()) };
        if !words.edges_kept() || (verdict != 0 && !words.kept()) {
            return Err(format!("{}: kept_start changed other words than its own", calls.name));
        }
        Ok((verdict, words.words().to_vec()))
    };
    let (began, mut l) = start(&ARCHIVE)?;
    counts.add("kept_start", false, began);
    same("kept_start", &(began, l.clone()), &start(&PLAIN)?, "plain C")?;
    same("kept_start", began, if w.qubits > 5 || w.bits > 64 { 1 } else if *size < KEPT_HEAD { 8 } else { 0 }, "the request")?;
    if began != 0 {
        return Ok(());
    }
    same_words("kept_start", &l, &kept_words(w, &[], *size), "counting afresh")?;
    let mut gates: Vec<[u32; 5]> = vec![];
    for edit in edits {
        let got = edit_call(&ARCHIVE, &l, edit)?;
        counts.add("kept edits", false, got.0);
        same("a kept edit", &got, &edit_call(&PLAIN, &l, edit)?, "plain C")?;
        same("a kept edit", (got.0, got.1), edit_due(&l, edit), "the request")?;
        if got.0 == 25 {
            return Err("25, of words that the calls made".into());
        }
        if got.0 == 0 {
            edited(&mut gates, edit);
        }
        same_words("a kept edit", &got.2, &kept_words(w, &gates, *size), "counting afresh")?;
        l = got.2;
        let (verdict, copied, out) = kept_asked(&ARCHIVE, &l, &w.store, limits, *lent, 5 * gates.len())?;
        counts.add("kept_verdict", false, verdict);
        same("kept_gates", (copied, out), (0, gates.concat()), "the gates")?;
        // of the same gates, each a layer of its own
        let (flat, ends) = (gates.concat(), (1..=gates.len() as u32).collect::<Vec<_>>());
        let afresh = unsafe {
            (ARCHIVE.layered_verdict)(w.qubits, w.bits, w.store.as_ptr(), w.store.len(), flat.as_ptr(), flat.len(), ends.as_ptr(), ends.len(), limits.as_ptr(), lent.0, lent.1, &mut 0)
        };
        same("kept_verdict", verdict, afresh, "the verdict of counting afresh")?;
    }
    for damage in damages {
        let mut hurt = l.clone();
        match damage {
            Damage::Set(at, value) if *at < hurt.len() => hurt[*at] = *value,
            Damage::Set(..) => {}
            Damage::Cut(by) => hurt.truncate(hurt.len().saturating_sub(*by)),
        }
        for edit in [last, &Edit::Remove, &Edit::Append([1, 0, 0, 0, 0])] {
            let got = edit_call(&ARCHIVE, &hurt, edit)?;
            counts.add("kept edits, damaged words", false, got.0);
            same("an edit of damaged words", (got.0, got.1), edit_due(&hurt, edit), "the request")?;
            same("an edit of damaged words", got, edit_call(&PLAIN, &hurt, edit)?, "plain C")?;
        }
        let room = (5 * gates.len()).saturating_sub(hurt.len() % 2);
        let got = kept_asked(&ARCHIVE, &hurt, &w.store, limits, *lent, room)?;
        counts.add("kept_verdict, damaged words", false, got.0);
        same("a question of damaged words", got.0 == 25, !kept_sound(&hurt), "the request")?;
        same("a question of damaged words", got, kept_asked(&PLAIN, &hurt, &w.store, limits, *lent, room)?, "plain C")?;
    }
    Ok(())
}

// ---- lists of pairs

/// What compare_list replies and leaves: verdict, index and total; left, right and work; answers and scalars.
#[derive(PartialEq, Debug)]
struct Listed(u32, u64, u64, [Vec<i64>; 3], Vec<u64>, Vec<i64>);

type List<'a> = (usize, &'a [u32], &'a [u8], &'a [u64; 6], u64, (usize, usize, usize), (usize, usize));

/// The noise that the five buffers hold is the same for each call.
fn list_buffers(rooms: (usize, usize, usize), places: (usize, usize)) -> ([Lent<i64>; 3], Lent<u64>, Lent<i64>) {
    let mut rng = Rng(rooms.0 as u64 + places.0 as u64);
    ([rooms.0, rooms.1, rooms.2].map(|n| Lent::noise(&mut rng, n)), Lent::noise(&mut rng, places.0), Lent::noise(&mut rng, places.1))
}

fn list_call(calls: &Calls, (count, words, stores, limits, allowance, rooms, places): List) -> Result<Listed, String> {
    let mut rng = Rng(count as u64);
    let ([mut left, mut right, mut work], mut answers, mut scalars) = list_buffers(rooms, places);
    let (words, stores) = (Lent::holding(&mut rng, words), Lent::holding(&mut rng, stores));
    let (mut total, mut index) = (Lent::<u64>::noise(&mut rng, 1), Lent::<u64>::noise(&mut rng, 1));
    let verdict = unsafe {
        (calls.compare_list)(count, words.ptr(), words.len(), stores.ptr(), stores.len(), limits.as_ptr(), allowance, left.mut_ptr(), left.len(), right.mut_ptr(), right.len(),
            work.mut_ptr(), work.len(), answers.mut_ptr(), answers.len(), scalars.mut_ptr(), scalars.len(), total.mut_ptr(), index.mut_ptr())
    };
    let edges = [&left, &right, &work, &scalars].iter().all(|b| b.edges_kept()) && answers.edges_kept() && total.edges_kept() && index.edges_kept();
    if !(words.kept() && stores.kept() && edges) {
        return Err(format!("{}: compare_list changed other words than its buffers'", calls.name));
    }
    Ok(Listed(verdict, index.words()[0], total.words()[0], [left, right, work].map(|b| b.words().to_vec()), answers.words().to_vec(), scalars.words().to_vec()))
}

/// The circuits of a list, or the place of the first pair that is not there.
fn list_pairs(count: usize, mut words: &[u32], mut stores: &[u8]) -> Result<Vec<[Words; 2]>, u64> {
    let mut pairs = Vec::new();
    for place in 0..count {
        let head: [u32; 6] = words.get(..6).and_then(|h| h.try_into().ok()).ok_or(place as u64)?;
        words = &words[6..];
        let mut take = |h: &[u32]| -> Option<Words> {
            let (gates, store) = (words.get(..h[2] as usize)?.to_vec(), stores.get(..h[1] as usize)?.to_vec());
            (words, stores) = (&words[h[2] as usize..], &stores[h[1] as usize..]);
            Some(Words { qubits: h[0], bits: h[1], store, gates })
        };
        pairs.push([take(&head[..3]).ok_or(place as u64)?, take(&head[3..]).ok_or(place as u64)?]);
    }
    if words.is_empty() && stores.is_empty() { Ok(pairs) } else { Err(count as u64) }
}

/// Question 8's terms, of an accepted circuit.
pub fn terms(w: &Words) -> u64 {
    let (b, d) = (1u64 << w.splits().0, 1u64 << w.qubits);
    2 * (w.gates.len() as u64 / 5) * b * d.pow(3) + b * d.pow(4)
}

/// The rule of the list, by circuit_channel and compare of the archive, pair by pair and each in buffers of its own.
fn list_due((count, words, stores, limits, allowance, rooms, places): List) -> Result<Listed, String> {
    let ([left, right, work], answers, scalars) = list_buffers(rooms, places);
    let kept = |verdict, index| Ok(Listed(verdict, index, 0, [&left, &right, &work].map(|b| b.words().to_vec()), answers.words().to_vec(), scalars.words().to_vec()));
    if count > 32 {
        return kept(24, 0);
    }
    let pairs = match list_pairs(count, words, stores) {
        Ok(pairs) => pairs,
        Err(place) => return kept(5, place),
    };
    if places.0 < 7 * count || places.1 < 10 * count {
        return kept(8, 0);
    }
    let (mut told, mut numbers, mut spent) = (answers.words().to_vec(), scalars.words().to_vec(), 0u64);
    for (i, pair) in pairs.iter().enumerate() {
        let ask = |w: &Words, room: usize| {
            let (mut result, mut work, mut index) = (vec![0; room], vec![0; rooms.2], 0);
            let verdict = unsafe {
                (ARCHIVE.circuit_channel)(w.qubits, w.bits, w.store.as_ptr(), w.store.len(), w.gates.as_ptr(), w.gates.len(), limits.as_ptr(), result.as_mut_ptr(), room, work.as_mut_ptr(), work.len(), &mut index)
            };
            (verdict, index, result)
        };
        let (l, r) = (ask(&pair[0], rooms.0), ask(&pair[1], rooms.1));
        let refused = [(105, &l), (106, &r)].into_iter().find(|(_, x)| x.0 != 0);
        let (answer, pairs_numbers) = if let Some((side, x)) = refused {
            ([side, 0, 0, 0, 0, x.0 as u64, x.1], [0; 10])
        } else {
            let cost = terms(&pair[0]) + terms(&pair[1]);
            if cost as u128 + spent as u128 > allowance as u128 {
                ([107, cost, 0, 0, 0, 0, 0], [0; 10])
            } else {
                let (reply, place, numbers) = compare_call(&ARCHIVE, &l.2, &r.2)?;
                spent += cost;
                ([reply as u64, cost, place[0], place[1], place[2], 0, 0], numbers)
            }
        };
        told[7 * i..7 * i + 7].copy_from_slice(&answer);
        numbers[10 * i..10 * i + 10].copy_from_slice(&pairs_numbers);
    }
    Ok(Listed(0, 0, spent, [rooms.0, rooms.1, rooms.2].map(|n| vec![0; n]), told, numbers))
}

fn work_list(list: List, counts: &mut Counts) -> Fault {
    let got = list_call(&ARCHIVE, list)?;
    counts.add("compare_list", false, got.0);
    if got.0 == 0 {
        got.4.chunks_exact(7).take(list.0).for_each(|a| counts.add("an answer of compare_list", false, a[0]));
    }
    same("compare_list", &got, &list_call(&PLAIN, list)?, "plain C")?;
    same("compare_list", &got, &list_due(list)?, "the rule of lists")
}

pub fn compare_call(calls: &Calls, left: &[i64], right: &[i64]) -> Result<(u32, [u64; 3], [i64; 10]), String> {
    let mut rng = Rng(left.len() as u64);
    let (left, right) = (Lent::holding(&mut rng, left), Lent::holding(&mut rng, right));
    let (mut place, mut scalars) = (Lent::<u64>::noise(&mut rng, 3), Lent::<i64>::noise(&mut rng, 10));
    let verdict = unsafe { (calls.compare)(left.ptr(), left.len(), right.ptr(), right.len(), place.mut_ptr(), scalars.mut_ptr()) };
    if !(left.kept() && right.kept() && place.edges_kept() && scalars.edges_kept()) {
        return Err(format!("{}: compare changed other words than its reply's", calls.name));
    }
    let reply = (verdict, place.words().try_into().unwrap(), scalars.words().try_into().unwrap());
    if left.words() == right.words() {
        // one buffer on both sides
        let verdict = unsafe { (calls.compare)(left.ptr(), left.len(), left.ptr(), left.len(), place.mut_ptr(), scalars.mut_ptr()) };
        if verdict != reply.0 || place.words() != reply.1 || scalars.words() != reply.2 {
            return Err(format!("{}: compare of a buffer with itself is not that of its copy", calls.name));
        }
    }
    Ok(reply)
}

/// compare against the Rust's answer on both channels, or the refusal of the first that is refused.
fn compare(left: &[i64], right: &[i64], rust: Result<(&Channel, &Channel), u32>, counts: &mut Counts) -> Fault {
    let got = compare_call(&ARCHIVE, left, right)?;
    same("compare", got, compare_call(&PLAIN, left, right)?, "plain C")?;
    counts.add("compare", rust.is_ok(), got.0);
    match rust {
        Ok((x, y)) => same("compare", got, rust::compared(x, y), "the Rust"),
        Err(v) => same("compare", got, (v, [0; 3], [0; 10]), "the documents"),
    }
}

/// classical_blocks and povm_effects with `short` words too few, or enough. The Rust has the transposed effects: for povm_effects its rows and columns are exchanged.
fn effects(words: &[i64], rust: Result<&Channel, u32>, short: usize, counts: &mut Counts) -> Fault {
    let count = words.get(2).map_or(0, |c| (*c).clamp(0, 64) as usize);
    let d = words.first().map_or(1, |d| (*d).clamp(0, 16) as usize);
    let need = HEADER + count * record_words(d);
    for (call, textbook) in [("classical_blocks", false), ("povm_effects", true)] {
        let mut replies = Vec::new();
        for calls in [&ARCHIVE, &PLAIN] {
            let mut rng = Rng(words.len() as u64);
            let channel = Lent::holding(&mut rng, words);
            let mut result = Lent::<i64>::noise(&mut rng, (need + 3).saturating_sub(if short > 0 { short + 3 } else { 0 }));
            let asked = if textbook { calls.povm_effects } else { calls.classical_blocks };
            let verdict = unsafe { asked(channel.ptr(), channel.len(), result.mut_ptr(), result.len()) };
            if !(channel.kept() && result.edges_kept()) || (verdict != 0 && !result.kept()) {
                return Err(format!("{}: {call} changed other words than its result's", calls.name));
            }
            if verdict == 0 && (result.len() < need || result.words()[need..] != result.words_before()[need..]) {
                return Err(format!("{}: {call} changed words behind the effects", calls.name));
            }
            replies.push((verdict, if verdict == 0 { result.words()[..need].to_vec() } else { Vec::new() }));
        }
        same(call, replies[0].0, replies[1].0, "plain C")?;
        same_words(call, &replies[0].1, &replies[1].1, "plain C")?;
        counts.add(call, rust.is_ok() && replies[0].0 == 0, replies[0].0);
        let c = match rust {
            Ok(c) if short == 0 && sums_fit(c) => c,
            refused => {
                let number = refused.map_or_else(|v| v, |_| if short > 0 { 8 } else { 9 });
                same(call, replies[0].0, number, "the documents")?;
                continue;
            }
        };
        same(call, replies[0].0, 0, "the Rust")?;
        let order: Vec<u64> = (0..count).map(|j| store_at(words, HEADER + j * record_words(d * d))).collect();
        let blocks = c.classical_blocks();
        let mut want = rust::layout(d, c.num_cbits, &order, blocks.iter()).ok_or("the Rust has other effects")?;
        if textbook {
            exchange(&mut want, d);
        }
        same_words(call, &replies[0].1, &want, "the Rust")?;
    }
    Ok(())
}

/// Exchanges rows and columns in each record of effects of dimension d.
fn exchange(effects: &mut [i64], d: usize) {
    for record in effects[HEADER..].chunks_exact_mut(record_words(d)) {
        for (r, c) in (0..d).flat_map(|r| (0..r).map(move |c| (r, c))) {
            for i in HEAD..HEAD + NUMERATORS {
                record.swap(NUMERATORS * (r * d + c) + i, NUMERATORS * (c * d + r) + i);
            }
        }
    }
}

/// Whether every partial sum of the Rust's effects is in range, and each effect at the exponent that it shares.
fn sums_fit(c: &Channel) -> bool {
    let d = c.quantum_dim;
    c.classical_blocks().values().all(|e| rust::shared(e).is_some()) && c.blocks.values().all(|b| {
        (0..d * d).all(|k| {
            let mut sum = Scalar::zero();
            (0..d).all(|o| {
                sum = sum.add(b.get(o * d + k / d, o * d + k % d));
                fitting(&sum).is_some()
            })
        })
    })
}

fn lookup(words: &[i64], store: &[u8], rust: Result<&Channel, u32>, counts: &mut Counts) -> Fault {
    let mut replies = Vec::new();
    for calls in [&ARCHIVE, &PLAIN] {
        let mut rng = Rng(words.len() as u64);
        let (channel, lent) = (Lent::holding(&mut rng, words), Lent::holding(&mut rng, store));
        let at = unsafe { (calls.lookup)(channel.ptr(), channel.len(), lent.ptr(), lent.len()) };
        if !(channel.kept() && lent.kept()) {
            return Err(format!("{}: lookup changed a word", calls.name));
        }
        replies.push(at);
    }
    same("lookup", replies[0], replies[1], "plain C")?;
    let asked = rust.ok().filter(|c| store.len() == c.num_cbits && store.iter().all(|b| *b <= 1));
    counts.add("lookup", asked.is_some(), if replies[0] == 0 { "none" } else { "found" });
    let key: Vec<bool> = store.iter().map(|b| *b == 1).collect();
    match asked.and_then(|c| c.blocks.get(&key)) {
        None => same("lookup", replies[0], 0, if asked.is_some() { "the Rust" } else { "the documents" }),
        Some(block) => {
            let at = replies[0];
            let want = rust::shared(block).ok_or("a block out of range")?;
            if at < HEADER + EXPONENT || words.len() < at + want.len() || store_at(words, at - EXPONENT) != rust::number(&key) {
                return Err(format!("lookup: {at} is not the record of the store"));
            }
            same_words("lookup", &words[at..at + want.len()], &want, "the Rust")
        }
    }
}

/// The Rust's channel of some words; None where document 01 calls them malformed.
fn read(words: &[i64]) -> Option<Channel> {
    let [dim, bits, count, first] = *words.first_chunk::<4>()?;
    if ![1, 2, 4, 8, 16].contains(&dim) || !(0..=64).contains(&bits) || count < 0 {
        return None;
    }
    let (d, bits) = (dim as usize, bits as usize);
    let size = record_words(d * d);
    if count as u64 > ((words.len() - HEADER) / size) as u64 {
        return None;
    }
    let (mut at, mut blocks, mut last) = (first, BTreeMap::new(), None);
    for _ in 0..count {
        let record = usize::try_from(at).ok().filter(|a| *a >= HEADER && (a - HEADER) % size == 0 && (a - HEADER) / size < count as usize)?;
        let (low, high) = (u32::try_from(words[record + 1]).ok()?, u32::try_from(words[record + 2]).ok()?);
        let number = low as u64 | (high as u64) << 32;
        if bits < 64 && number >> bits != 0 {
            return None;
        }
        let store: Vec<bool> = (0..bits).map(|j| number >> j & 1 == 1).collect();
        if last.as_ref().is_some_and(|l| *l >= store) {
            return None;
        }
        let (e, numerators) = (words[record + EXPONENT], &words[record + HEAD..record + size]);
        let odd = numerators.iter().any(|n| n & 1 == 1);
        if !(0..=60).contains(&e) || !(e == 0 || odd) || !numerators.iter().all(|n| (-WIDEST..=WIDEST).contains(n)) {
            return None;
        }
        let mut m = Matrix::zero(d * d);
        for (k, x) in numerators.chunks_exact(NUMERATORS).enumerate().filter(|(_, x)| x.iter().any(|n| *n != 0)) {
            m.entries[k] = rust::scalar(&[x[0], x[1], x[2], x[3], e]);
        }
        last = Some(store.clone());
        blocks.insert(store, m);
        at = words[record];
    }
    if at != 0 { None } else { Some(Channel { quantum_dim: d, num_cbits: bits, blocks }) }
}

/// The Rust's channel of some words, or their refusal: 10 where they are malformed, then 16 where a block has no entry but zeros.
fn judged(words: &[i64]) -> Result<Channel, u32> {
    let c = read(words).ok_or(10u32)?;
    let size = record_words(c.quantum_dim.pow(2));
    let zero = words[HEADER..].chunks_exact(size).take(words[2] as usize).any(|r| r[HEAD..].iter().all(|n| *n == 0));
    if zero { Err(16) } else { Ok(c) }
}

/// Two channels, or the refusal of the left one, or of the right one.
fn both_sound<'a>(x: &'a Result<Channel, u32>, y: &'a Result<Channel, u32>) -> Result<(&'a Channel, &'a Channel), u32> {
    let (a, b) = (x.as_ref().map_err(|v| *v)?, y.as_ref().map_err(|v| *v)?);
    Ok((a, b))
}

/// The exponent and the numerators of some records of a channel, on one side.
fn each_block(words: &mut [i64], records: &[(bool, u64)], side: bool, change: fn(&mut [i64])) {
    let (Some(d), Some(count)) = (words.first().map(|d| *d as usize), words.get(2).map(|c| *c as u64)) else { return };
    for (_, j) in records.iter().filter(|b| b.0 == side && count > 0) {
        let size = record_words(d * d);
        let at = HEADER + (j % count) as usize * size;
        change(&mut words[at + EXPONENT..at + size]);
    }
}

/// The same entries over an exponent that is one too large.
fn double(block: &mut [i64]) {
    block[0] += 1;
    block[1..].iter_mut().for_each(|n| *n *= 2);
}

/// The archive's channel of a circuit; no words where it is refused.
pub fn channel_of(w: &Words) -> Vec<i64> {
    circuit_call(&ARCHIVE, Ask::Channel, w, &CEILINGS, (0, 0)).map(|r| r.result).unwrap_or_default()
}

fn set_words(words: &mut [i64], sets: &[(bool, u64, i64)], side: bool) {
    for (_, at, value) in sets.iter().filter(|s| s.0 == side) {
        if !words.is_empty() {
            let at = (*at % words.len() as u64) as usize;
            words[at] = *value;
        }
    }
}

fn phase(left: (usize, &[i64]), right: (usize, &[i64]), counts: &mut Counts) -> Fault {
    let mut replies = Vec::new();
    for calls in [&ARCHIVE, &PLAIN] {
        let mut rng = Rng(left.0 as u64);
        let (x, y) = (Lent::holding(&mut rng, left.1), Lent::holding(&mut rng, right.1));
        replies.push(unsafe { (calls.equivalent_up_to_global_phase)(left.0, x.ptr(), x.len(), right.0, y.ptr(), y.len()) });
        if !(x.kept() && y.kept()) {
            return Err(format!("{}: the phase test changed a word", calls.name));
        }
    }
    same("phase test", replies[0], replies[1], "plain C")?;
    let well = |(d, m): (usize, &[i64])| [1, 2, 4, 8, 16, 32].contains(&d) && m.len() == 5 * d * d && m.chunks_exact(5).all(well_formed);
    let fit = |(_, m): (usize, &[i64])| m.chunks_exact(5).all(narrow);
    let ask = well(left) && well(right) && (left.0 != right.0 || fit(left) && fit(right));
    counts.add("phase test", ask, replies[0]);
    if !ask {
        return same("phase test", replies[0], if well(left) && well(right) { 9 } else { 10 }, "document 01");
    }
    let matrix = |(dim, m): (usize, &[i64])| Matrix { dim, entries: m.chunks_exact(5).map(rust::scalar).collect() };
    let equivalent = matrix(left).equivalent_up_to_global_phase(&matrix(right));
    same("phase test", replies[0], if equivalent { 103 } else { 104 }, "the Rust")
}

fn scalar(op: &Operation, counts: &mut Counts) -> Fault {
    use Operation::*;
    let mut replies = Vec::new();
    for calls in [&ARCHIVE, &PLAIN] {
        let mut rng = Rng(7);
        let zero = [0; 5];
        let (x, y) = match op {
            Neg(x) | Conj(x) | Half(x) => (x, &zero),
            Add(x, y) | Mul(x, y) => (x, y),
            _ => (&zero, &zero),
        };
        let (x, y, mut out) = (Lent::holding(&mut rng, x), Lent::holding(&mut rng, y), Lent::<i64>::noise(&mut rng, 5));
        let o = out.mut_ptr();
        let verdict = unsafe {
            match op {
                Integer(n) => (calls.scalar_integer)(*n, o),
                Zero => (calls.scalar_zero)(o),
                I => (calls.scalar_i)(o),
                InvSqrtTwo => (calls.scalar_inv_sqrt_two)(o),
                Omega(k) => (calls.scalar_omega)(*k, o),
                Neg(_) => (calls.scalar_neg)(x.ptr(), o),
                Conj(_) => (calls.scalar_conj)(x.ptr(), o),
                Half(_) => (calls.scalar_half)(x.ptr(), o),
                Add(..) => (calls.scalar_add)(x.ptr(), y.ptr(), o),
                Mul(..) => (calls.scalar_mul)(x.ptr(), y.ptr(), o),
            }
        };
        if !(x.kept() && y.kept() && out.edges_kept()) {
            return Err(format!("{}: a scalar call changed other words than its result's", calls.name));
        }
        replies.push((verdict, out.words().to_vec()));
    }
    same("scalar", &replies[0], &replies[1], "plain C")?;
    let operands: Vec<&[i64; 5]> = match op {
        Neg(x) | Conj(x) | Half(x) => vec![x],
        Add(x, y) | Mul(x, y) => vec![x, y],
        _ => vec![],
    };
    let malformed = operands.iter().any(|x| !well_formed(*x));
    let wide = matches!(op, Mul(..)) && operands.iter().any(|x| !narrow(*x));
    counts.add("scalar calls", !malformed && !wide && replies[0].0 == 0, replies[0].0);
    if malformed || wide {
        return same("scalar", &replies[0], &(if malformed { 10 } else { 9 }, vec![0; 5]), "document 01");
    }
    let exact = match op {
        Integer(n) => Scalar::integer(*n),
        Zero => Scalar::zero(),
        I => Scalar::i(),
        InvSqrtTwo => Scalar::inv_sqrt_two(),
        Omega(k) => Scalar::omega((*k % 256) as u8),
        Neg(x) => rust::scalar(x).neg(),
        Conj(x) => rust::scalar(x).conj(),
        Half(x) => rust::scalar(x).half(),
        Add(x, y) => rust::scalar(x).add(&rust::scalar(y)),
        Mul(x, y) => rust::scalar(x).mul(&rust::scalar(y)),
    };
    let want = fitting(&exact).map_or((9, vec![0; 5]), |w| (0, w.to_vec()));
    same("scalar", &replies[0], &want, "the Rust")
}

/// All comparisons of a case; an error says what disagrees.
pub fn check(case: &Case, counts: &mut Counts) -> Fault {
    match case {
        Case::Channel { words, limits, extra } => {
            let Some((got, c)) = channel(words, limits, *extra, counts)? else { return Ok(()) };
            effects(&got, Ok(&c), 0, counts)?;
            effects(&got, Ok(&c), 1, counts)?;
            compare(&got, &got, Ok((&c, &c)), counts)?;
            let start: Vec<u8> = words.store.clone();
            lookup(&got, &start, Ok(&c), counts)?;
            if let Some(store) = c.blocks.keys().last() {
                let store: Vec<u8> = store.iter().map(|b| *b as u8).collect();
                lookup(&got, &store, Ok(&c), counts)?;
            }
            Ok(())
        }
        Case::Unitary { words, limits, extra } => unitary(words, limits, *extra, counts),
        Case::Layers { words, ends, limits, extra, shuffle } => layers(words, ends, limits, *extra, *shuffle, counts),
        Case::Plain { words, limits, extra } => profile(words, limits, *extra, counts),
        Case::Schedule { words, new, table } => schedule(words, new, table, counts),
        Case::Kept { .. } => kept(case, counts),
        Case::Program { program, limits, extra } => programs::check(program, limits, *extra, counts),
        Case::WorkList { count, words, stores, limits, allowance, rooms, places } => work_list((*count, words, stores, limits, *allowance, *rooms, *places), counts),
        Case::Compare { left, right } => {
            let (x, y) = (channel(left, &CEILINGS, (0, 0), counts)?, channel(right, &CEILINGS, (0, 0), counts)?);
            let (Some((x, a)), Some((y, b))) = (x, y) else { return Ok(()) };
            compare(&x, &y, Ok((&a, &b)), counts)?;
            compare(&y, &x, Ok((&b, &a)), counts)
        }
        Case::Damaged { left, right, blanks, doubled, sets, cut, store, short } => {
            let (mut x, mut y) = (channel_of(left), channel_of(right));
            for (words, side) in [(&mut x, false), (&mut y, true)] {
                each_block(words, doubled, side, double);
                each_block(words, blanks, side, |block| block.fill(0));
            }
            set_words(&mut x, sets, false);
            set_words(&mut y, sets, true);
            x.truncate(x.len().saturating_sub(*cut as usize));
            let (a, b) = (judged(&x), judged(&y));
            compare(&x, &y, both_sound(&a, &b), counts)?;
            compare(&y, &x, both_sound(&b, &a), counts)?;
            let left = a.as_ref().map_err(|v| *v);
            effects(&x, left, *short as usize, counts)?;
            lookup(&x, store, left, counts)
        }
        Case::Forms { .. } => packed::check(case, counts),
        Case::Phase { left, right, scale, sets, dims, cut } => {
            let of = |w: &Words| circuit_call(&ARCHIVE, Ask::Unitary, w, &CEILINGS, (0, 0)).map(|r| r.result).unwrap_or_default();
            let (mut x, mut y) = (of(left), of(right));
            for cell in y.chunks_exact_mut(5) {
                if let Some(w) = fitting(&rust::scalar(cell).mul(&rust::scalar(scale))) {
                    cell.copy_from_slice(&w);
                }
            }
            set_words(&mut x, sets, false);
            set_words(&mut y, sets, true);
            x.truncate(x.len().saturating_sub(*cut as usize));
            phase((dims.0, &x), (dims.1, &y), counts)?;
            phase((dims.1, &y), (dims.0, &x), counts)
        }
        Case::Scalar(op) => scalar(op, counts),
    }
}

// ---- smaller inputs

/// Circuits with a gate or a bit less, or with simpler gates.
pub fn smaller_words(w: &Words) -> Vec<Words> {
    let mut out = Vec::new();
    let gates: Vec<&[u32]> = w.gates.chunks(5).collect();
    let half = gates.len() / 2;
    if half > 1 {
        for part in [&gates[..half], &gates[half..]] {
            out.push(Words { gates: part.concat(), ..w.clone() });
        }
    }
    for i in 0..gates.len() {
        let rest: Vec<&[u32]> = gates.iter().enumerate().filter(|(j, _)| *j != i).map(|(_, g)| *g).collect();
        out.push(Words { gates: rest.concat(), ..w.clone() });
    }
    // one kind after another, from the simplest, on the first qubit
    for (i, g) in gates.iter().enumerate() {
        for kind in (0..g[0].min(17)).filter(|k| !(8..=12).contains(k)) {
            let mut all = w.gates.clone();
            all.splice(5 * i..5 * i + g.len(), [kind, 0, 0, 0, 0]);
            out.push(Words { gates: all, ..w.clone() });
        }
    }
    for i in 0..w.gates.len() {
        if w.gates[i] > 0 {
            for to in [0, w.gates[i] - 1] {
                let mut gates = w.gates.clone();
                gates[i] = to;
                out.push(Words { gates, ..w.clone() });
            }
        }
    }
    if w.qubits > 0 {
        out.push(Words { qubits: w.qubits - 1, ..w.clone() });
    }
    if w.bits > 0 && !w.store.is_empty() {
        out.push(Words { bits: w.bits - 1, store: w.store[..w.store.len() - 1].to_vec(), ..w.clone() });
    }
    for i in 0..w.store.len() {
        if w.store[i] > 0 {
            let mut store = w.store.clone();
            store[i] = 0;
            out.push(Words { store, ..w.clone() });
        }
    }
    out
}

fn smaller_cell(x: &[i64; 5]) -> Vec<[i64; 5]> {
    let mut out = Vec::new();
    for i in 0..5 {
        for to in [0, x[i] / 2, x[i] - x[i].signum()] {
            if to != x[i] {
                let mut y = *x;
                y[i] = to;
                out.push(y);
            }
        }
    }
    out
}

/// A call on fewer gates, with no limits of its own, or with buffers of just the size.
fn smaller_call(words: &Words, limits: [u64; 6], extra: (i64, i64), case: fn(Words, [u64; 6], (i64, i64)) -> Case) -> Vec<Case> {
    let mut out: Vec<Case> = smaller_words(words).into_iter().map(|words| case(words, limits, extra)).collect();
    if limits != CEILINGS {
        out.push(case(words.clone(), CEILINGS, extra));
    }
    if extra != (0, 0) {
        out.push(case(words.clone(), limits, (0, 0)));
    }
    out
}

fn without<T: Clone>(list: &[T], i: usize) -> Vec<T> {
    [&list[..i], &list[i + 1..]].concat()
}

fn smaller(case: &Case) -> Vec<Case> {
    use Operation::*;
    match case {
        Case::Channel { words, limits, extra } => smaller_call(words, *limits, *extra, |words, limits, extra| Case::Channel { words, limits, extra }),
        Case::Unitary { words, limits, extra } => smaller_call(words, *limits, *extra, |words, limits, extra| Case::Unitary { words, limits, extra }),
        Case::Plain { words, limits, extra } => smaller_call(words, *limits, *extra, |words, limits, extra| Case::Plain { words, limits, extra }),
        Case::Layers { words, ends, limits, extra, shuffle } => {
            let with = |words: Words, ends: Vec<u32>| Case::Layers { words, ends, limits: *limits, extra: *extra, shuffle: *shuffle };
            let mut out: Vec<Case> = smaller_words(words).into_iter().map(|w| with(w, ends.clone())).collect();
            // a gate less, and every end behind it one less
            for i in 0..words.gates.len() / 5 {
                let mut gates = words.gates.clone();
                gates.drain(5 * i..5 * i + 5);
                let mut ends: Vec<u32> = ends.iter().map(|e| if *e as usize > i { e - 1 } else { *e }).collect();
                ends.dedup();
                out.push(with(Words { gates, ..words.clone() }, ends));
            }
            for i in 0..ends.len() {
                let mut fewer = ends.clone();
                fewer.remove(i);
                out.push(with(words.clone(), fewer));
            }
            if *limits != CEILINGS {
                out.push(Case::Layers { words: words.clone(), ends: ends.clone(), limits: CEILINGS, extra: *extra, shuffle: *shuffle });
            }
            if *extra != (0, 0) {
                out.push(Case::Layers { words: words.clone(), ends: ends.clone(), limits: *limits, extra: (0, 0), shuffle: *shuffle });
            }
            out
        }
        Case::WorkList { count, words, stores, limits, allowance, rooms, places } => {
            let Ok(pairs) = list_pairs(*count, words, stores) else { return Vec::new() };
            // a pair less
            (0..pairs.len())
                .map(|gone| {
                    let (mut words, mut stores) = (Vec::new(), Vec::new());
                    for (_, pair) in pairs.iter().enumerate().filter(|(i, _)| *i != gone) {
                        pair.iter().for_each(|w| words.extend([w.qubits, w.bits, w.gates.len() as u32]));
                        pair.iter().for_each(|w| words.extend(&w.gates));
                        pair.iter().for_each(|w| stores.extend(&w.store));
                    }
                    Case::WorkList { count: count - 1, words, stores, limits: *limits, allowance: *allowance, rooms: *rooms, places: *places }
                })
                .collect()
        }
        Case::Schedule { words, new, table } => {
            let with = |words: Words, new: Vec<u32>, table: Vec<u32>| Case::Schedule { words, new, table };
            let mut out: Vec<Case> = smaller_words(words).into_iter().map(|w| with(w, new.clone(), table.clone())).collect();
            // a new gate and its old one less, and every entry behind that one less
            for i in 0..table.len().min(new.len() / 5) {
                let k = table[i];
                let (mut old, mut rest, mut entries) = (words.gates.clone(), new.clone(), table.clone());
                if (k as usize) < old.len() / 5 {
                    old.drain(5 * k as usize..5 * k as usize + 5);
                }
                rest.drain(5 * i..5 * i + 5);
                entries.remove(i);
                entries.iter_mut().filter(|e| **e > k).for_each(|e| *e -= 1);
                out.push(with(Words { gates: old, ..words.clone() }, rest, entries));
            }
            out
        }
        Case::Kept { words, size, edits, limits, lent, damages, last } => {
            let with = |edits: Vec<Edit>, damages: Vec<Damage>| Case::Kept { words: words.clone(), size: *size, edits, limits: *limits, lent: *lent, damages, last: last.clone() };
            let less = |i: usize| edits.iter().enumerate().filter(|e| e.0 != i).map(|e| e.1.clone()).collect::<Vec<_>>();
            let mut out = vec![with(edits.clone(), vec![]), with(edits[..edits.len() / 2].to_vec(), damages.clone())];
            out.extend((0..edits.len()).map(|i| with(less(i), damages.clone())));
            out.extend(damages.iter().map(|d| with(edits.clone(), vec![d.clone()])));
            out.retain(|c| c != case);
            out
        }
        Case::Program { program, limits, extra } => {
            let mut out: Vec<Case> = programs::smaller(program).into_iter().map(|program| Case::Program { program, limits: *limits, extra: *extra }).collect();
            if (*limits, *extra) != (CEILINGS, (0, 0)) {
                out.push(Case::Program { program: program.clone(), limits: CEILINGS, extra: (0, 0) });
            }
            out
        }
        Case::Compare { left, right } => {
            let lefts = smaller_words(left).into_iter().map(|left| Case::Compare { left, right: right.clone() });
            let rights = smaller_words(right).into_iter().map(|right| Case::Compare { left: left.clone(), right });
            lefts.chain(rights).collect()
        }
        Case::Damaged { left, right, blanks, doubled, sets, cut, store, short } => {
            let with = |left: &Words, right: &Words, blanks: &[(bool, u64)], doubled: &[(bool, u64)], sets: &[(bool, u64, i64)], cut: u64| Case::Damaged {
                left: left.clone(), right: right.clone(), blanks: blanks.to_vec(), doubled: doubled.to_vec(), sets: sets.to_vec(), cut, store: store.clone(), short: *short,
            };
            let mut out: Vec<Case> = smaller_words(left).iter().map(|l| with(l, right, blanks, doubled, sets, *cut)).collect();
            out.extend(smaller_words(right).iter().map(|r| with(left, r, blanks, doubled, sets, *cut)));
            out.extend((0..sets.len()).map(|i| with(left, right, blanks, doubled, &without(sets, i), *cut)));
            out.extend((0..blanks.len()).map(|i| with(left, right, &without(blanks, i), doubled, sets, *cut)));
            out.extend((0..doubled.len()).map(|i| with(left, right, blanks, &without(doubled, i), sets, *cut)));
            if *cut > 0 {
                out.push(with(left, right, blanks, doubled, sets, 0));
            }
            out
        }
        Case::Forms { .. } => packed::smaller(case),
        Case::Phase { left, right, scale, sets, dims, cut } => {
            let with = |left: &Words, right: &Words, scale: [i64; 5], sets: Vec<(bool, u64, i64)>| Case::Phase {
                left: left.clone(), right: right.clone(), scale, sets, dims: *dims, cut: *cut,
            };
            let mut out: Vec<Case> = smaller_words(left).iter().map(|l| with(l, right, *scale, sets.clone())).collect();
            out.extend(smaller_words(right).iter().map(|r| with(left, r, *scale, sets.clone())));
            out.extend((0..sets.len()).map(|i| with(left, right, *scale, without(sets, i))));
            if *scale != [1, 0, 0, 0, 0] {
                out.push(with(left, right, [1, 0, 0, 0, 0], sets.clone()));
            }
            out
        }
        Case::Scalar(op) => {
            let ops: Vec<Operation> = match op {
                Integer(n) => [0, n / 2, n - n.signum()].into_iter().filter(|m| m != n).map(Integer).collect(),
                Omega(k) => [k % 8, k / 2].into_iter().filter(|j| j != k).map(Omega).collect(),
                Neg(x) => smaller_cell(x).into_iter().map(Neg).collect(),
                Conj(x) => smaller_cell(x).into_iter().map(Conj).collect(),
                Half(x) => smaller_cell(x).into_iter().map(Half).collect(),
                Add(x, y) => smaller_cell(x).into_iter().map(|x| Add(x, *y)).chain(smaller_cell(y).into_iter().map(|y| Add(*x, y))).collect(),
                Mul(x, y) => smaller_cell(x).into_iter().map(|x| Mul(x, *y)).chain(smaller_cell(y).into_iter().map(|y| Mul(*x, y))).collect(),
                _ => vec![],
            };
            ops.into_iter().map(Case::Scalar).collect()
        }
    }
}

/// A failing case made as small as single steps make it, with what disagrees there.
pub fn shrink(mut case: Case, mut fault: String) -> (Case, String) {
    let mut steps = 0;
    'again: loop {
        for next in smaller(&case) {
            steps += 1;
            if steps > 20_000 {
                break 'again;
            }
            if let Err(f) = check(&next, &mut Counts::default()) {
                (case, fault) = (next, f);
                continue 'again;
            }
        }
        break;
    }
    (case, fault)
}
