//! Pauli programs: the archive's verdict and channel, the questions of document 02 written anew with Paulis qubit by qubit, and the Rust's pbc_channel.
use crate::calls::{ARCHIVE, CEILINGS};
use crate::checks::{Case, Counts, MAX_WEIGHT, lengths, same};
use crate::lent::{Lent, Rng};
use crate::pbc::{Pauli, PauliAngle, PauliAxis, PauliRef, PbcCircuit, Phase};
use crate::rust::{self, Words};
use crate::semantics::Error;
use crate::semantics::channel::{Channel, pbc_channel};
use std::collections::HashSet;

unsafe extern "C" {
    fn foreituka_pauli_verdict(qubits: u32, bits: u32, store: *const u8, store_bytes: usize, nodes: *const u32, node_words: usize, operations: *const u32,
        operation_words: usize, limits: *const u64, result_words: usize, work_words: usize, index: *mut u64) -> u32;
    #[cfg(pauli_channel)]
    fn foreituka_pauli_channel(qubits: u32, bits: u32, store: *const u8, store_bytes: usize, nodes: *const u32, node_words: usize, operations: *const u32,
        operation_words: usize, limits: *const u64, result: *mut i64, result_words: usize, work: *mut i64, work_words: usize, index: *mut u64) -> u32;
}

const TIMES: u32 = 4;
const ROTATE: u32 = 0;
const ROTATE_IF: u32 = 1;
const MEASURE: u32 = 2;
const MEASURE_INTO: u32 = 3;

#[derive(Clone, Debug, PartialEq)]
pub struct Program {
    pub qubits: u32,
    pub bits: u32,
    pub store: Vec<u8>,
    /// Five words each.
    pub nodes: Vec<u32>,
    pub operations: Vec<u32>,
}

// ---- what a program is, by document 02

/// A Pauli for each qubit, and the power of i before them.
type Form = (u32, Vec<Pauli>);

fn times(a: &Form, b: &Form) -> Form {
    let pairs: Vec<(Phase, Pauli)> = a.1.iter().zip(&b.1).map(|(x, y)| x.times(*y)).collect();
    ((a.0 + b.0 + pairs.iter().map(|(p, _)| *p as u32).sum::<u32>()) % 4, pairs.into_iter().map(|(_, x)| x).collect())
}

fn single(n: u32, q: u32, p: u32) -> Form {
    let mut factors = vec![Pauli::I; n as usize];
    factors[q as usize] = [Pauli::I, Pauli::X, Pauli::Y, Pauli::Z][p as usize];
    (0, factors)
}

/// The identity, and X and Z of each qubit.
fn basis(n: u32) -> Vec<Form> {
    let mut forms = vec![(0, vec![Pauli::I; n as usize])];
    forms.extend((0..n).flat_map(|q| [single(n, q, 1), single(n, q, 3)]));
    forms
}

/// The form of the next node, or 5 or 17.
fn next_form(w: &[u32], n: u32, forms: &[Form]) -> Result<Form, u32> {
    let turned = |k: u32, t: u32| forms.get(k as usize).map(|f| ((f.0 + t) % 4, f.1.clone())).ok_or(17u32);
    match w[0] {
        0..=3 if w[2..] == [0; 3] => if w[1] < n { Ok(single(n, w[1], w[0])) } else { Err(17) },
        TIMES if w[2] < 4 && w[4] < 4 => Ok(times(&turned(w[1], w[2])?, &turned(w[3], w[4])?)),
        _ => Err(5),
    }
}

/// What an operation is refused with: 5, 18, 19 or 3.
fn operation_due(w: &[u32], forms: &[Form], made: u32, bits: u32) -> Option<u32> {
    let formed = w[2] < 4 && match w[0] {
        ROTATE => w[3] < 8 && w[4] == 0,
        ROTATE_IF => w[3] < 8,
        MEASURE => w[3] == 0 && w[4] == 0,
        MEASURE_INTO => w[4] == 0,
        _ => false,
    };
    if !formed {
        Some(5)
    } else if forms.get(w[1] as usize).is_none_or(|f| (f.0 + w[2]) % 2 == 1) {
        Some(18)
    } else if w[0] == ROTATE_IF && w[4] >= made {
        Some(19)
    } else {
        (w[0] == MEASURE_INTO && w[3] >= bits).then_some(3)
    }
}

impl Program {
    fn forms(&self) -> Option<Vec<Form>> {
        let mut forms = basis(self.qubits);
        for w in self.nodes.chunks_exact(5) {
            forms.push(next_form(w, self.qubits, &forms).ok()?);
        }
        Some(forms)
    }
    fn measures(&self) -> u32 {
        self.operations.chunks_exact(5).filter(|w| w[0] >= MEASURE).count() as u32
    }
    /// N: one more than the highest node that an axis or the output frame names.
    fn named(&self) -> usize {
        let axes = self.operations.chunks_exact(5).map(|w| w[1] as usize + 1).max().unwrap_or(0);
        axes.max(if self.qubits > 0 { 2 * self.qubits as usize + 1 } else { 0 })
    }
    fn weight(&self) -> usize {
        let of = |w: &[u32]| if w[0] >= MEASURE || w[3] % 2 == 1 { 2 } else { usize::from(w[3] % 4 == 2) };
        self.operations.chunks_exact(5).map(of).sum()
    }
    fn stores(&self) -> usize {
        1 << self.operations.chunks_exact(5).filter(|w| w[0] == MEASURE_INTO).map(|w| w[3]).collect::<HashSet<_>>().len()
    }
    /// The words of both buffers; programs that are past every limit get a few.
    fn need(&self) -> (usize, usize) {
        if self.qubits > 4 || self.measures() > 6 || self.named() > 1035 {
            return (64, 64);
        }
        let d = 1usize << self.qubits;
        (rust::channel_words(d, self.stores()), ((2usize << self.measures()) + self.named() + 2) * (5 * d * d + 3))
    }
    /// The words are within their forms, and every node, axis, outcome and bit is there: what the Rust's types hold.
    fn words_due(&self) -> Option<(u32, u64)> {
        let mut forms = basis(self.qubits);
        for (w, i) in self.nodes.chunks_exact(5).zip(0..) {
            match next_form(w, self.qubits, &forms) {
                Ok(f) => forms.push(f),
                Err(v) => return Some((v, i)),
            }
        }
        let mut made = 0;
        for (w, i) in self.operations.chunks_exact(5).zip(0..) {
            if let Some(v) = operation_due(w, &forms, made, self.bits) {
                return Some((v, i));
            }
            made += u32::from(w[0] >= MEASURE);
        }
        None
    }
    /// Number and index of the first question that is answered by no.
    fn due(&self, limits: &[u64; 6], lent: (usize, usize)) -> (u32, u64) {
        let operations = self.operations.len() as u64 / 5 + 2 * self.qubits as u64;
        if limits.iter().zip(&CEILINGS).any(|(l, c)| l > c) {
            return (6, 0);
        }
        if self.nodes.len() % 5 != 0 || self.operations.len() % 5 != 0 {
            return (5, 0);
        }
        if operations > limits[3] || self.qubits > 5 || self.nodes.len() / 5 > 1024 {
            return (1, 0);
        }
        if let Some(due) = self.words_due() {
            return due;
        }
        if self.store.len() != self.bits as usize || self.store.iter().any(|b| *b > 1) {
            return (4, 0);
        }
        let (d, named, s) = (1u64 << self.qubits, self.named() as u64, self.measures().min(20));
        let (branches, stores) = (1u64 << s, self.stores() as u64);
        let cells = stores * d.pow(4) + (3 * branches + named + 8) * d * d;
        let terms = (2 * operations * branches + named) * d.pow(3) + branches * d.pow(4);
        if self.bits as u64 > limits[5] || branches > limits[4] || self.qubits as u64 > limits[0] || cells > limits[1] || terms > limits[2] {
            return (1, 0);
        }
        let need = self.need();
        (if self.weight() > MAX_WEIGHT { 7 } else if lent.0 < need.0 || lent.1 < need.1 { 8 } else { 0 }, 0)
    }
    /// The Rust's own program, of words that pass `words_due`. Its axes are not asked whether they are Hermitian: that is done above.
    fn circuit(&self) -> PbcCircuit {
        let mut p = PbcCircuit::new(self.qubits as usize, self.bits as usize);
        let mut refs: Vec<PauliRef> = vec![p.identity().as_ref()];
        refs.extend((0..self.qubits).flat_map(|q| [p.output_frame().x(q), p.output_frame().z(q)]));
        let phase = |t: u32| [Phase::One, Phase::I, Phase::MinusOne, Phase::MinusI][t as usize];
        for w in self.nodes.chunks_exact(5) {
            let r = match w[0] {
                // a listed I has a number of its own, which the Rust's single does not give it
                0 => p.product(refs[0], refs[0]).unwrap(),
                TIMES => p.product(refs[w[1] as usize].scaled(phase(w[2])), refs[w[3] as usize].scaled(phase(w[4]))).unwrap(),
                _ => p.single(w[1], [Pauli::I, Pauli::X, Pauli::Y, Pauli::Z][w[0] as usize]).unwrap().as_ref(),
            };
            refs.push(r);
        }
        let mut outcomes = Vec::new();
        for w in self.operations.chunks_exact(5) {
            let (axis, angle) = (PauliAxis(refs[w[1] as usize].scaled(phase(w[2]))), PauliAngle::new(w[3] as i64));
            match w[0] {
                ROTATE => p.rotate(axis, angle).unwrap(),
                ROTATE_IF => p.conditional_rotate(axis, angle, outcomes[w[4] as usize]).unwrap(),
                MEASURE => outcomes.push(p.measure(axis, None).unwrap()),
                _ => outcomes.push(p.measure(axis, Some(w[3])).unwrap()),
            }
        }
        p
    }
    /// The circuit that does the same, of rotations about Z by eighths, half turns about X, and measures of Z with a bit.
    fn as_circuit(&self) -> Option<Words> {
        let mut gates = Vec::new();
        for w in self.operations.chunks_exact(5) {
            let q = w[1].checked_sub(1).filter(|q| *q < 2 * self.qubits && w[2] == 0)? / 2;
            gates.extend(match (w[0], w[1] % 2 == 0) {
                (ROTATE, true) => [7, q, 0, 0, w[3]],
                (ROTATE, false) if w[3] == 4 => [1, q, 0, 0, 0],
                (MEASURE_INTO, true) => [12, q, w[3], 0, 0],
                _ => return None,
            });
        }
        Some(Words { qubits: self.qubits, bits: self.bits, store: self.store.clone(), gates })
    }
    fn channel(&self, limits: &[u64; 6]) -> Result<Channel, Error> {
        let store: Vec<bool> = self.store.iter().map(|b| *b == 1).collect();
        pbc_channel(&self.circuit(), &store, rust::limits(limits))
    }
}

// ---- the calls

fn seed(p: &Program) -> Rng {
    Rng(p.nodes.iter().chain(&p.operations).fold(p.qubits as u64, |h, w| h.wrapping_mul(31).wrapping_add(*w as u64)))
}

fn verdict(p: &Program, limits: &[u64; 6], lent: (usize, usize)) -> Result<(u32, u64), String> {
    let mut rng = seed(p);
    let (store, nodes, operations) = (Lent::holding(&mut rng, &p.store), Lent::holding(&mut rng, &p.nodes), Lent::holding(&mut rng, &p.operations));
    let (limits, mut index) = (Lent::holding(&mut rng, limits), Lent::<u64>::noise(&mut rng, 1));
    let number = unsafe {
        foreituka_pauli_verdict(p.qubits, p.bits, store.ptr(), store.len(), nodes.ptr(), nodes.len(), operations.ptr(), operations.len(), limits.ptr(),
            lent.0, lent.1, index.mut_ptr())
    };
    if !(store.kept() && nodes.kept() && operations.kept() && limits.kept() && index.edges_kept()) {
        return Err("pauli_verdict changed other words than its reply's".into());
    }
    Ok((number, index.words()[0]))
}

/// The channel's words where it is accepted, none where it is refused.
#[cfg(pauli_channel)]
fn delivered(p: &Program, limits: &[u64; 6], lent: (usize, usize), due: (u32, u64)) -> Result<Vec<i64>, String> {
    let mut rng = seed(p);
    let (store, nodes, operations) = (Lent::holding(&mut rng, &p.store), Lent::holding(&mut rng, &p.nodes), Lent::holding(&mut rng, &p.operations));
    let (limits, mut index) = (Lent::holding(&mut rng, limits), Lent::<u64>::noise(&mut rng, 1));
    let (mut result, mut work) = (Lent::<i64>::noise(&mut rng, lent.0), Lent::<i64>::noise(&mut rng, lent.1));
    let number = unsafe {
        foreituka_pauli_channel(p.qubits, p.bits, store.ptr(), store.len(), nodes.ptr(), nodes.len(), operations.ptr(), operations.len(), limits.ptr(),
            result.mut_ptr(), result.len(), work.mut_ptr(), work.len(), index.mut_ptr())
    };
    same("pauli_channel", (number, index.words()[0]), due, "the questions")?;
    if !(store.kept() && nodes.kept() && operations.kept() && limits.kept() && index.edges_kept() && result.edges_kept() && work.edges_kept()) {
        return Err("pauli_channel changed other words than its reply's".into());
    }
    if number != 0 {
        return if result.kept() && work.kept() { Ok(Vec::new()) } else { Err(format!("refused with {number}, and a buffer has changed")) };
    }
    let zero = p.need().1;
    if work.words()[..zero].iter().any(|w| *w != 0) || work.words()[zero..] != work.words_before()[zero..] {
        return Err("work words are not as they should be".into());
    }
    let used = rust::channel_words(1 << p.qubits, result.words()[2].clamp(0, 64) as usize);
    if used > result.len() || result.words()[used..] != result.words_before()[used..] {
        return Err("words behind the result have changed".into());
    }
    Ok(result.words()[..used].to_vec())
}

/// The archive's channel of a program; no words where it is refused.
pub fn channel_of(p: &Program) -> Vec<i64> {
    #[cfg(pauli_channel)]
    return delivered(p, &CEILINGS, p.need(), p.due(&CEILINGS, p.need())).unwrap_or_default();
    #[cfg(not(pauli_channel))]
    return Vec::new();
}

#[cfg(pauli_channel)]
fn same_channel(p: &Program, got: &[i64], c: &Channel, counts: &mut Counts) -> Result<(), String> {
    let side = 1 << (2 * p.qubits);
    let order: Vec<u64> = (0..got[2] as usize).map(|j| crate::checks::store_at(got, rust::HEADER + j * rust::record_words(side))).collect();
    let want = rust::layout(c.quantum_dim, c.num_cbits, &order, c.blocks.iter())
        .ok_or_else(|| format!("stores: the archive {order:?}, the Rust {:?}", c.blocks.keys().collect::<Vec<_>>()))?;
    crate::checks::same_words("channel", got, &want, "the Rust")?;
    counts.met_records("pauli_channel", got, side);
    counts.add("pauli_channel", true, 0);
    Ok(())
}

/// The channel of the circuit that does what the program does, where there is one, compares as the same.
#[cfg(pauli_channel)]
fn same_as_circuit(p: &Program, got: &[i64], counts: &mut Counts) -> Result<(), String> {
    let Some(w) = p.as_circuit() else { return Ok(()) };
    let reply = crate::checks::compare_call(&ARCHIVE, got, &crate::checks::channel_of(&w))?;
    counts.add("compare of a program with its circuit", false, reply.0);
    same("compare of a program with its circuit", reply, (100, [0; 3], [0; 10]), "the ties of document 02")
}

pub fn check(p: &Program, limits: &[u64; 6], extra: (i64, i64), counts: &mut Counts) -> Result<(), String> {
    let lent = lengths(p.need(), extra);
    let got = verdict(p, limits, lent)?;
    let due = p.due(limits, lent);
    // the Rust's types hold no other words, and it knows no ceilings, no weight and no lent words
    let ask = !matches!(due.0, 2 | 3 | 5..=7 | 17..) && p.qubits <= 5 && p.nodes.len() <= 5120 && p.store.iter().all(|b| *b <= 1) && p.words_due().is_none();
    counts.add("pauli_verdict", ask && due.0 != 8, got.0);
    same("pauli_verdict", got, due, "the questions")?;
    #[cfg(pauli_channel)]
    let words = delivered(p, limits, lent, due)?;
    if !ask {
        return Ok(());
    }
    match p.channel(limits) {
        Err(e) => same("pauli_verdict", got, rust::refusal(e), "the Rust"),
        Ok(c) => {
            if !matches!(got.0, 0 | 8) {
                return Err(format!("refused with {}, where the Rust has a channel", got.0));
            }
            #[cfg(pauli_channel)]
            if got.0 == 0 {
                same_channel(p, &words, &c, counts)?;
                same_as_circuit(p, &words, counts)?;
            }
            Ok(())
        }
    }
}

/// Programs with a node or an operation less, or a word less.
pub fn smaller(p: &Program) -> Vec<Program> {
    let mut out = Vec::new();
    for i in 0..p.operations.len() / 5 {
        let mut operations = p.operations.clone();
        operations.drain(5 * i..5 * i + 5);
        out.push(Program { operations, ..p.clone() });
    }
    if !p.nodes.is_empty() {
        out.push(Program { nodes: p.nodes[..p.nodes.len().saturating_sub(5)].to_vec(), ..p.clone() });
    }
    for (nodes, at) in (0..p.nodes.len()).map(|i| (true, i)).chain((0..p.operations.len()).map(|i| (false, i))) {
        let mut less = p.clone();
        let word = if nodes { &mut less.nodes[at] } else { &mut less.operations[at] };
        if *word > 0 {
            *word -= 1;
            out.push(less);
        }
    }
    if p.bits > 0 && !p.store.is_empty() {
        out.push(Program { bits: p.bits - 1, store: p.store[..p.store.len() - 1].to_vec(), ..p.clone() });
    }
    out
}

// ---- the cases

/// So many listed nodes: Paulis of one qubit, and products that name the nodes before them, the latest most often.
fn random_nodes(rng: &mut Rng, n: u32, count: u64) -> Vec<u32> {
    let mut words = Vec::new();
    for i in 0..count {
        let own = 2 * n as u64 + 1 + i;
        let before = |rng: &mut Rng| (if rng.one_in(2) { own - 1 - rng.below(own.min(3)) } else { rng.below(own) }) as u32;
        if n > 0 && rng.one_in(4) {
            words.extend([rng.below(4) as u32, rng.below(n as u64) as u32, 0, 0, 0]);
        } else {
            words.extend([TIMES, before(rng), rng.below(4) as u32, before(rng), rng.below(4) as u32]);
        }
    }
    words
}

/// An axis that equals its own adjoint.
fn axis(rng: &mut Rng, forms: &[Form]) -> (u32, u32) {
    let k = if rng.one_in(3) { forms.len() as u64 - 1 } else { rng.below(forms.len() as u64) };
    (k as u32, forms[k as usize].0 % 2 + 2 * rng.below(2) as u32)
}

fn program(rng: &mut Rng, n: u32, bits: u32, nodes: u64, operations: u64, measures: u64, eighths: &[u32]) -> Program {
    let mut p = Program { qubits: n, bits, store: (0..bits).map(|_| rng.below(2) as u8).collect(), nodes: random_nodes(rng, n, nodes), operations: Vec::new() };
    let forms = p.forms().unwrap();
    let mut made = 0;
    for _ in 0..operations {
        let (a, t) = axis(rng, &forms);
        let k = *rng.pick(eighths);
        p.operations.extend(match rng.below(6) {
            0 | 1 if made < measures => {
                made += 1;
                if bits > 0 && !rng.one_in(3) { [MEASURE_INTO, a, t, rng.below(bits as u64) as u32, 0] } else { [MEASURE, a, t, 0, 0] }
            }
            2 | 3 if made > 0 => [ROTATE_IF, a, t, k, rng.below(made) as u32],
            _ => [ROTATE, a, t, k, 0],
        });
    }
    p
}

const EIGHTHS: [u32; 8] = [0, 1, 2, 3, 4, 5, 6, 7];

fn edges(rng: &mut Rng) -> ([u64; 6], (i64, i64)) {
    let mut limits = CEILINGS;
    if rng.one_in(4) {
        let i = rng.below(6) as usize;
        limits[i] = *rng.pick(&[0, 1, 2, 8, 40, 300, 2000, CEILINGS[i] - 1, CEILINGS[i], CEILINGS[i] + 1, u64::MAX]);
    }
    (limits, if rng.one_in(4) { (*rng.pick(&[0, -1, 1, 7]), *rng.pick(&[0, -1, 1, 7])) } else { (0, 0) })
}

/// Random DAGs of nodes, all phases, rotations on every earlier outcome, hidden measures.
pub fn random(_: u64, rng: &mut Rng) -> Case {
    let n = *rng.pick(&[0, 1, 1, 1, 2, 2, 2, 3]);
    let bits = *rng.pick(&[0, 1, 1, 2, 3, 9]);
    let (nodes, operations) = (rng.below(12), rng.below(if n == 3 { 4 } else { 10 }));
    let measures = rng.below(if n == 3 { 2 } else { 5 });
    let program = program(rng, n, bits, nodes, operations, measures, &EIGHTHS);
    let (limits, extra) = edges(rng);
    Case::Program { program, limits, extra }
}

/// Rotations about Z, half turns about X, and measures of Z with a bit: a circuit does the same.
pub fn as_circuits(_: u64, rng: &mut Rng) -> Case {
    let (n, bits) = (*rng.pick(&[1, 1, 2, 3]), *rng.pick(&[1, 2, 9]));
    let mut program = program(rng, n, bits, 0, 0, 0, &EIGHTHS);
    for _ in 0..rng.below(10) {
        let x = 1 + 2 * rng.below(n as u64) as u32;
        program.operations.extend(match rng.below(4) {
            0 => [ROTATE, x, 0, 4, 0],
            1 => [MEASURE_INTO, x + 1, 0, rng.below(bits as u64) as u32, 0],
            _ => [ROTATE, x + 1, 0, rng.below(8) as u32, 0],
        });
    }
    Case::Program { program, limits: CEILINGS, extra: (0, 0) }
}

/// Products of products, hundreds deep.
pub fn deep(_: u64, rng: &mut Rng) -> Case {
    let n = *rng.pick(&[1, 1, 2, 5]);
    let nodes = *rng.pick(&[60, 300, 1000, 1023, 1024, 1025]);
    let program = program(rng, n, 1, nodes, 3, 1, &EIGHTHS);
    Case::Program { program, limits: CEILINGS, extra: (0, 0) }
}

/// Weights 48 to 59.
pub fn heavy(_: u64, rng: &mut Rng) -> Case {
    let n = *rng.pick(&[1, 1, 1, 2]);
    let measures = *rng.pick(&[0, 1, 3]);
    let mut program = program(rng, n, 2, 6, 40, measures, &[1, 3, 5, 7, 2, 6, 4]);
    let goal = 48 + rng.below(12) as usize;
    while program.weight() > goal {
        program.operations.truncate(program.operations.len() - 5);
    }
    while program.weight() < goal {
        let forms = program.forms().unwrap();
        let (a, t) = axis(rng, &forms);
        program.operations.extend([ROTATE, a, t, if goal - program.weight() > 1 { 1 } else { 2 }, 0]);
    }
    Case::Program { program, limits: CEILINGS, extra: (0, 0) }
}

/// Words of every kind set to others, lists cut, counts and stores that do not fit.
pub fn faulty(_: u64, rng: &mut Rng) -> Case {
    let n = *rng.pick(&[0, 1, 2, 2, 3, 5]);
    let bits = *rng.pick(&[0, 1, 2, 65]);
    let (nodes, operations) = (rng.below(8), 1 + rng.below(6));
    let mut program = program(rng, n, bits, nodes, operations, 3, &EIGHTHS);
    for _ in 0..1 + rng.below(2) {
        let odd = |rng: &mut Rng, w: u32| *rng.pick(&[0, 1, 2, 3, 4, 5, 7, 8, 2 * n, 2 * n + 1, w.wrapping_add(1), w.wrapping_sub(1), u32::MAX]);
        let pick = rng.below(9);
        let list = if pick < 3 { &mut program.nodes } else { &mut program.operations };
        match pick {
            0..=5 if !list.is_empty() => {
                let i = rng.below(list.len() as u64) as usize;
                list[i] = odd(rng, list[i]);
            }
            6 => list.truncate(list.len().saturating_sub(1 + rng.below(5) as usize)),
            7 => program.qubits = *rng.pick(&[0, 1, n.saturating_sub(1), n + 1, 6, 31, 513, u32::MAX]),
            _ if !program.store.is_empty() => {
                let i = rng.below(program.store.len() as u64) as usize;
                if rng.one_in(2) { program.store[i] = *rng.pick(&[1, 2, 255]) } else { program.store.truncate(i) }
            }
            _ => program.bits = *rng.pick(&[0, 1, 64, 65, u32::MAX]),
        }
    }
    let (limits, extra) = edges(rng);
    Case::Program { program, limits, extra }
}
