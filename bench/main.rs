//! Times the Rust, the archive and the plain C version on the same circuits and Pauli programs; checks first that all words agree.
#![allow(dead_code, unused_imports, unused_variables)]
mod angle;
mod calls;
mod circuit;
mod driver;
mod pbc;
mod qasm;
mod rust;
mod semantics;
mod symbolic_angle;

use calls::kind::{CCX, CH, CNOT, CSWAP, CY, CZ, H, MEASURE, RESET, RZ, S, SDG, SWAP, T, TDG, X, Y, Z};
use calls::{ARCHIVE, CEILINGS, Calls, PLAIN};
use pbc::{Pauli, PauliAngle, PauliAxis, PauliRef, PbcCircuit, Phase};
use rust::Words;
use semantics::channel::{Channel, pbc_channel};
use semantics::test_support::Scalar;
use std::hint::black_box;
use std::io::Write;
use std::process::{Command, Stdio};
use std::time::{Duration, Instant};

struct Row {
    family: &'static str,
    deep: bool,
    words: Words,
    /// The ends of the layers of a layered circuit.
    ends: Option<Vec<u32>>,
}

fn row(family: &'static str, deep: bool, qubits: u32, bits: u32, gates: &[[u32; 3]]) -> Row {
    let gates = gates.iter().flat_map(|g| [g[0], g[1], g[2], 0, 0]).collect();
    Row { family, deep, words: Words { qubits, bits, store: vec![0; bits as usize], gates }, ends: None }
}

/// The same in layers of so many gates.
fn layered(row: Row, gates: usize) -> Row {
    let count = row.words.gates.len() / 5;
    Row { ends: Some((0..count).step_by(gates).map(|start| (start + gates).min(count) as u32).collect()), ..row }
}

/// So many h with a t behind each and a cnot behind every third; a measure into bit 0 after half of them and after the last if asked for.
fn deep(n: u32, weight: u32, measures: bool) -> Vec<[u32; 3]> {
    let mut gates = Vec::new();
    for i in 0..weight {
        let q = i % n;
        gates.extend([[H, q, 0], [T, q, 0]]);
        if n > 1 && i % 3 == 2 {
            gates.push([CNOT, q, (q + 1) % n]);
        }
        if measures && (i + 1 == weight / 2 || i + 1 == weight) {
            gates.push([MEASURE, q, 0]);
        }
    }
    gates
}

fn rows() -> Vec<Row> {
    let mut rows = Vec::new();
    let up_to = |top: u32| 1..=top;
    for n in up_to(4) {
        rows.push(row("no gates", false, n, 0, &[]));
    }
    for n in up_to(4) {
        let mut gates = vec![[H, 0, 0]];
        gates.extend((1..n).map(|q| [CNOT, q - 1, q]));
        rows.push(row("GHZ", false, n, 0, &gates));
    }
    for n in up_to(4) {
        let gates: Vec<_> = (0..n).flat_map(|q| [[H, q, 0], [T, q, 0]]).collect();
        rows.push(row("h and t on all", false, n, 0, &gates));
    }
    for n in up_to(4) {
        rows.push(row("deep, weight 48", true, n, 0, &deep(n, 48, false)));
    }
    for n in up_to(4) {
        rows.push(row("deep, weight 56", true, n, 0, &deep(n, 56, false)));
    }
    for n in up_to(4) {
        rows.push(row("deep, two measures into one bit", true, n, 1, &deep(n, 48, true)));
    }
    // twelve gates in 64 branches are over the term limit at 4 qubits; six bits are over the cell limit at 3
    for n in up_to(3) {
        let bits = if n == 3 { 5 } else { 6 };
        let gates: Vec<_> = (0..6).flat_map(|i| [[H, i % n, 0], [MEASURE, i % n, i % bits]]).collect();
        rows.push(row("six h and measure", false, n, bits, &gates));
    }
    for n in up_to(4) {
        let gates: Vec<_> = (0..4).map(|i| [RESET, i % n, 0]).collect();
        rows.push(row("four resets", false, n, 0, &gates));
    }
    let mut gates = Vec::new();
    for i in 0..6 {
        gates.push([MEASURE, i % 4, 0]);
        if i < 5 {
            gates.push([X, i % 4, 0]);
        }
    }
    rows.push(row("six measures, five x", false, 4, 1, &gates));
    for n in up_to(4) {
        let gates: Vec<_> = (0..1024).map(|i| [X, i % n, 0]).collect();
        rows.push(row("1,024 x", false, n, 0, &gates));
    }
    // every power of omega in turn
    for n in up_to(4) {
        let mut rz = row("1,024 rz", false, n, 0, &[]);
        rz.words.gates = (0..1024).flat_map(|i| [RZ, i % n, 0, 0, i % 8]).collect();
        rows.push(rz);
    }
    for n in up_to(4) {
        let gates: Vec<_> = (0..1024).map(|i| [X, i % n, 0]).collect();
        rows.push(layered(row("1,024 x in layers of n", false, n, 0, &gates), n as usize));
    }
    rows
}

/// circuit_channel, or layered_channel where there are ends.
fn channel(calls: &Calls, w: &Words, ends: Option<&[u32]>, result: &mut [i64], work: &mut [i64]) -> u32 {
    let mut index = 0;
    let verdict = unsafe {
        match ends {
            None => (calls.circuit_channel)(w.qubits, w.bits, w.store.as_ptr(), w.store.len(), w.gates.as_ptr(), w.gates.len(), CEILINGS.as_ptr(),
                result.as_mut_ptr(), result.len(), work.as_mut_ptr(), work.len(), &mut index),
            Some(e) => (calls.layered_channel)(w.qubits, w.bits, w.store.as_ptr(), w.store.len(), w.gates.as_ptr(), w.gates.len(), e.as_ptr(), e.len(),
                CEILINGS.as_ptr(), result.as_mut_ptr(), result.len(), work.as_mut_ptr(), work.len(), &mut index),
        }
    };
    black_box(&result);
    verdict
}

/// The calls of an earlier archive, whose channels may have another layout: no word of theirs is looked at.
#[cfg(before)]
mod before {
    unsafe extern "C" {
        pub fn before_foreituka_circuit_channel(qubits: u32, bits: u32, store: *const u8, store_bytes: usize, gates: *const u32, gate_words: usize,
            limits: *const u64, result: *mut i64, result_words: usize, work: *mut i64, work_words: usize, index: *mut u64) -> u32;
        pub fn before_foreituka_layered_channel(qubits: u32, bits: u32, store: *const u8, store_bytes: usize, gates: *const u32, gate_words: usize,
            ends: *const u32, end_count: usize, limits: *const u64, result: *mut i64, result_words: usize, work: *mut i64, work_words: usize,
            index: *mut u64) -> u32;
        pub fn before_foreituka_compare(left: *const i64, left_words: usize, right: *const i64, right_words: usize, place: *mut u64, scalars: *mut i64) -> u32;
    }
    pub static CALLS: crate::calls::Calls = crate::calls::Calls {
        name: "the archive before",
        circuit_channel: before_foreituka_circuit_channel,
        layered_channel: before_foreituka_layered_channel,
        compare: before_foreituka_compare,
        ..crate::calls::ARCHIVE
    };
}

/// The archive that --before names.
fn earlier() -> Option<&'static Calls> {
    #[cfg(before)]
    return Some(&before::CALLS);
    #[cfg(not(before))]
    return None;
}

/// Room for a channel and its work in that archive's layout, which may have five words an entry.
fn earlier_rooms(w: &Words) -> (Vec<i64>, Vec<i64>) {
    let (result, work) = w.channel_sizes();
    (vec![0; 4 + 5 * result / 4], vec![0; work])
}

// ---- Pauli programs

const PROGRAM: &str = "Pauli program, 24 rotations and a measure";

type PauliChannel = unsafe extern "C" fn(u32, u32, *const u8, usize, *const u32, usize, *const u32, usize, *const u64, *mut i64, usize, *mut i64, usize, *mut u64) -> u32;

unsafe extern "C" {
    fn foreituka_pauli_channel(qubits: u32, bits: u32, store: *const u8, store_bytes: usize, nodes: *const u32, node_words: usize, operations: *const u32,
        operation_words: usize, limits: *const u64, result: *mut i64, result_words: usize, work: *mut i64, work_words: usize, index: *mut u64) -> u32;
    fn plain_pauli_channel(qubits: u32, bits: u32, store: *const u8, store_bytes: usize, nodes: *const u32, node_words: usize, operations: *const u32,
        operation_words: usize, limits: *const u64, result: *mut i64, result_words: usize, work: *mut i64, work_words: usize, index: *mut u64) -> u32;
}

/// One bit, which is measured into.
struct Program {
    qubits: u32,
    nodes: Vec<[u32; 5]>,
    operations: Vec<[u32; 5]>,
}

/// Y of each qubit, and products of a Pauli of each qubit from 0 on; i times X times Z where there is one qubit. Rotations by odd eighths about all nodes in turn, each
/// fourth about the negative of its node; a measure of the last node after half of them, and behind it each third rotation on its outcome.
fn program(n: u32) -> Program {
    let (x, z, y) = (|q: u32| 1 + 2 * q, |q: u32| 2 + 2 * q, |q: u32| 2 * n + 1 + q);
    let mut nodes: Vec<[u32; 5]> = (0..n).map(|q| [2, q, 0, 0, 0]).collect();
    for first in [x(0), z(0)] {
        let mut last = first;
        for q in 1..n {
            nodes.push([4, last, 0, [z(q), y(q), x(q)][(first + q) as usize % 3], 0]);
            last = 2 * n + nodes.len() as u32;
        }
    }
    if n == 1 {
        nodes.push([4, x(0), 1, z(0), 0]);
    }
    let count = 2 * n + nodes.len() as u32;
    let mut operations: Vec<[u32; 5]> = (0..24).map(|i| {
        let (axis, turns, eighths) = (1 + i % count, if i % 4 == 3 { 2 } else { 0 }, 1 + 2 * (i / 2 % 4));
        [u32::from(i >= 12 && i % 3 == 0), axis, turns, eighths, 0]
    }).collect();
    operations.insert(12, [3, count, 0, 0, 0]);
    Program { qubits: n, nodes, operations }
}

impl Program {
    fn channel(&self, call: PauliChannel, result: &mut [i64], work: &mut [i64]) -> u32 {
        let (nodes, operations, mut index) = (self.nodes.as_flattened(), self.operations.as_flattened(), 0);
        let verdict = unsafe {
            call(self.qubits, 1, [0].as_ptr(), 1, nodes.as_ptr(), nodes.len(), operations.as_ptr(), operations.len(), CEILINGS.as_ptr(), result.as_mut_ptr(), result.len(),
                work.as_mut_ptr(), work.len(), &mut index)
        };
        black_box(&result);
        verdict
    }
    /// The result and work words that are asked for: two stores, two branches, and all nodes.
    fn sizes(&self) -> (usize, usize) {
        let d = 1usize << self.qubits;
        (rust::channel_words(d, 2), (2 * 2 + 1 + 2 * self.qubits as usize + self.nodes.len() + 2) * (5 * d * d + 3))
    }
    /// The Rust's own program.
    fn circuit(&self) -> PbcCircuit {
        let mut p = PbcCircuit::new(self.qubits as usize, 1);
        let mut refs: Vec<PauliRef> = vec![p.identity().as_ref()];
        refs.extend((0..self.qubits).flat_map(|q| [p.output_frame().x(q), p.output_frame().z(q)]));
        let scaled = |r: PauliRef, turns: u32| r.scaled([Phase::One, Phase::I, Phase::MinusOne, Phase::MinusI][turns as usize]);
        for w in &self.nodes {
            let r = match w[0] {
                2 => p.single(w[1], Pauli::Y).unwrap().as_ref(),
                _ => p.product(scaled(refs[w[1] as usize], w[2]), scaled(refs[w[3] as usize], w[4])).unwrap(),
            };
            refs.push(r);
        }
        let mut outcomes = Vec::new();
        for w in &self.operations {
            let (axis, angle) = (PauliAxis(scaled(refs[w[1] as usize], w[2])), PauliAngle::new(w[3] as i64));
            match w[0] {
                0 => p.rotate(axis, angle).unwrap(),
                1 => p.conditional_rotate(axis, angle, outcomes[w[4] as usize]).unwrap(),
                _ => outcomes.push(p.measure(axis, Some(w[3])).unwrap()),
            }
        }
        p
    }
    /// The channel's words by the archive and zeroed work words, after a check that plain C has the same words and the Rust the same blocks.
    fn agreed(&self) -> (Vec<i64>, Vec<i64>) {
        let (result_words, work_words) = self.sizes();
        let [left, right] = [(foreituka_pauli_channel as PauliChannel, "the archive"), (plain_pauli_channel, "plain C")].map(|(call, name)| {
            let (mut result, mut work) = (vec![-7; result_words], vec![-7; work_words]);
            assert_eq!(self.channel(call, &mut result, &mut work), 0, "{name}: refused");
            assert!(work.iter().all(|x| *x == 0), "{name}: work words are not zero");
            result
        });
        assert!(left == right, "the archive and plain C differ");
        if !asked("--no-rust") {
            let rust = pbc_channel(&self.circuit(), &[false], rust::limits(&CEILINGS)).expect("the Rust refuses");
            assert!(left == rust_words(&rust, &left), "the archive and the Rust differ");
        }
        (left, vec![0; work_words])
    }
}

fn compare(calls: &Calls, left: &[i64], right: &[i64]) -> u32 {
    let (mut place, mut scalars) = ([0; 3], [0; 10]);
    unsafe { (calls.compare)(left.as_ptr(), left.len(), right.as_ptr(), right.len(), place.as_mut_ptr(), scalars.as_mut_ptr()) }
}

/// The power of omega for each k, five words each.
fn omega(calls: &Calls, out: &mut [i64]) {
    for (k, words) in (0..).zip(out.chunks_exact_mut(5)) {
        unsafe { (calls.scalar_omega)(black_box(k), words.as_mut_ptr()) };
    }
    black_box(&out);
}

/// The median of some times, or the least of them where other work disturbs the machine (--minimum).
fn typical(times: &mut [f64]) -> f64 {
    times.sort_by(|a, b| a.total_cmp(b));
    if asked("--minimum") { times[0] } else { times[times.len() / 2] }
}

fn asked(option: &str) -> bool {
    std::env::args().any(|a| a == option)
}

/// Nanoseconds of each: samples are taken in turn, each of as many calls as last some 50 µs.
fn medians(samples: usize, budget: Duration, runs: &mut [&mut dyn FnMut()]) -> Vec<f64> {
    let mut counts = Vec::new();
    for run in runs.iter_mut() {
        run();
        let start = Instant::now();
        run();
        let once = start.elapsed().as_nanos().max(20) as usize;
        counts.push((50_000 / once).max(1));
    }
    let mut times = vec![Vec::new(); runs.len()];
    let start = Instant::now();
    while times[0].len() < samples && (times[0].len() < 3 || start.elapsed() < budget) {
        for (i, run) in runs.iter_mut().enumerate() {
            let t = Instant::now();
            for _ in 0..counts[i] {
                run();
            }
            times[i].push(t.elapsed().as_nanos() as f64 / counts[i] as f64);
        }
    }
    times.iter_mut().map(|t| typical(t)).collect()
}

/// Median nanoseconds of the Rust: at most `most` calls, and none begun after the budget is spent.
fn rust_median(most: usize, budget: Duration, mut run: impl FnMut()) -> f64 {
    if asked("--no-rust") {
        return f64::NAN;
    }
    let mut times = Vec::new();
    let start = Instant::now();
    while times.len() < most && (times.is_empty() || start.elapsed() < budget) {
        let t = Instant::now();
        run();
        times.push(t.elapsed().as_nanos() as f64);
    }
    typical(&mut times)
}

fn show(ns: f64) -> String {
    match ns {
        x if x.is_nan() => "–".into(),
        x if x < 1e3 => format!("{x:.0} ns"),
        x if x < 1e5 => format!("{:.1} µs", x / 1e3),
        x if x < 1e6 => format!("{:.0} µs", x / 1e3),
        x if x < 1e9 => format!("{:.1} ms", x / 1e6),
        x => format!("{:.2} s", x / 1e9),
    }
}

/// How many times the Rust's speed a row asks for, and at most how many times plain C's time.
const BAR: f64 = 150.0;
const DEEP_BAR: f64 = 1000.0;
const PLAIN_BAR: f64 = 1.1;
/// At most how many times the floor: channels of four qubits that are little but zeros, and two channels that are compared.
const WRITING_BAR: f64 = 1.2;
const READING_BAR: f64 = 2.5;
/// No row slower than in an earlier archive, by more than the clock's noise; weight 48 on four qubits a quarter faster.
const BEFORE_BAR: f64 = 1.05;
const FASTER_BAR: f64 = 0.75;

/// What is asked of a row.
#[derive(Clone, Copy, Default)]
struct Bars {
    rust: Option<f64>,
    plain: Option<f64>,
    floor: Option<f64>,
    /// At most how many times the time of the archive before.
    before: Option<f64>,
}

/// What a floor does, and to how many words: rows of the same have one floor, the least of theirs.
type Floor = (&'static str, usize);

struct Line {
    name: String,
    bars: Bars,
    rust: f64,
    before: f64,
    archive: f64,
    plain: f64,
    of: Floor,
    floor: f64,
    copy: f64,
    /// Writing the work words once: they have to be zero at the end.
    zeroing: f64,
}

impl Line {
    fn print(&self) {
        let times = if self.rust.is_nan() { "–".into() } else { format!("{:.0}", self.rust / self.archive) };
        let before = match earlier() {
            None => String::new(),
            Some(_) if self.before.is_nan() => " – | – |".into(),
            Some(_) => format!(" {} | {:.2} |", show(self.before), self.archive / self.before),
        };
        println!("| {} | {} | {} | {} | {times} | {:.2} | {} | {} | {:.1} |{before}", self.name, show(self.rust), show(self.archive), show(self.plain),
            self.archive / self.plain, show(self.floor), show(self.copy), self.archive / self.floor.max(1.0));
    }
    fn misses(&self) -> Vec<String> {
        let mut out = Vec::new();
        if let Some(bar) = self.bars.rust.filter(|b| self.rust / self.archive < *b) {
            let floor = self.rust / (self.floor + self.zeroing);
            let what = if self.zeroing > 0.0 { "the floor and the zeroing of the work words alone are" } else { "the floor alone is" };
            let why = if floor < bar { format!("; {what} at {floor:.0} times") } else { String::new() };
            out.push(format!("{}: {:.0} times the Rust's speed, the bar is {bar}{why}", self.name, self.rust / self.archive));
        }
        if let Some(bar) = self.bars.plain.filter(|b| self.archive / self.plain > *b) {
            out.push(format!("{}: {:.2} times the plain C version's time, the bar is {bar}", self.name, self.archive / self.plain));
        }
        if let Some(bar) = self.bars.floor.filter(|b| self.archive / self.floor > *b) {
            out.push(format!("{}: {:.2} times the floor, the bar is {bar}", self.name, self.archive / self.floor));
        }
        if let Some(bar) = self.bars.before.filter(|b| self.archive / self.before > *b) {
            out.push(format!("{}: {:.2} times the time of the archive before, the bar is {bar}", self.name, self.archive / self.before));
        }
        out
    }
}

/// A row is measured: the rows are printed at the end, when the floors are known.
fn measured(lines: &mut Vec<Line>, line: Line) {
    eprintln!("  {}: {}", line.name.replace(" | ", ", n = "), show(line.archive));
    lines.push(line);
}

/// Qubits, line, entries.
type Point = (u32, usize, f64);

/// A point of the family that was measured last, or the first of another.
fn growth_point(growth: &mut Vec<(&'static str, Vec<Point>)>, family: &'static str, point: Point) {
    match growth.last_mut() {
        Some((last, points)) if *last == family => points.push(point),
        _ => growth.push((family, vec![point])),
    }
}

/// One floor for each size: the least over all rows.
fn settle_floors(lines: &mut [Line]) {
    let measured: Vec<(Floor, f64)> = lines.iter().map(|l| (l.of, l.floor)).collect();
    for line in lines {
        line.floor = measured.iter().filter(|(of, _)| *of == line.of).map(|(_, t)| *t).fold(line.floor, f64::min);
    }
}

/// The Rust's channel in words, its records in the order of these; the words behind them are −7.
fn rust_words(rust: &Channel, words: &[i64]) -> Vec<i64> {
    let size = rust::record_words(rust.quantum_dim * rust.quantum_dim);
    let order: Vec<u64> = (0..words[2] as usize).map(|j| rust::HEADER + j * size).map(|at| words[at + 1] as u64 | (words[at + 2] as u64) << 32).collect();
    let mut want = rust::layout(rust.quantum_dim, rust.num_cbits, &order, rust.blocks.iter()).expect("the Rust has other stores");
    want.resize(words.len(), -7);
    want
}

/// The channel's words by the archive, after a check that plain C has the same words and the Rust the same blocks.
fn agreed(w: &Words, ends: Option<&[u32]>) -> (Vec<i64>, Vec<i64>) {
    let (result_words, work_words) = w.channel_sizes();
    let mut answers = Vec::new();
    for calls in [&ARCHIVE, &PLAIN] {
        let (mut result, mut work) = (vec![-7; result_words], vec![-7; work_words]);
        assert_eq!(channel(calls, w, ends, &mut result, &mut work), 0, "{}: refused", calls.name);
        assert!(work.iter().all(|x| *x == 0), "{}: work words are not zero", calls.name);
        answers.push(result);
    }
    assert!(answers[0] == answers[1], "the archive and plain C differ");
    if asked("--no-rust") {
        return (answers.swap_remove(0), vec![0; work_words]);
    }
    let rust = rust::circuit_channel(&w.circuit().unwrap(), &w.store, &CEILINGS).expect("the Rust refuses");
    assert!(answers[0] == rust_words(&rust, &answers[0]), "the archive and the Rust differ");
    (answers.swap_remove(0), vec![0; work_words])
}

// ---- as a user has it: two channels and compare

/// Of these circuits on four qubits, beside numpy.
const PAIRS: [&str; 3] = ["GHZ", "h and t on all", "deep, weight 48"];

fn pair_name(family: &str) -> String {
    format!("two channels and compare, {family}")
}

/// Nanoseconds of the same in numpy, by channels.py, which NUMPY names behind its interpreter; none where it is not there or left out.
fn numpy(rows: &[&Row], samples: usize, budget: Duration) -> Vec<f64> {
    let command = std::env::var("NUMPY").unwrap_or_default();
    let Some((python, script)) = command.split_once(' ').filter(|_| !asked("--no-numpy")) else { return vec![f64::NAN; rows.len()] };
    let (samples, seconds) = (samples.to_string(), budget.as_secs_f64().to_string());
    let mut asking = Command::new(python);
    asking.args([script, "--samples", &samples, "--seconds", &seconds]).args(asked("--minimum").then_some("--minimum")).stdin(Stdio::piped()).stdout(Stdio::piped());
    let mut child = asking.spawn().expect("channels.py");
    let mut given = child.stdin.take().unwrap();
    for r in rows {
        let gates: Vec<String> = r.words.gates.chunks_exact(5).flat_map(|g| &g[..3]).map(|w| w.to_string()).collect();
        writeln!(given, "{} {}", r.words.qubits, gates.join(" ")).unwrap();
    }
    drop(given);
    let out = child.wait_with_output().unwrap();
    assert!(out.status.success(), "channels.py failed");
    String::from_utf8(out.stdout).unwrap().lines().map(|l| l.parse().unwrap()).collect()
}

/// Prints the rows, and answers how many there are and which bars are missed: faster than numpy, and plain C's bar.
fn pairs(samples: usize, budget: Duration, only: Option<&str>) -> (usize, Vec<String>) {
    let all = rows();
    let chosen: Vec<&Row> = all.iter().filter(|r| r.words.qubits == 4 && PAIRS.contains(&r.family) && only.is_none_or(|o| pair_name(r.family).contains(o))).collect();
    if chosen.is_empty() {
        return (0, Vec::new());
    }
    println!("\nAs a user has it: two channels of four qubits, and compare, which finds them the same. Beside them numpy in double precision, by hand: outer products,");
    println!("and the largest difference (bench/channels.py).\n");
    println!("| circuit, twice | n | numpy | archive | plain C | numpy ÷ archive | archive ÷ plain C |\n|---|---|---|---|---|---|---|");
    let mut misses = Vec::new();
    for (r, numpy) in chosen.iter().zip(numpy(&chosen, samples, budget)) {
        let w = &r.words;
        let (left, work) = agreed(w, None);
        let run = |calls: &Calls, buffers: &mut [Vec<i64>; 3]| {
            let [left, right, work] = buffers;
            assert_eq!((channel(calls, w, None, left, work), channel(calls, w, None, right, work), compare(calls, left, right)), (0, 0, 100), "{}", calls.name);
        };
        let mut a = [left.clone(), left.clone(), work.clone()];
        let mut b = a.clone();
        let t = medians(samples, budget, &mut [&mut || run(&ARCHIVE, &mut a), &mut || run(&PLAIN, &mut b)]);
        let times = if numpy.is_nan() { "–".into() } else { format!("{:.2}", numpy / t[0]) };
        println!("| {} | 4 | {} | {} | {} | {times} | {:.2} |", r.family, show(numpy), show(t[0]), show(t[1]), t[0] / t[1]);
        let name = pair_name(r.family);
        if numpy <= t[0] {
            misses.push(format!("{name}: numpy takes {:.2} times our time, the bar is more than 1", numpy / t[0]));
        }
        if t[0] / t[1] > PLAIN_BAR {
            misses.push(format!("{name}: {:.2} times the plain C version's time, the bar is {PLAIN_BAR}", t[0] / t[1]));
        }
    }
    (chosen.len(), misses)
}

// ---- texts

const TEXTS: [&str; 3] = ["OpenQASM, 1,024 gates read", "OpenQASM, a megabyte of comments read", "OpenQASM, 1,024 gates written"];

/// Gates of every kind that has a name, in turn, on 4 qubits and 4 bits: five words each.
fn named_gates(count: u32) -> Vec<u32> {
    let one = [X, Y, Z, H, S, SDG, T, TDG, RESET].map(|kind| (kind, 1));
    let two = [CNOT, CZ, CY, CH, SWAP, MEASURE].map(|kind| (kind, 2));
    let kinds = [&one[..], &two[..], &[(CCX, 3), (CSWAP, 3)]].concat();
    let gate = |i: u32| {
        let (kind, used) = kinds[i as usize % kinds.len()];
        let word = |j: u32| if j < used { (i + j) % 4 } else { 0 };
        [kind, word(0), word(1), word(2), 0]
    };
    (0..count).flat_map(gate).collect()
}

/// How many words were read.
fn read_text(calls: &Calls, text: &[u8], gates: &mut [u32]) -> usize {
    let (mut counts, mut words, mut position) = ([0; 2], 0, 0);
    let reply = unsafe {
        (calls.read_qasm)(text.as_ptr(), text.len(), gates.as_mut_ptr(), gates.len(), counts.as_mut_ptr(), &mut words, &mut position)
    };
    assert_eq!((reply, counts), (0, [4, 4]), "{}: refused at {position}", calls.name);
    black_box(&gates);
    words
}

/// How many bytes were written.
fn write_text(calls: &Calls, gates: &[u32], out: &mut [u8]) -> usize {
    let (mut bytes, mut index) = (0, 0);
    let reply = unsafe { (calls.write_qasm)(4, 4, gates.as_ptr(), gates.len(), out.as_mut_ptr(), out.len(), &mut bytes, &mut index) };
    assert_eq!(reply, 0, "{}: refused", calls.name);
    black_box(&out);
    bytes
}

/// The archive and plain C on a text of 1,024 gates and on one with a mebibyte of comments behind the declarations, after a check that both agree.
fn texts(samples: usize, budget: Duration, only: Option<&str>) {
    let gates = named_gates(1024);
    let mut text = vec![0; 49 * 1024];
    let size = write_text(&ARCHIVE, &gates, &mut text);
    text.truncate(size);
    let few = named_gates(17);
    let mut long = vec![0; 49 * 17 + 76];
    let size = write_text(&ARCHIVE, &few, &mut long);
    long.truncate(size);
    let at = long.windows(5).position(|w| w == b"creg ").unwrap();
    let at = at + long[at..].iter().position(|b| *b == b'\n').unwrap() + 1;
    let comment = [b"// ".as_slice(), &[b'x'; 60], b"\n"].concat();
    long.splice(at..at, comment.repeat((1 << 20) / comment.len()));
    for (given, want) in [(&text, &gates), (&long, &few)] {
        for calls in [&ARCHIVE, &PLAIN] {
            let mut back = vec![7; want.len()];
            assert_eq!(read_text(calls, given, &mut back), want.len());
            assert!(back == *want, "{}: the words are not read back", calls.name);
        }
    }
    let mut other = vec![0; text.len()];
    write_text(&PLAIN, &gates, &mut other);
    assert!(text == other, "the archive and plain C write other texts");
    println!("\nTexts of OpenQASM 2, with no bar; plain C goes over a comment by memchr.\n");
    println!("| text | bytes | archive | plain C | archive, MB a second | plain C, MB a second | archive ÷ plain C |\n|---|---|---|---|---|---|---|");
    for (i, name) in TEXTS.iter().enumerate().filter(|(_, n)| only.is_none_or(|o| n.contains(o))) {
        let given = if i == 1 { &long } else { &text };
        let (mut a, mut b, mut c, mut d) = (gates.clone(), gates.clone(), text.clone(), text.clone());
        let t = if i < 2 {
            medians(samples, budget, &mut [&mut || { read_text(&ARCHIVE, given, &mut a); }, &mut || { read_text(&PLAIN, given, &mut b); }])
        } else {
            medians(samples, budget, &mut [&mut || { write_text(&ARCHIVE, &gates, &mut c); }, &mut || { write_text(&PLAIN, &gates, &mut d); }])
        };
        let rate = |ns: f64| given.len() as f64 * 1e3 / ns;
        println!("| {name} | {} | {} | {} | {:.0} | {:.0} | {:.2} |", given.len(), show(t[0]), show(t[1]), rate(t[0]), rate(t[1]), t[0] / t[1]);
    }
}

fn main() {
    let quick = asked("--quick");
    let only = std::env::args().skip(1).find(|a| !a.starts_with("--"));
    let (samples, budget) = if quick { (9, Duration::from_millis(300)) } else { (101, Duration::from_millis(2000)) };
    let (most, rust_budget) = if quick { (3, Duration::from_millis(500)) } else { (11, Duration::from_millis(8000)) };
    let names = ["compare, two equal channels", "compare, two equal channels of two blocks"];
    let schedules = ["schedule of 1,024 x, in order", "schedule of 1,024 x, reversed"];
    let kept = ["keystroke in a kept circuit of 1 gate", "keystroke in a kept circuit of 1,024 gates"];
    let listed = "a list of 32 pairs of 48 gates";
    let omegas = "1,024 scalars by omega";
    let forms = ["pack_channel, h and t on all", "unpack_channel, h and t on all", "write_plain, GHZ", "read_plain, GHZ"];
    // 1,024 gates on different qubits: kind, qubits of a gate
    let full = [("1,024 x in one layer, refused", X, 1), ("1,024 ccx in one layer, refused", CCX, 3)];
    if let Some(o) = &only {
        if !rows().iter().map(|r| r.family).chain(names).chain([omegas]).chain(TEXTS).chain(full.map(|f| f.0)).chain(schedules).chain(kept).chain([listed, PROGRAM]).chain(forms).any(|n| n.contains(o.as_str()))
            && !PAIRS.iter().any(|f| pair_name(f).contains(o.as_str()))
        {
            eprintln!("no circuit's name has the words {o:?}");
            std::process::exit(2);
        }
    }
    let mut lines: Vec<Line> = Vec::new();
    let mut growth = Vec::new();
    let plain_bar = Bars { plain: Some(PLAIN_BAR), ..Bars::default() };
    for r in rows().iter().filter(|r| only.as_ref().is_none_or(|o| r.family.contains(o.as_str()))) {
        let (w, ends) = (&r.words, r.ends.as_deref());
        let (mut result, mut work) = agreed(w, ends);
        let used = rust::channel_words(1 << w.qubits, result[2] as usize);
        let source = result.clone();
        let (mut a, mut b, mut floor) = (result.clone(), work.clone(), result.clone());
        let (mut floor2, mut zeroed) = (result.clone(), work.clone());
        let (mut old_result, mut old_work) = earlier_rooms(w);
        let t = medians(samples, budget, &mut [
            &mut || assert_eq!(channel(&ARCHIVE, w, ends, &mut result, &mut work), 0),
            &mut || assert_eq!(channel(&PLAIN, w, ends, &mut a, &mut b), 0),
            &mut || { black_box(&mut floor[..used]).fill(0); black_box(&floor); },
            &mut || { black_box(&mut floor2[..used]).copy_from_slice(&source[..used]); black_box(&floor2); },
            &mut || { black_box(&mut zeroed[..]).fill(0); black_box(&zeroed); },
            &mut || if let Some(calls) = earlier() { assert_eq!(channel(calls, w, ends, &mut old_result, &mut old_work), 0) },
        ]);
        let c = w.circuit().unwrap();
        let rust = rust_median(most, rust_budget, || { black_box(rust::circuit_channel(&c, &w.store, &CEILINGS).is_ok()); });
        let units = (1u64 << (4 * w.qubits)) as f64 * (1u64 << w.splits().1) as f64;
        growth_point(&mut growth, r.family, (w.qubits, lines.len(), units));
        let floor = (w.qubits == 4 && ["no gates", "GHZ"].contains(&r.family)).then_some(WRITING_BAR);
        let faster = if w.qubits == 4 && r.family == "deep, weight 48" { FASTER_BAR } else { BEFORE_BAR };
        let bars = Bars { rust: Some(if r.deep { DEEP_BAR } else { BAR }), floor, before: Some(faster), ..plain_bar };
        let before = if earlier().is_some() { t[5] } else { f64::NAN };
        measured(&mut lines, Line { name: format!("{} | {}", r.family, w.qubits), bars, rust, before, archive: t[0], plain: t[1], of: ("write", used), floor: t[2], copy: t[3], zeroing: t[4] });
    }
    for n in (1..=4).filter(|_| only.as_ref().is_none_or(|o| PROGRAM.contains(o.as_str()))) {
        let p = program(n);
        let (mut result, mut work) = p.agreed();
        let used = rust::channel_words(1 << n, result[2] as usize);
        let source = result.clone();
        let (mut a, mut b) = (result.clone(), work.clone());
        let (mut floor, mut copy, mut zeroed) = (result.clone(), result.clone(), work.clone());
        let t = medians(samples, budget, &mut [
            &mut || assert_eq!(p.channel(foreituka_pauli_channel, &mut result, &mut work), 0),
            &mut || assert_eq!(p.channel(plain_pauli_channel, &mut a, &mut b), 0),
            &mut || { black_box(&mut floor[..used]).fill(0); black_box(&floor); },
            &mut || { black_box(&mut copy[..used]).copy_from_slice(&source[..used]); black_box(&copy); },
            &mut || { black_box(&mut zeroed[..]).fill(0); black_box(&zeroed); },
        ]);
        assert!(result == a && a == source, "the archive and plain C leave other words");
        let c = p.circuit();
        let rust = rust_median(most, rust_budget, || { black_box(pbc_channel(&c, &[false], rust::limits(&CEILINGS)).is_ok()); });
        growth_point(&mut growth, PROGRAM, (n, lines.len(), (2u64 << (4 * n)) as f64));
        measured(&mut lines, Line { name: format!("{PROGRAM} | {n}"), bars: plain_bar, rust, before: f64::NAN, archive: t[0], plain: t[1], of: ("write", used), floor: t[2], copy: t[3], zeroing: t[4] });
    }
    // every pair of gates is asked before the limit on qubits is
    for (name, kind, used) in full.iter().filter(|f| only.as_ref().is_none_or(|o| f.0.contains(o.as_str()))) {
        let gates = (0..1024).flat_map(|i| [*kind, used * i, if *used > 1 { used * i + 1 } else { 0 }, if *used > 2 { used * i + 2 } else { 0 }, 0]);
        let w = &Words { qubits: 1024 * used, bits: 0, store: vec![], gates: gates.collect() };
        let ends: Option<&[u32]> = Some(&[1024]);
        let mut copy = w.gates.clone();
        let t = medians(samples, budget, &mut [
            &mut || assert_eq!(channel(&ARCHIVE, w, ends, &mut [], &mut []), 1),
            &mut || assert_eq!(channel(&PLAIN, w, ends, &mut [], &mut []), 1),
            &mut || { black_box(black_box(&w.gates).iter().fold(0, |a, g| a ^ g)); },
            &mut || { black_box(&mut copy[..]).copy_from_slice(&w.gates); black_box(&copy); },
        ]);
        measured(&mut lines, Line { name: format!("{name} | {}", w.qubits), bars: plain_bar, rust: f64::NAN, before: f64::NAN, archive: t[0], plain: t[1], of: ("gates", w.gates.len()), floor: t[2], copy: t[3], zeroing: 0.0 });
    }
    // 1,024 gates on different qubits as a schedule of themselves: in order no two are asked whether they share, reversed every two are
    for (reversed, name) in [false, true].into_iter().zip(schedules).filter(|s| only.as_ref().is_none_or(|o| s.1.contains(o.as_str()))) {
        let list = |order: &[u32]| order.iter().flat_map(|q| [X, *q, 0, 0, 0]).collect::<Vec<_>>();
        let mut table: Vec<u32> = (0..1024).collect();
        let old = list(&table);
        if reversed {
            table.reverse();
        }
        let new = list(&table);
        let judge = |calls: &Calls| unsafe {
            (calls.judge_schedule)(1024, 0, old.as_ptr(), old.len(), new.as_ptr(), new.len(), table.as_ptr(), table.len(), &mut 0)
        };
        let mut copy = old.clone();
        let t = medians(samples, budget, &mut [
            &mut || assert_eq!(judge(&ARCHIVE), 0),
            &mut || assert_eq!(judge(&PLAIN), 0),
            &mut || { black_box(black_box(&old).iter().chain(black_box(&new)).chain(black_box(&table)).fold(0, |a, w| a ^ w)); },
            &mut || { black_box(&mut copy[..]).copy_from_slice(&new); black_box(&copy); },
        ]);
        measured(&mut lines, Line { name: format!("{name} | 1024"), bars: plain_bar, rust: f64::NAN, before: f64::NAN, archive: t[0], plain: t[1], of: ("schedule", old.len()), floor: t[2], copy: t[3], zeroing: 0.0 });
    }
    // the last gate replaced, removed and appended again, and the verdict asked after each
    for (count, name) in [1, 1024].into_iter().zip(kept).filter(|k| only.as_ref().is_none_or(|o| k.1.contains(o.as_str()))) {
        let begun = |calls: &Calls| {
            let mut words = vec![0; 70 + 5 * count];
            assert_eq!(unsafe { (calls.kept_start)(1, 1, words.as_mut_ptr(), words.len()) }, 0);
            for _ in 0..count {
                assert_eq!(unsafe { (calls.kept_append)(words.as_mut_ptr(), words.len(), [X, 0, 0, 0, 0].as_ptr(), &mut 0) }, 0);
            }
            words
        };
        let keystroke = |calls: &Calls, words: &mut [i64]| unsafe {
            let (measure, x) = ([MEASURE, 0, 0, 0, 0], [X, 0, 0, 0, 0]);
            let ask = |words: &[i64]| assert_eq!((calls.kept_verdict)(words.as_ptr(), words.len(), [0u8].as_ptr(), 1, CEILINGS.as_ptr(), 1 << 20, 1 << 20), 0);
            assert_eq!((calls.kept_replace)(words.as_mut_ptr(), words.len(), count - 1, measure.as_ptr(), &mut 0), 0);
            ask(words);
            assert_eq!((calls.kept_remove)(words.as_mut_ptr(), words.len()), 0);
            ask(words);
            assert_eq!((calls.kept_append)(words.as_mut_ptr(), words.len(), x.as_ptr(), &mut 0), 0);
            ask(words);
        };
        let (mut a, mut b) = (begun(&ARCHIVE), begun(&PLAIN));
        assert!(a == b, "the archive and plain C keep other words");
        let (source, mut copy) = (a.clone(), a[..70].to_vec());
        let t = medians(samples, budget, &mut [
            &mut || keystroke(&ARCHIVE, &mut a),
            &mut || keystroke(&PLAIN, &mut b),
            &mut || { black_box(black_box(&source[..70]).iter().fold(0, |a, w| a ^ w)); },
            &mut || { black_box(&mut copy[..]).copy_from_slice(&source[..70]); black_box(&copy); },
        ]);
        assert!(a == b && a == source, "the archive and plain C leave other words");
        measured(&mut lines, Line { name: format!("{name} | 1"), bars: plain_bar, rust: f64::NAN, before: f64::NAN, archive: t[0], plain: t[1], of: ("counts", 70), floor: t[2], copy: t[3], zeroing: 0.0 });
    }
    // 32 pairs of the same circuit on 3 qubits, all of them served
    if only.as_ref().is_none_or(|o| listed.contains(o.as_str())) {
        let w = row("list", false, 3, 0, &deep(3, 48, false)).words;
        let (result, work) = w.channel_sizes();
        let head = [w.qubits, w.bits, w.gates.len() as u32];
        let words: Vec<u32> = (0..32).flat_map(|_| head.iter().chain(&head).chain(&w.gates).chain(&w.gates).copied().collect::<Vec<_>>()).collect();
        let stores = w.store.repeat(64);
        let mut buffers: Vec<_> = (0..2).map(|_| (vec![0i64; result], vec![0i64; result], vec![0i64; work], vec![0u64; 7 * 32], vec![0i64; 10 * 32])).collect();
        let (first, second) = buffers.split_at_mut(1);
        let judge = |calls: &Calls, (left, right, work, answers, scalars): &mut (Vec<i64>, Vec<i64>, Vec<i64>, Vec<u64>, Vec<i64>)| {
            let (mut total, mut index) = (0, 0);
            let verdict = unsafe {
                (calls.compare_list)(32, words.as_ptr(), words.len(), stores.as_ptr(), stores.len(), CEILINGS.as_ptr(), u64::MAX, left.as_mut_ptr(), left.len(), right.as_mut_ptr(), right.len(),
                    work.as_mut_ptr(), work.len(), answers.as_mut_ptr(), answers.len(), scalars.as_mut_ptr(), scalars.len(), &mut total, &mut index)
            };
            assert!(verdict == 0 && answers.chunks_exact(7).all(|a| a[0] == 100), "{}: not all pairs are the same", calls.name);
        };
        let mut floor = vec![0i64; 64 * result];
        let source = floor.clone();
        let mut copy = floor.clone();
        let t = medians(samples, budget, &mut [
            &mut || judge(&ARCHIVE, &mut first[0]),
            &mut || judge(&PLAIN, &mut second[0]),
            &mut || { black_box(&mut floor[..]).fill(0); black_box(&floor); },
            &mut || { black_box(&mut copy[..]).copy_from_slice(&source); black_box(&copy); },
        ]);
        measured(&mut lines, Line { name: format!("{listed} | 3"), bars: plain_bar, rust: f64::NAN, before: f64::NAN, archive: t[0], plain: t[1], of: ("write", floor.len()), floor: t[2], copy: t[3], zeroing: 0.0 });
    }
    for measures in [false, true] {
        let name = names[measures as usize];
        if only.as_ref().is_some_and(|o| !name.contains(o.as_str())) {
            continue;
        }
        let w = row("compare", false, 4, measures as u32, &deep(4, 48, measures)).words;
        let (left, _) = agreed(&w, None);
        let right = left.clone();
        for calls in [&ARCHIVE, &PLAIN] {
            assert_eq!(compare(calls, &left, &right), 100, "{}: not the same", calls.name);
        }
        let mut copy = left.clone();
        let (mut old_left, mut old_work) = earlier_rooms(&w);
        earlier().into_iter().for_each(|calls| assert_eq!(channel(calls, &w, None, &mut old_left, &mut old_work), 0));
        let old_right = old_left.clone();
        let t = medians(samples, budget, &mut [
            &mut || assert_eq!(compare(&ARCHIVE, &left, &right), 100),
            &mut || assert_eq!(compare(&PLAIN, &left, &right), 100),
            &mut || { black_box(black_box(&left).iter().chain(black_box(&right)).fold(0, |a, w| a ^ w)); },
            &mut || { black_box(&mut copy[..]).copy_from_slice(&left); black_box(&copy); },
            &mut || if let Some(calls) = earlier() { assert_eq!(compare(calls, &old_left, &old_right), 100) },
        ]);
        let before = if earlier().is_some() { t[4] } else { f64::NAN };
        let c = w.circuit().unwrap();
        let x = if asked("--no-rust") { None } else { rust::circuit_channel(&c, &w.store, &CEILINGS).ok() };
        let y = x.clone();
        let rust = rust_median(most, rust_budget, || assert!(black_box(x.as_ref().unwrap()).compare(black_box(y.as_ref().unwrap())).is_ok()));
        measured(&mut lines, Line { name: format!("{name} | 4"), bars: Bars { floor: Some(READING_BAR), before: Some(BEFORE_BAR), ..plain_bar }, rust, before, archive: t[0], plain: t[1], of: ("read", left.len() + right.len()), floor: t[2], copy: t[3], zeroing: 0.0 });
    }
    // a channel of four qubits packed and unpacked, and one without √2 parts written and read
    for (k, name) in forms.iter().enumerate().filter(|(_, n)| only.as_ref().is_none_or(|o| n.contains(o.as_str()))) {
        let family = name.split_once(", ").unwrap().1;
        let w = rows().into_iter().find(|r| r.family == family && r.words.qubits == 4).unwrap().words;
        let (whole, _) = agreed(&w, None);
        let run = |calls: &Calls, k: usize, from: &[i64], to: &mut [i64]| {
            let call = [calls.pack_channel, calls.unpack_channel, calls.write_plain, calls.read_plain][k];
            assert_eq!(unsafe { call(from.as_ptr(), from.len(), to.as_mut_ptr(), to.len(), &mut 0) }, 0, "{}: refused", calls.name);
            black_box(&to);
        };
        let side = 1 << (2 * w.qubits);
        let mut less = vec![-7; rust::HEADER + rust::HEAD + 2 * side * if k < 2 { side + 1 } else { side }];
        run(&ARCHIVE, k / 2 * 2, &whole, &mut less);
        let (from, to) = if k % 2 == 0 { (&whole, &less) } else { (&less, &whole) };
        let (mut a, mut b) = (vec![-7; to.len()], vec![-7; to.len()]);
        let (mut floor, mut copy) = (a.clone(), a.clone());
        let t = medians(samples, budget, &mut [
            &mut || run(&ARCHIVE, k, from, &mut a),
            &mut || run(&PLAIN, k, from, &mut b),
            &mut || { black_box(&mut floor[..]).fill(0); black_box(&floor); },
            &mut || { black_box(&mut copy[..]).copy_from_slice(black_box(&to[..])); black_box(&copy); },
        ]);
        assert!(a == *to && b == *to, "the archive and plain C write other words, or they are not read back");
        measured(&mut lines, Line { name: format!("{name} | 4"), bars: Bars::default(), rust: f64::NAN, before: f64::NAN, archive: t[0], plain: t[1], of: ("write", to.len()), floor: t[2], copy: t[3], zeroing: 0.0 });
    }
    if only.as_ref().is_none_or(|o| omegas.contains(o.as_str())) {
        let mut answers = Vec::new();
        for calls in [&ARCHIVE, &PLAIN] {
            let mut out = vec![-7; 5 * 1024];
            omega(calls, &mut out);
            answers.push(out);
        }
        assert!(answers[0] == answers[1], "the archive and plain C have other powers of omega");
        let (mut a, mut b, mut floor, mut copy) = (answers[0].clone(), answers[0].clone(), answers[0].clone(), answers[0].clone());
        let t = medians(samples, budget, &mut [
            &mut || omega(&ARCHIVE, &mut a),
            &mut || omega(&PLAIN, &mut b),
            &mut || { black_box(&mut floor[..]).fill(0); black_box(&floor); },
            &mut || { black_box(&mut copy[..]).copy_from_slice(&answers[0]); black_box(&copy); },
        ]);
        let power = |k: usize| Scalar::omega((black_box(k) % 256) as u8);
        assert!(asked("--no-rust") || answers[0].chunks_exact(5).enumerate().all(|(k, w)| rust::cell(&power(k)).unwrap() == w), "the archive and the Rust differ");
        let rust = rust_median(most, rust_budget, || (0..1024).for_each(|k| { black_box(power(k)); }));
        measured(&mut lines, Line { name: format!("{omegas} | –"), bars: Bars::default(), rust, before: f64::NAN, archive: t[0], plain: t[1], of: ("write", floor.len()), floor: t[2], copy: t[3], zeroing: 0.0 });
    }
    settle_floors(&mut lines);
    let (before, dashes) = if earlier().is_some() { (" before | archive ÷ before |", "---|---|") } else { ("", "") };
    println!("| circuit | n | Rust | archive | plain C | Rust ÷ archive | archive ÷ plain C | floor | memcpy | archive ÷ floor |{before}");
    println!("|---|---|---|---|---|---|---|---|---|---|{dashes}");
    lines.iter().for_each(Line::print);
    println!("\nThe floor: writing the result's words once by memset; for compare, reading both channels' words once; one for each number of words, the least over all rows;");
    println!("for a refused layer, reading the gates' words once; for a schedule, those of both lists and the table; for a keystroke, reading the counts once; for a list of pairs, writing the words of all its channels once.");
    println!("Scalars by omega have no bar, and neither have packing, unpacking, and writing and reading without √2 parts: beside them stands memcpy of the words that they write.");
    println!("The Rust has no layers: beside them stands its channel of the gate list, and nothing beside a refusal, a schedule or a kept circuit, which it does not have.");
    println!("\nGrowth with n: the archive's time for each of the d^4·V entries of a channel, in ns. It is no worse than the work where it does not rise, or");
    println!("rises no faster than the floor's (a result that no longer fits a cache). A dash: no such row; six h and measure on 4 qubits are over the limits.\n");
    println!("| circuit | n = 1 | 2 | 3 | 4 |\n|---|---|---|---|---|");
    let mut misses: Vec<String> = lines.iter().flat_map(|l| l.misses()).collect();
    for (family, points) in &growth {
        let each = |p: &Point, time: fn(&Line) -> f64| time(&lines[p.1]) / p.2;
        let shown: Vec<String> = (1..=4).map(|n| points.iter().find(|p| p.0 == n).map_or("–".into(), |p| format!("{:.2}", each(p, |l| l.archive)))).collect();
        println!("| {family} | {} |", shown.join(" | "));
        for p in points.windows(2) {
            let (time, floor) = (each(&p[1], |l| l.archive) / each(&p[0], |l| l.archive), each(&p[1], |l| l.floor) / each(&p[0], |l| l.floor));
            if time > 1.1 * floor.max(1.0) {
                misses.push(format!("{family}: from n = {} to {} the time grows {time:.2} times as fast as d^4·V", p[0].0, p[1].0));
            }
        }
    }
    let (pairs, missed) = pairs(samples, budget, only.as_deref());
    misses.extend(missed);
    if only.as_ref().is_none_or(|o| TEXTS.iter().any(|n| n.contains(o.as_str()))) {
        texts(samples, budget, only.as_deref());
    }
    let (who, how) = (if asked("--no-rust") { "the archive" } else { "the Rust, the archive" }, if asked("--minimum") { "Minima" } else { "Medians" });
    println!("\nEvery word of every row agrees between {who} and plain C. {how}{}.", if quick { " of few repeats" } else { " of repeats" });
    let some = if asked("--no-rust") || asked("--no-numpy") { " that were measured" } else { "" };
    if misses.is_empty() {
        println!("All bars{some} are met: {} rows.", lines.len() + pairs);
    } else {
        println!("Bars that are not met:");
        for m in misses {
            println!("- {}", m.replace(" | ", ", n = "));
        }
    }
    if asked("--no-rust") {
        println!("Bars that were not measured, by --no-rust: the Rust's speed times {BAR}, or times {DEEP_BAR} for deep circuits, in all rows of circuits.");
    }
    if asked("--no-numpy") {
        println!("Bars that were not measured, by --no-numpy: faster than numpy, in {pairs} rows.");
    }
}
