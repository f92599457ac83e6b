//! Asks the unchanged Rust and prints its answers.
//!
//! `oracle list` reads one circuit and lists its channel. `oracle batch` reads a command a line and ends each answer with a line ".".
//! `oracle bench` times circuit_channel on "LABEL circuit" lines. A circuit is: n, bits, the store, G, 5 words a gate; without bits and
//! store for unitaries. A refusal is "refused NUMBER INDEX" with document 01's numbers 1 to 4.
//!
//! sc CALL numbers        a scalar call: integer N, zero, i, inv_sqrt_two, omega K, add X Y, neg X, half X, conj X, mul X Y (five numbers each)
//! chan circuit           the channel, listed        chanx 6 limits, n, bits, store length, store, G, words
//! eff circuit            its classical blocks       effw channel
//! unit circuit           the unitary, listed        unitx 4 limits, circuit
//! cmp circuit circuit    compare                    cmpw channel channel
//! phase circuit circuit  the phase test             matphase dim cells dim cells
//! pbc program            the channel of a Pauli program
//!
//! A channel is: dim, bits, block count; a block is its store, its number of nonzero entries, and row, column, five numbers for each.
use crate::angle::Angle;
use crate::circuit::{Circuit, Gate};
use crate::pbc::{Pauli, PauliAngle, PauliRef, PbcCircuit, PbcError, Phase};
use crate::semantics::channel::{Channel, ChannelLimits, Difference, circuit_channel, pbc_channel};
use crate::semantics::test_support::Scalar;
use crate::semantics::{Error, Limits, Matrix, circuit_unitary};
use num_bigint::BigInt;
use num_rational::BigRational;
use num_traits::{One, ToPrimitive, Zero};
use std::fmt::Write as _;
use std::io::{Read, Write as _};

fn log2(d: &BigInt) -> u64 {
    let bits = d.bits();
    assert!(*d == BigInt::from(1) << (bits - 1), "denominator is no power of two: {d}");
    bits - 1
}
pub fn words(s: &Scalar) -> ([BigInt; 4], u64) {
    let e = s.0.iter().map(|r| log2(r.denom())).max().unwrap();
    (std::array::from_fn(|i| s.0[i].numer() * (BigInt::from(1) << (e - log2(s.0[i].denom())))), e)
}
fn show(s: &Scalar) -> String {
    let (n, e) = words(s);
    format!("{} {} {} {} {}", n[0], n[1], n[2], n[3], e)
}
pub fn scalar(w: &[i64]) -> Scalar {
    let d = BigInt::from(1) << (w[4] as u64);
    Scalar(std::array::from_fn(|i| BigRational::new(BigInt::from(w[i]), d.clone())))
}
fn error(e: Error) -> String {
    match e {
        Error::LimitExceeded => "refused 1 0\n".into(),
        Error::UnsupportedOperation { index } => format!("refused 2 {index}\n"),
        Error::InvalidOperand { index } => format!("refused 3 {index}\n"),
        Error::InvalidInitialStore => "refused 4 0\n".into(),
    }
}
/// An angle whose projective_quarters is k (0..7), or one for which it answers none (8).
fn quarters(k: u32) -> Angle {
    let a = if k < 8 { Angle::phase_quarters(k as u8) } else { Angle::from_f64(0.1).unwrap() };
    assert_eq!(a.projective_quarters(), if k < 8 { Some(k as u8) } else { None });
    a
}
/// The gate the five words name, or None where Rust's Gate cannot hold it (kind or k unknown).
pub fn gate(w: &[i64]) -> Option<Gate> {
    let (a, b, c, k) = (w[1] as u32, w[2] as u32, w[3] as u32, w[4] as u32);
    let any = || Angle::from_f64(0.1).unwrap();
    Some(match w[0] {
        0 => Gate::h(a), 1 => Gate::x(a), 2 => Gate::z(a), 3 => Gate::s(a), 4 => Gate::sdg(a),
        5 => Gate::t(a), 6 => Gate::tdg(a),
        7 if k <= 8 => Gate::rz(quarters(k), a),
        8 => Gate::cnot { control: a, target: b },
        9 => Gate::cz { control: a, target: b },
        10 => Gate::ccx { control1: a, control2: b, target: c },
        11 => Gate::ccz { control1: a, control2: b, target: c },
        12 => Gate::measure { qubit: a, cbit: b },
        13 => Gate::reset(a),
        14 => Gate::p(any(), a),
        15 => Gate::y(a), 16 => Gate::sx(a),
        17 => Gate::rx(any(), a), 18 => Gate::ry(any(), a),
        19 => Gate::swap(a, b),
        20 => Gate::cy { control: a, target: b },
        21 => Gate::cp { lambda: any(), control: a, target: b },
        22 => Gate::crx { theta: any(), control: a, target: b },
        23 => Gate::cry { theta: any(), control: a, target: b },
        24 => Gate::crz { theta: any(), control: a, target: b },
        25 => Gate::ch { control: a, target: b },
        26 => Gate::cswap { control: a, first: b, second: c },
        _ => return None,
    })
}
struct In<'a> { it: std::slice::Iter<'a, i64> }
impl<'a> In<'a> {
    fn next(&mut self) -> i64 { *self.it.next().expect("too few numbers") }
    fn circuit(&mut self, with_bits: bool) -> Option<(Circuit, Vec<bool>)> {
        let n = self.next() as usize;
        let bits = if with_bits { self.next() as usize } else { 0 };
        let store: Vec<i64> = (0..bits).map(|_| self.next()).collect();
        let g = self.next() as usize;
        let ws: Vec<i64> = (0..5 * g).map(|_| self.next()).collect();
        let mut c = Circuit::with_cbits(n, bits);
        for w in ws.chunks(5) {
            // pushed directly: Circuit::apply panics on a repeated operand, the semantics refuse it
            c.gates.push(gate(w)?);
        }
        if store.iter().any(|b| *b > 1) { return None; }
        Some((c, store.iter().map(|b| *b == 1).collect()))
    }
    fn channel(&mut self) -> Channel {
        let (dim, bits, count) = (self.next() as usize, self.next() as usize, self.next());
        let mut blocks = std::collections::BTreeMap::new();
        for _ in 0..count {
            let store: Vec<bool> = (0..bits).map(|_| self.next() == 1).collect();
            let mut m = Matrix::zero(dim * dim);
            for _ in 0..self.next() {
                let v: Vec<i64> = (0..7).map(|_| self.next()).collect();
                m.set(v[0] as usize, v[1] as usize, scalar(&v[2..]));
            }
            blocks.insert(store, m);
        }
        Channel { quantum_dim: dim, num_cbits: bits, blocks }
    }
}
fn store_text(s: &[bool]) -> String {
    if s.is_empty() { "-".into() } else { s.iter().map(|b| if *b { '1' } else { '0' }).collect() }
}
fn matrix_text(out: &mut String, m: &Matrix) {
    let zero = Scalar::zero();
    for r in 0..m.dim {
        for c in 0..m.dim {
            if m.get(r, c) != &zero { let _ = writeln!(out, "{r} {c} {}", show(m.get(r, c))); }
        }
    }
}
fn blocks_text<'a>(dim: usize, bits: usize, blocks: impl ExactSizeIterator<Item = (&'a Vec<bool>, &'a Matrix)>) -> String {
    let mut out = format!("dim {dim} cbits {bits} blocks {}\n", blocks.len());
    for (s, m) in blocks {
        let _ = writeln!(out, "store {}", store_text(s));
        matrix_text(&mut out, m);
    }
    out
}
fn compared(x: &Channel, y: &Channel) -> String {
    match x.compare(y) {
        Ok(()) => "same\n".into(),
        Err(Difference::Dimensions) => "dimensions\n".into(),
        Err(Difference::Entry { classical, row, col, values }) =>
            format!("entry {} {row} {col} {} {}\n", store_text(&classical), show(&values.0), show(&values.1)),
    }
}
fn channel(c: &Circuit, s: &[bool]) -> Result<Channel, Error> { circuit_channel(c, s, ChannelLimits::default()) }
const NONE: &str = "not representable in the Rust\n";

fn list(nums: &[i64]) -> String {
    let mut i = In { it: nums.iter() };
    match i.circuit(true) {
        None => NONE.into(),
        Some((c, s)) => match channel(&c, &s) {
            Err(e) => error(e),
            Ok(ch) => blocks_text(ch.quantum_dim, ch.num_cbits, ch.blocks.iter()),
        },
    }
}
fn phase(k: i64) -> Phase { [Phase::One, Phase::I, Phase::MinusOne, Phase::MinusI][k as usize] }

/// n bits store.. N nodes(6 words each: 0 pauli qubit . . . | 1 na pa nb pb .) P ops(5 words: kind axis phase x y)
/// pauli: 0 I 1 X 2 Y 3 Z.  op kinds: 0 rotate (x eighths), 1 measure into bit x, 2 measure hidden,
/// 3 conditional rotate (x eighths, y outcome)
fn pbc(nums: &[i64]) -> String {
    let mut i = In { it: nums.iter() };
    let n = i.next() as usize;
    let bits = i.next() as usize;
    let store: Vec<bool> = (0..bits).map(|_| i.next() == 1).collect();
    let mut p = PbcCircuit::new(n, bits);
    let mut refs: Vec<PauliRef> = vec![p.identity().as_ref()];
    for q in 0..n as u32 { refs.push(p.output_frame().x(q)); refs.push(p.output_frame().z(q)); }
    let count = i.next();
    for _ in 0..count {
        let w: Vec<i64> = (0..5).map(|_| i.next()).collect();
        let r = if w[0] == 0 {
            match p.single(w[2] as u32, [Pauli::I, Pauli::X, Pauli::Y, Pauli::Z][w[1] as usize]) {
                Ok(a) => a.as_ref(), Err(e) => return format!("node error {e:?}\n"),
            }
        } else {
            let a = refs[w[1] as usize].scaled(phase(w[2]));
            let b = refs[w[3] as usize].scaled(phase(w[4]));
            match p.product(a, b) { Ok(r) => r, Err(e) => return format!("node error {e:?}\n") }
        };
        refs.push(r);
    }
    let ops = i.next();
    let mut outcomes = Vec::new();
    for _ in 0..ops {
        let w: Vec<i64> = (0..5).map(|_| i.next()).collect();
        let axis = match p.hermitian_axis(refs[w[1] as usize].scaled(phase(w[2])), 1_000_000) {
            Ok(a) => a, Err(e) => return format!("op error {e:?}\n"),
        };
        let r = match w[0] {
            0 => p.rotate(axis, PauliAngle::new(w[3])),
            1 => p.measure(axis, Some(w[3] as u32)).map(|m| outcomes.push(m)),
            2 => p.measure(axis, None).map(|m| outcomes.push(m)),
            _ => p.conditional_rotate(axis, PauliAngle::new(w[3]), outcomes[w[4] as usize]),
        };
        if let Err(e) = r { return format!("op error {e:?}\n"); }
    }
    match pbc_channel(&p, &store, ChannelLimits::default()) {
        Err(e) => error(e),
        Ok(ch) => blocks_text(ch.quantum_dim, ch.num_cbits, ch.blocks.iter()),
    }
}

fn command(line: &str) -> String {
    let (name, rest) = line.split_once(' ').unwrap_or((line, ""));
    if name == "sc" {
        let mut it = rest.split_ascii_whitespace();
        let op = it.next().unwrap();
        let w: Vec<i64> = it.map(|x| x.parse().unwrap()).collect();
        let r = match op {
            "integer" => Scalar::integer(w[0]),
            "zero" => Scalar::zero(),
            "i" => Scalar::i(),
            "inv_sqrt_two" => Scalar::inv_sqrt_two(),
            "omega" => Scalar::omega((w[0] % 256) as u8),
            "add" => scalar(&w).add(&scalar(&w[5..])),
            "neg" => scalar(&w).neg(),
            "half" => scalar(&w).half(),
            "conj" => scalar(&w).conj(),
            "mul" => scalar(&w).mul(&scalar(&w[5..])),
            _ => panic!("{op}"),
        };
        return show(&r) + "\n";
    }
    let w: Vec<i64> = rest.split_ascii_whitespace().map(|x| x.parse().unwrap()).collect();
    let mut i = In { it: w.iter() };
    match name {
        "chan" => list(&w),
        "pbc" => pbc(&w),
        // six limits, n, bits, store length, store.., G, words
        "chanx" => {
            let l: Vec<usize> = (0..6).map(|_| i.next() as usize).collect();
            let limits = ChannelLimits { matrices: Limits { max_qubits: l[0], max_matrix_cells: l[1], max_multiply_terms: l[2], max_operations: l[3] }, max_branches: l[4], max_classical_bits: l[5] };
            let n = i.next() as usize;
            let bits = i.next() as usize;
            let len = i.next();
            let store: Vec<bool> = (0..len).map(|_| i.next() == 1).collect();
            let g = i.next();
            let mut c = Circuit::with_cbits(n, bits);
            for _ in 0..g {
                let v: Vec<i64> = (0..5).map(|_| i.next()).collect();
                match gate(&v) { Some(g) => c.gates.push(g), None => return NONE.into() }
            }
            match circuit_channel(&c, &store, limits) {
                Err(e) => error(e),
                Ok(ch) => blocks_text(ch.quantum_dim, ch.num_cbits, ch.blocks.iter()),
            }
        }
        // four limits, n, G, words
        "unitx" => {
            let l: Vec<usize> = (0..4).map(|_| i.next() as usize).collect();
            let limits = Limits { max_qubits: l[0], max_matrix_cells: l[1], max_multiply_terms: l[2], max_operations: l[3] };
            match i.circuit(false) {
                None => NONE.into(),
                Some((c, _)) => match circuit_unitary(&c, limits) {
                    Err(e) => error(e),
                    Ok(m) => { let mut o = format!("dim {}\n", m.dim); matrix_text(&mut o, &m); o }
                },
            }
        }
        "unit" => match i.circuit(false) {
            None => NONE.into(),
            Some((c, _)) => match circuit_unitary(&c, Limits::default()) {
                Err(e) => error(e),
                Ok(m) => { let mut o = format!("dim {}\n", m.dim); matrix_text(&mut o, &m); o }
            },
        },
        "eff" => match i.circuit(true) {
            None => NONE.into(),
            Some((c, s)) => match channel(&c, &s) {
                Err(e) => error(e),
                Ok(ch) => { let b = ch.classical_blocks(); blocks_text(ch.quantum_dim, ch.num_cbits, b.iter()) }
            },
        },
        "effw" => { let ch = i.channel(); let b = ch.classical_blocks(); blocks_text(ch.quantum_dim, ch.num_cbits, b.iter()) }
        "cmpw" => { let x = i.channel(); let y = i.channel(); compared(&x, &y) }
        "cmp" => {
            let (Some((a, s)), Some((b, t))) = (i.circuit(true), i.circuit(true)) else { return NONE.into() };
            match (channel(&a, &s), channel(&b, &t)) {
                (Ok(x), Ok(y)) => compared(&x, &y),
                (Err(e), _) => format!("left {}", error(e)),
                (_, Err(e)) => format!("right {}", error(e)),
            }
        }
        "phase" => {
            let (Some((a, _)), Some((b, _))) = (i.circuit(false), i.circuit(false)) else { return NONE.into() };
            match (circuit_unitary(&a, Limits::default()), circuit_unitary(&b, Limits::default())) {
                (Ok(x), Ok(y)) => format!("{}\n", if x.equivalent_up_to_global_phase(&y) { "equivalent" } else { "not equivalent" }),
                (Err(e), _) => format!("left {}", error(e)),
                (_, Err(e)) => format!("right {}", error(e)),
            }
        }
        "matphase" => {
            let mut mats = Vec::new();
            for _ in 0..2 {
                let dim = i.next() as usize;
                let mut m = Matrix::zero(dim);
                for k in 0..dim * dim { let v: Vec<i64> = (0..5).map(|_| i.next()).collect(); m.entries[k] = scalar(&v); }
                mats.push(m);
            }
            format!("{}\n", if mats[0].equivalent_up_to_global_phase(&mats[1]) { "equivalent" } else { "not equivalent" })
        }
        _ => panic!("{name}"),
    }
}

pub fn main() {
    let mode = std::env::args().nth(1).unwrap_or("list".into());
    let mut text = String::new();
    std::io::stdin().read_to_string(&mut text).unwrap();
    let out = std::io::stdout();
    let mut out = std::io::BufWriter::new(out.lock());
    match mode.as_str() {
        "list" => {
            let w: Vec<i64> = text.split_ascii_whitespace().map(|x| x.parse().unwrap()).collect();
            out.write_all(list(&w).as_bytes()).unwrap();
        }
        "batch" => for line in text.lines() { out.write_all(command(line).as_bytes()).unwrap(); out.write_all(b".\n").unwrap(); },
        // one circuit a line ("chan ..."): microseconds per circuit_channel call alone, median of repeats
        "bench" => for line in text.lines() {
            let (label, rest) = line.split_once(' ').unwrap();
            let w: Vec<i64> = rest.split_ascii_whitespace().map(|x| x.parse().unwrap()).collect();
            let (c, s) = In { it: w.iter() }.circuit(true).unwrap();
            let mut times = Vec::new();
            let t0 = std::time::Instant::now();
            while times.len() < 3 || (t0.elapsed().as_millis() < 1500 && times.len() < 2000) {
                let t = std::time::Instant::now();
                let r = channel(&c, &s);
                times.push(t.elapsed().as_nanos());
                assert!(r.is_ok(), "{label}: {:?}", r.err());
            }
            times.sort();
            writeln!(out, "{label} runs {} median_us {:.1} min_us {:.1}", times.len(), times[times.len() / 2] as f64 / 1000.0, times[0] as f64 / 1000.0).unwrap();
        },
        _ => panic!("list | batch | bench"),
    }
}
