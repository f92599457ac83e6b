//! Channels kept in fewer words: packing and unpacking, and writing and reading without √2 parts, by the archive and plain C, held to the rules written anew: a block
//! is read as all its entries, whatever the form keeps of them.
use crate::calls::{ARCHIVE, Calls, PLAIN};
use crate::cases::{circuit, harmful, some_bits};
use crate::checks::{Case, Counts, WIDEST, channel_of, in_profile, same, same_words, smaller_words};
use crate::lent::{Lent, Rng};
use crate::programs::{self, Program};
use crate::rust::{EXPONENT, HEAD, HEADER, Words};

/// What is kept of a block: all entries, those with row ≤ column, or the first and the third numerator of each.
#[derive(Clone, Copy, Debug, PartialEq)]
pub enum Form {
    Whole,
    Half,
    Plain,
}

/// What makes a channel.
#[derive(Clone, Debug, PartialEq)]
pub enum Origin {
    Circuit(Words),
    Program(Program),
}

#[derive(Clone, Debug, PartialEq)]
pub enum Change {
    Value(i64),
    Add(i64),
    Negate,
}

/// A damage of words; records are counted modulo those that there are.
#[derive(Clone, Debug, PartialEq)]
pub enum Hurt {
    /// Any word.
    Set(u64, i64),
    /// A word of a record's head.
    Head(u64, usize, i64),
    /// A next index: that of another record.
    Link(u64, u64),
    /// A numerator: record, row, column, which of the four; in the entry across the diagonal too, so that a block stays Hermitian, or not.
    Entry(u64, u64, u64, usize, Change, bool),
    /// A block of zeros.
    Blank(u64),
    /// The same entries over an exponent that is one too large.
    Double(u64),
    /// So many words less.
    Cut(usize),
}

// ---- the rules

impl Form {
    /// The numerators that are kept of a block of so many rows, in the order of their words: row, column, which of the four.
    fn places(self, side: usize) -> impl Iterator<Item = (usize, usize, usize)> {
        let entries = (0..side * side).map(move |k| (k / side, k % side)).filter(move |(r, c)| self != Form::Half || r <= c);
        let parts: &[usize] = if self == Form::Plain { &[0, 2] } else { &[0, 1, 2, 3] };
        entries.flat_map(|(r, c)| parts.iter().map(move |i| (r, c, *i)))
    }
    /// The words of a record, by the request.
    fn record_words(self, side: usize) -> usize {
        HEAD + match self {
            Form::Whole => 4 * side * side,
            Form::Half => 2 * side * (side + 1),
            Form::Plain => 2 * side * side,
        }
    }
}

struct Record {
    head: [i64; HEAD],
    entries: Vec<[i64; 4]>,
}

/// A channel that was read: its header, its records in their order, and their numbers along the chain.
struct Channel {
    form: Form,
    head: [i64; HEADER],
    side: usize,
    records: Vec<Record>,
    chain: Vec<usize>,
}

fn conjugate(x: [i64; 4]) -> [i64; 4] {
    [x[0], x[1], -x[2], -x[3]]
}

/// The number of the record that an index names.
fn record_at(at: i64, size: usize, count: usize) -> Option<usize> {
    let (at, header) = (usize::try_from(at).ok()?, HEADER);
    (0..count).find(|j| header + j * size == at)
}

/// Words of a form; none where they are not well formed.
fn read(words: &[i64], form: Form) -> Option<Channel> {
    let head = *words.first_chunk::<HEADER>()?;
    let [dim, bits, count, first] = head;
    if ![1, 2, 4, 8, 16].contains(&dim) || !(0..=64).contains(&bits) {
        return None;
    }
    let side = (dim * dim) as usize;
    let size = form.record_words(side);
    let count = usize::try_from(count).ok().filter(|n| *n <= (words.len() - HEADER) / size)?;
    let mut records = Vec::new();
    for words in words[HEADER..].chunks_exact(size).take(count) {
        let head = *words.first_chunk::<HEAD>()?;
        let mut entries = vec![[0; 4]; side * side];
        for ((r, c, i), n) in form.places(side).zip(&words[HEAD..]) {
            entries[r * side + c][i] = Some(*n).filter(|n| (-WIDEST..=WIDEST).contains(n))?;
        }
        if form == Form::Half {
            for (r, c) in (0..side * side).map(|k| (k / side, k % side)).filter(|(r, c)| r >= c) {
                let mirrored = conjugate(entries[c * side + r]);
                if r == c && mirrored != entries[r * side + r] {
                    return None;
                }
                entries[r * side + c] = mirrored;
            }
        }
        let odd = entries.iter().flatten().any(|n| n % 2 != 0);
        if !(0..=60).contains(&head[EXPONENT]) || (head[EXPONENT] > 0 && !odd) {
            return None;
        }
        records.push(Record { head, entries });
    }
    let (mut chain, mut at, mut last) = (Vec::new(), first, None);
    for _ in 0..count {
        let j = record_at(at, size, count)?;
        let [next, low, high, _] = records[j].head;
        let store = u32::try_from(low).ok()? as u64 | (u32::try_from(high).ok()? as u64) << 32;
        // from bit 0 on, 0 before 1
        let rank = store.reverse_bits();
        if (bits < 64 && store >> bits != 0) || last.is_some_and(|l| l >= rank) {
            return None;
        }
        (at, last) = (next, Some(rank));
        chain.push(j);
    }
    (at == 0).then_some(Channel { form, head, side, records, chain })
}

impl Channel {
    /// Its words in a form, whatever is lost.
    fn words(&self, form: Form) -> Vec<i64> {
        let (old, new) = (self.form.record_words(self.side), form.record_words(self.side));
        let link = |at: i64| record_at(at, old, self.records.len()).map_or(0, |j| (HEADER + j * new) as i64);
        let mut out = vec![self.head[0], self.head[1], self.head[2], link(self.head[3])];
        for record in &self.records {
            out.extend([link(record.head[0]), record.head[1], record.head[2], record.head[3]]);
            out.extend(form.places(self.side).map(|(r, c, i)| record.entries[r * self.side + c][i]));
        }
        out
    }
    fn has_zeros(&self) -> bool {
        self.records.iter().any(|r| r.entries.iter().flatten().all(|n| *n == 0))
    }
    /// The place along the chain of the first block that is not Hermitian, or that has a √2 part.
    fn fault(&self, form: Form) -> Option<usize> {
        let w = self.side;
        self.chain.iter().map(|j| &self.records[*j].entries).position(|e| match form {
            Form::Half => (0..w * w).any(|k| e[k] != conjugate(e[k % w * w + k / w])),
            _ => e.iter().any(|x| x[1] != 0 || x[3] != 0),
        })
    }
}

/// Reply, index, and the words that are written.
type Due = (u32, u64, Vec<i64>);

fn due(words: &[i64], form: Form, writing: bool, room: usize) -> Due {
    let (from, to) = if writing { (Form::Whole, form) } else { (form, Form::Whole) };
    let Some(channel) = read(words, from) else { return (10, 0, vec![]) };
    if writing && channel.has_zeros() {
        return (16, 0, vec![]);
    }
    if let Some(place) = channel.fault(form).filter(|_| writing) {
        return (if form == Form::Half { 22 } else { 23 }, place as u64, vec![]);
    }
    let out = channel.words(to);
    if room < out.len() { (8, 0, vec![]) } else { (0, 0, out) }
}

// ---- the calls

fn name(form: Form, writing: bool) -> &'static str {
    match (form, writing) {
        (Form::Half, true) => "pack_channel",
        (Form::Half, false) => "unpack_channel",
        (_, true) => "write_plain",
        (_, false) => "read_plain",
    }
}

/// Reply and index, the same as those that are due, and so is the whole result, which held noise.
fn asked(calls: &Calls, words: &[i64], form: Form, writing: bool, room: usize, want: &Due) -> Result<(), String> {
    let call = match (form, writing) {
        (Form::Half, true) => calls.pack_channel,
        (Form::Half, false) => calls.unpack_channel,
        (_, true) => calls.write_plain,
        (_, false) => calls.read_plain,
    };
    let mut rng = Rng(words.len() as u64 + room as u64);
    let (given, mut result, mut index) = (Lent::holding(&mut rng, words), Lent::<i64>::noise(&mut rng, room), Lent::<u64>::noise(&mut rng, 1));
    let verdict = unsafe { call(given.ptr(), given.len(), result.mut_ptr(), result.len(), index.mut_ptr()) };
    let who = format!("{}: {}", calls.name, name(form, writing));
    if !(given.kept() && result.edges_kept() && index.edges_kept()) {
        return Err(format!("{who} changed other words than its result's"));
    }
    let reply = (verdict, index.words()[0]);
    if reply != (want.0, want.1) {
        return Err(format!("{who} replied {reply:?}, by the rules {:?}", (want.0, want.1)));
    }
    let mut left = result.words_before().to_vec();
    left[..want.2.len()].copy_from_slice(&want.2);
    match result.words().iter().zip(&left).position(|(x, y)| x != y) {
        None => Ok(()),
        Some(i) => Err(format!("{who} replied {verdict}, word {i} of its result is {}, by the rules {}", result.words()[i], left[i])),
    }
}

/// The archive and plain C against the rules; the words that are written.
fn ask(words: &[i64], form: Form, writing: bool, room: usize, counts: &mut Counts) -> Result<Due, String> {
    let want = due(words, form, writing, room);
    for calls in [&ARCHIVE, &PLAIN] {
        asked(calls, words, form, writing, room, &want)?;
    }
    counts.add(name(form, writing), false, if want.1 > 0 { format!("{} past place 0", want.0) } else { want.0.to_string() });
    Ok(want)
}

/// The words that a result needs for so many records, and these more or less.
fn room(form: Form, side: usize, count: usize, extra: i64) -> usize {
    ((HEADER + count * form.record_words(side)) as i64 + extra).max(0) as usize
}

/// The words of a channel that is well formed; a header may have been damaged and name another.
fn used(words: &[i64], form: Form) -> usize {
    read(words, form).map_or(0, |c| room(form, c.side, c.records.len(), 0))
}

impl Hurt {
    fn apply(&self, words: &mut Vec<i64>, form: Form, side: usize, count: usize) {
        let size = form.record_words(side);
        let start = |record: &u64| HEADER + (*record % count as u64) as usize * size;
        let put = |words: &mut Vec<i64>, at: usize, value: i64| words.get_mut(at).into_iter().for_each(|w| *w = value);
        let place = |r: usize, c: usize, i: usize| form.places(side).position(|p| p == (r, c, i));
        match self {
            Hurt::Set(at, value) if !words.is_empty() => {
                let at = (*at % words.len() as u64) as usize;
                put(words, at, *value);
            }
            Hurt::Set(..) => {}
            Hurt::Head(record, word, value) => put(words, start(record) + word, *value),
            Hurt::Link(record, to) => put(words, start(record), start(to) as i64),
            Hurt::Entry(record, r, c, i, change, mirrored) => {
                let (r, c) = ((*r % side as u64) as usize, (*c % side as u64) as usize);
                let Some(at) = place(r, c, *i).map(|p| start(record) + HEAD + p).filter(|at| *at < words.len()) else { return };
                let value = match change {
                    Change::Value(value) => *value,
                    Change::Add(by) => words[at].wrapping_add(*by),
                    Change::Negate => words[at].wrapping_neg(),
                };
                words[at] = value;
                if let Some(p) = place(c, r, *i).filter(|_| *mirrored && r != c) {
                    put(words, start(record) + HEAD + p, if *i < 2 { value } else { value.wrapping_neg() });
                }
            }
            Hurt::Blank(record) => (EXPONENT..size).for_each(|i| put(words, start(record) + i, 0)),
            Hurt::Double(record) => {
                let at = start(record);
                for (i, word) in words.iter_mut().enumerate().skip(at + EXPONENT).take(size - EXPONENT) {
                    *word = if i == at + EXPONENT { word.wrapping_add(1) } else { word.wrapping_mul(2) };
                }
            }
            Hurt::Cut(by) => words.truncate(words.len().saturating_sub(*by)),
        }
    }
}

/// A channel as it was delivered, with the words of the form, and both with damages; each written and read, and what is accepted taken back.
pub fn check(case: &Case, counts: &mut Counts) -> Result<(), String> {
    let Case::Forms { origin, form, hurts, kept_hurts, extra } = case else { unreachable!() };
    let whole = match origin {
        Origin::Circuit(words) => channel_of(words),
        Origin::Program(program) => programs::channel_of(program),
    };
    if whole.is_empty() {
        return Ok(());
    }
    let channel = read(&whole, Form::Whole).ok_or("a channel that was delivered is not well formed")?;
    let (side, count, form) = (channel.side, channel.records.len(), *form);
    // what is delivered is refused for a short result alone
    let fits = form == Form::Half || matches!(origin, Origin::Circuit(w) if w.gates.chunks_exact(5).all(in_profile));
    let (short, _, _) = ask(&whole, form, true, room(form, side, count, -1), counts)?;
    let (verdict, _, _) = ask(&whole, form, true, room(form, side, count, 0), counts)?;
    if fits {
        same("a delivered channel, written", (short, verdict), (8, 0), "the theorem")?;
    }
    let (mut hurt, mut kept) = (whole, channel.words(form));
    hurts.iter().for_each(|h| h.apply(&mut hurt, Form::Whole, side, count));
    kept_hurts.iter().for_each(|h| h.apply(&mut kept, form, side, count));
    let (verdict, _, written) = ask(&hurt, form, true, room(form, side, count, *extra), counts)?;
    if verdict == 0 {
        let used = used(&hurt, Form::Whole);
        let (_, _, back) = ask(&written, form, false, used, counts)?;
        same_words("a channel that was written and read back", &back, &hurt[..used], "the channel")?;
    }
    let (verdict, _, full) = ask(&kept, form, false, room(Form::Whole, side, count, *extra), counts)?;
    if verdict == 0 {
        let used = used(&kept, form);
        let (verdict, _, again) = ask(&full, form, true, used, counts)?;
        if verdict != 16 {
            same_words("words that were read and written again", &again, &kept[..used], "the words")?;
        }
    }
    Ok(())
}

/// The same with a damage less, on a smaller circuit or program, or with room that is right.
pub fn smaller(case: &Case) -> Vec<Case> {
    let Case::Forms { origin, form, hurts, kept_hurts, extra } = case else { unreachable!() };
    let with = |origin: Origin, hurts: Vec<Hurt>, kept_hurts: Vec<Hurt>, extra: i64| Case::Forms { origin, form: *form, hurts, kept_hurts, extra };
    let less = |list: &[Hurt], i: usize| [&list[..i], &list[i + 1..]].concat();
    let mut out: Vec<Case> = (0..hurts.len()).map(|i| with(origin.clone(), less(hurts, i), kept_hurts.clone(), *extra)).collect();
    out.extend((0..kept_hurts.len()).map(|i| with(origin.clone(), hurts.clone(), less(kept_hurts, i), *extra)));
    if *extra != 0 {
        out.push(with(origin.clone(), hurts.clone(), kept_hurts.clone(), 0));
    }
    let origins: Vec<Origin> = match origin {
        Origin::Circuit(words) => smaller_words(words).into_iter().map(Origin::Circuit).collect(),
        Origin::Program(program) => programs::smaller(program).into_iter().map(Origin::Program).collect(),
    };
    out.extend(origins.into_iter().map(|o| with(o, hurts.clone(), kept_hurts.clone(), *extra)));
    out
}

// ---- the cases

fn change(rng: &mut Rng) -> Change {
    match rng.below(4) {
        0 => Change::Negate,
        1 => Change::Value(harmful(rng)),
        2 => Change::Value(*rng.pick(&[0, 1, -1, WIDEST, -WIDEST, WIDEST + 1, -WIDEST - 1, WIDEST - 1, i64::MAX, i64::MIN])),
        _ => Change::Add(*rng.pick(&[1, -1, 2, -2, 1 << 40])),
    }
}

fn hurt(rng: &mut Rng) -> Hurt {
    let (record, other) = (rng.next() >> 1, rng.next() >> 1);
    match rng.below(12) {
        0 => Hurt::Set(rng.next() >> 1, harmful(rng)),
        1 => Hurt::Set(rng.below(HEADER as u64), harmful(rng)),
        2 => Hurt::Head(record, rng.below(HEAD as u64) as usize, harmful(rng)),
        3 => Hurt::Head(record, EXPONENT, *rng.pick(&[-1, 0, 1, 2, 59, 60, 61, i64::MIN])),
        4 => Hurt::Link(record, other),
        5 => Hurt::Blank(record),
        6 => Hurt::Double(record),
        7 if rng.one_in(2) => Hurt::Cut(1 + rng.below(4) as usize),
        _ => {
            let row = rng.next() >> 1;
            // the diagonal often
            let col = if rng.one_in(3) { row } else { rng.next() >> 1 };
            let mirrored = rng.one_in(2);
            Hurt::Entry(record, row, col, rng.below(4) as usize, change(rng), mirrored)
        }
    }
}

fn forms(rng: &mut Rng, form: Form) -> Case {
    let n = if rng.one_in(400) { 4 } else if rng.one_in(40) { 3 } else { *rng.pick(&[0, 1, 1, 1, 2, 2]) };
    let bits = some_bits(rng);
    let splits = if n > 2 { 1 } else { 3 };
    let origin = if cfg!(pauli_channel) && n < 3 && rng.one_in(4) {
        let Case::Program { program, .. } = programs::random(0, rng) else { unreachable!() };
        Origin::Program(program)
    } else {
        let mut words = circuit(rng, n, bits, 6, splits);
        if form == Form::Plain && !rng.one_in(3) {
            words.gates = words.gates.chunks_exact(5).filter(|g| in_profile(g)).flatten().copied().collect();
        }
        Origin::Circuit(words)
    };
    let some = |rng: &mut Rng| (0..*rng.pick(&[0, 1, 1, 1, 2, 3])).map(|_| hurt(rng)).collect::<Vec<_>>();
    let (hurts, kept_hurts) = (some(rng), some(rng));
    let extra = *rng.pick(&[0, 0, 0, 3, 9, -1, -2, i32::MIN as i64]);
    Case::Forms { origin, form, hurts, kept_hurts, extra }
}

pub fn packed(_: u64, rng: &mut Rng) -> Case {
    forms(rng, Form::Half)
}

pub fn plain(_: u64, rng: &mut Rng) -> Case {
    forms(rng, Form::Plain)
}
