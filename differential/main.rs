//! Compares the archive with the unchanged Rust and the plain C version, set by set, on as many threads as asked for.
#![allow(dead_code, unused_imports, unused_variables)]
mod angle;
mod calls;
mod cases;
mod checks;
mod circuit;
mod driver;
mod lent;
mod packed;
mod pbc;
mod programs;
mod qasm;
mod rust;
mod semantics;
mod symbolic_angle;

use cases::Set;
use checks::{Case, Counts};
use lent::Rng;
use std::io::Write;
use std::sync::Mutex;
use std::sync::atomic::{AtomicU64, Ordering::Relaxed};
use std::time::{Duration, Instant};

struct Options {
    seed: u64,
    jobs: usize,
    quick: bool,
    only: Vec<String>,
}

fn options() -> Options {
    let mut o = Options { seed: 1, jobs: 2, quick: false, only: Vec::new() };
    let mut args = std::env::args().skip(1);
    while let Some(a) = args.next() {
        let mut number = || args.next().and_then(|n| n.parse().ok()).unwrap_or_else(|| panic!("{a} wants a number"));
        match a.as_str() {
            "--seed" => o.seed = number(),
            "--jobs" => o.jobs = number().max(1) as usize,
            "--quick" => o.quick = true,
            _ => o.only.push(a),
        }
    }
    o
}

/// The case's own stream: the seed, the set's name and the case's number decide it, whatever thread asks.
fn stream(seed: u64, set: &Set, i: u64) -> Rng {
    let name = set.name.bytes().fold(seed, |h, b| h.wrapping_mul(1_099_511_628_211) ^ b as u64);
    let mut rng = Rng(name ^ i.wrapping_mul(0xd6e8_feb8_6659_fd93));
    rng.next();
    rng
}

/// Runs a set; a disagreement is the case's number, the case and what disagrees.
fn run(set: &Set, count: u64, o: &Options, before: u64, start: Instant) -> (Counts, Option<(u64, Case, String)>) {
    let next = AtomicU64::new(0);
    let done = AtomicU64::new(0);
    let calls = AtomicU64::new(0);
    let running = AtomicU64::new(o.jobs as u64);
    let total = Mutex::new(Counts::default());
    let worst: Mutex<Option<(u64, Case, String)>> = Mutex::new(None);
    std::thread::scope(|s| {
        for _ in 0..o.jobs {
            s.spawn(|| {
                let mut counts = Counts::default();
                let mut told = 0;
                loop {
                    let i = next.fetch_add(1, Relaxed);
                    if i >= count || worst.lock().unwrap().is_some() {
                        break;
                    }
                    let case = (set.case)(i, &mut stream(o.seed, set, i));
                    if let Err(fault) = checks::check(&case, &mut counts) {
                        let mut w = worst.lock().unwrap();
                        if w.as_ref().is_none_or(|(j, _, _)| i < *j) {
                            *w = Some((i, case, fault));
                        }
                    }
                    calls.fetch_add(counts.total() - told, Relaxed);
                    told = counts.total();
                    done.fetch_add(1, Relaxed);
                }
                total.lock().unwrap().join(&counts);
                running.fetch_sub(1, Relaxed);
            });
        }
        let mut shown = Instant::now();
        while running.load(Relaxed) > 0 {
            std::thread::sleep(Duration::from_millis(20));
            if shown.elapsed() > Duration::from_secs(5) {
                shown = Instant::now();
                eprintln!("  {:>4} s  {}: {} of {count} cases, {} comparisons in all", start.elapsed().as_secs(), set.name, done.load(Relaxed),
                    before + calls.load(Relaxed));
            }
        }
    });
    (total.into_inner().unwrap(), worst.into_inner().unwrap())
}

fn main() {
    let o = options();
    let sets = cases::sets();
    if let Some(n) = o.only.iter().find(|n| sets.iter().all(|s| s.name != n.as_str())) {
        eprintln!("no such set: {n}. There are:");
        for s in &sets {
            eprintln!("  {:<20} {}", s.name, s.about);
        }
        std::process::exit(2);
    }
    let start = Instant::now();
    println!("seed {}, {} threads{}", o.seed, o.jobs, if o.quick { ", a quick run" } else { "" });
    let mut counts = Counts::default();
    let mut cases = 0;
    for set in sets.iter().filter(|s| o.only.is_empty() || o.only.iter().any(|n| n == s.name)) {
        let count = if o.quick { set.quick } else { set.count };
        let (found, fault) = run(set, count, &o, counts.total(), start);
        counts.join(&found);
        cases += count;
        println!("{:>5.0} s  {} ({}): {count} cases, {} comparisons", start.elapsed().as_secs_f64(), set.name, set.about, found.total());
        std::io::stdout().flush().unwrap();
        if let Some((i, case, fault)) = fault {
            println!("\nDISAGREEMENT in {}, case {i}, seed {}: {fault}\n{case:?}", set.name, o.seed);
            let (small, fault) = checks::shrink(case, fault);
            println!("\nthe smallest that still disagrees: {fault}\n{small:?}");
            std::process::exit(1);
        }
    }
    println!("\n| call | compared with the Rust | with document 01 and plain C alone | replies: how often |\n|---|---|---|---|");
    for (call, n) in &counts.0 {
        let replies: Vec<String> = n.2.iter().map(|(reply, m)| format!("{}: {m}", reply.trim())).collect();
        println!("| {call} | {} | {} | {} |", n.0, n.1, replies.join(", "));
    }
    let rust: u64 = counts.0.values().map(|n| n.0).sum();
    println!("| all | {rust} | {} | |", counts.total() - rust);
    for (call, (n, e)) in &counts.1 {
        println!("{}{call}: the largest numerator is {n}, the largest exponent {e}", if call == counts.1.keys().next().unwrap() { "\n" } else { "" });
    }
    println!("\n{} comparisons of {cases} cases in {:.0} s, 0 disagreements, seed {}", counts.total(), start.elapsed().as_secs_f64(), o.seed);
}
