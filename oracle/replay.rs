//! Writes a sample of the oracle's answers to standard output: replay [SEED]. A few hundred small cases that meet every class.
//!
//! Format: plain text, lines ending with a newline, numbers and words separated by one space. A line that starts with `#` is a
//! comment and stands only before the first case. Doubles are the 16 lower-case hex digits of their bits, a NaN always
//! 7ff8000000000000; every other number is decimal. Each case is one block of these 18 lines, in this order:
//!
//!   case K                     K counts from 0
//!   counts n m B E
//!   solve ROUTE LIMIT
//!   ends ..                    2(B+E): camera and point of each bearing, source and target of each direction
//!   rays ..                    3(B+E) doubles
//!   weights ..                 B+E
//!   scales ..                  B+E
//!   points ..                  3m, the old points
//!   offsets ..                 m+1
//!   rows ..                    B, each point's list in any order
//!   positions ..               3n, cameras to form dots and scales from, together with the old points
//!   connected YES              1 or 0
//!   parts COUNT ..             the number of parts, then n labels
//!   answer 0 ANCHOR ROUTE ROUNDS FEW, or answer NUMBER PLACE of a refusal, or answer NUMBER COMPONENT CAMERA of 11 to 13
//!   cameras ..                 3n where the solve was accepted, else none
//!   placed ..                  3m where the solve was accepted, else none
//!   dots ..                    B+E
//!   renewed ..                 B+E, the scale answers (a kept scale is the old one)
//!
//! An empty list is the keyword alone. `positions` and `points` are finite, so dots and scales are never refused here.

#[allow(dead_code)]
mod classes;

use networks::{Case, generate};
use std::collections::BTreeMap;
use std::fmt::Write;

/// Cases that are kept for each class, while more of them are found.
const EACH: usize = 12;

fn doubles(text: &mut String, name: &str, numbers: &[f64]) {
    text.push_str(name);
    for number in numbers {
        let bits = if number.is_nan() { 0x7ff8 << 48 } else { number.to_bits() };
        write!(text, " {bits:016x}").unwrap();
    }
    text.push('\n');
}

fn wholes(text: &mut String, name: &str, numbers: &[usize]) {
    text.push_str(name);
    for number in numbers {
        write!(text, " {number}").unwrap();
    }
    text.push('\n');
}

fn block(number: usize, case: &Case) -> String {
    let net = case.net.view();
    let text = &mut String::new();
    wholes(text, "case", &[number]);
    wholes(text, "counts", &[net.n, net.m, net.b, net.e]);
    wholes(text, "solve", &[case.route, case.limit]);
    wholes(text, "ends", net.ends);
    doubles(text, "rays", net.rays);
    doubles(text, "weights", net.weights);
    doubles(text, "scales", net.scales);
    doubles(text, "points", net.points);
    wholes(text, "offsets", net.offsets);
    wholes(text, "rows", net.rows);
    doubles(text, "positions", &case.cameras);
    wholes(text, "connected", &[oracle::connected(&net) as usize]);
    let (labels, parts) = oracle::labels(&net);
    wholes(text, &format!("parts {parts}"), &labels);
    match oracle::solve(&net, case.route, case.limit) {
        Ok(placed) => {
            wholes(text, "answer", &[0, placed.anchor, placed.route, placed.rounds, placed.few]);
            doubles(text, "cameras", &placed.cameras);
            doubles(text, "placed", &placed.points);
        }
        Err(tag) => {
            wholes(text, "answer", &[&[tag.number][..], &tag.places()].concat());
            text.push_str("cameras\nplaced\n");
        }
    }
    doubles(text, "dots", &oracle::dots(&net, &case.cameras));
    doubles(text, "renewed", &oracle::scales(&net, &case.cameras));
    text.clone()
}

fn main() {
    let seed = std::env::args().nth(1).map_or(1, |a| a.parse::<u64>().expect("a number"));
    let mut kept: BTreeMap<String, usize> = BTreeMap::new();
    let mut sample: Vec<(u64, Case)> = Vec::new();
    for number in 0..400_000 {
        let case = generate(seed, number);
        // accepted at the most rounds is only met by long chains
        let small = case.net.n <= 6 && case.net.m <= 6 && case.net.b + case.net.e <= 12;
        if !small && case.kind != "special" && case.kind != "stalling" {
            continue;
        }
        let net = case.net.view();
        let whole = if oracle::connected(&net) { "connected" } else { "disconnected" };
        let mut classes = classes::of_solve(net.n, case.route, &oracle::solve(&net, case.route, case.limit));
        if case.kind == "stalling" && !classes.iter().any(|class| class.ends_with("at the most rounds") && !kept.contains_key(class)) {
            continue;
        }
        classes.push(whole.to_string());
        if net.n > 2 && ["block", "strip", "anything"].contains(&case.kind) && classes.iter().any(|class| class.starts_with("accepted")) {
            classes.push(format!("accepted, {} of 3 or more cameras, asked of route {}", case.kind, case.route));
        }
        let wanted = classes.iter().any(|class| kept.get(class).is_none_or(|count| *count < EACH));
        if wanted || case.kind == "special" {
            for class in classes {
                *kept.entry(class).or_default() += 1;
            }
            sample.push((number, case));
        }
    }
    println!("# Answers of the oracle, seed {seed}: {} cases. Written by oracle/replay.rs, which describes the format.", sample.len());
    let unsorted = sample.iter().filter(|(_, case)| classes::of_lists(&case.net.view()) == classes::LISTS[1]).count();
    println!("# {unsorted} of them have point lists that do not ascend.");
    println!("# Class, and how many cases of it:");
    for (class, count) in &kept {
        println!("#   {count} {class}");
    }
    let holes: Vec<_> = classes::WANTED.iter().filter(|class| !kept.contains_key(**class)).collect();
    assert!(holes.is_empty(), "never met: {holes:?}");
    for (index, (_, case)) in sample.iter().enumerate() {
        print!("{}", block(index, case));
    }
}
