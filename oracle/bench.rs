//! Times of the Rust's own functions beside the port's calls: bench [--quick].
//!
//! The Rust is run in two ways. Matrix-free, as document 01 takes the step: the port has its bits, and they are compared in the same
//! run. And by its plan, as the kernel itself runs the step without the `faer` feature: with materialized couplings where `try_new`
//! turns them on, and by `solve_reduced`, which goes dense up to 256 cameras, else iterative, then dense. Its answers differ in the
//! last digits where couplings are on; how far the cameras are apart is printed. The plan is made without the checks of `try_new`:
//! what they would say is printed too.
//!
//! A time is the processor time of this thread, the least of several runs on warm buffers and of several passes over everything. The
//! Rust's plan and workspace are made before the clock starts, as the kernel does, and its effective weights too: the kernel forms
//! them together with the robust weights. A Rust solve is its sums, assembly (couplings too, where they are on), anchor, solve and
//! points together. A port's solve is the whole call, its tests 1 to 8 and the effective weights included, with a work buffer and marks
//! that hold the zeros of the call before.
//!
//! Point lists are ascending, but where a name ends in 'lists shuffled': that network is the one without these words otherwise. What testing 6
//! takes of each call, its marks included, is the difference of two calls of solve that are refused at the last place, by 6 and just before.

use networks::{Network, Random, block_of, drawn, full};
use oracle::{Oracle, ReducedSystemBackend, Tag, few, tried};
use port::Port;
use std::time::Duration;

/// The processor time that this thread has used.
fn clock() -> Duration {
    unsafe extern "C" {
        fn clock_gettime(clock: i32, time: *mut [i64; 2]) -> i32;
    }
    const THREAD_CPUTIME: i32 = 3;
    let mut time = [0; 2];
    assert_eq!(unsafe { clock_gettime(THREAD_CPUTIME, &mut time) }, 0);
    Duration::new(time[0] as u64, time[1] as u32)
}

mod port {
    use super::*;

    unsafe extern "C" {
        fn vobzeile_solve(
            n: usize, m: usize, b: usize, e: usize,
            ends: *const usize, ends_len: usize, rays: *const f64, rays_len: usize, weights: *const f64, weights_len: usize,
            scales: *const f64, scales_len: usize, points: *const f64, points_len: usize, offsets: *const usize, offsets_len: usize,
            rows: *const usize, rows_len: usize, marks: *mut usize, marks_len: usize,
            route: usize, limit: usize,
            work: *mut f64, work_len: usize, cameras: *mut f64, cameras_len: usize, placed: *mut f64, placed_len: usize,
            report: *mut usize, report_len: usize,
        ) -> usize;
        fn vobzeile_dots(
            n: usize, m: usize, b: usize, e: usize,
            ends: *const usize, ends_len: usize, rays: *const f64, rays_len: usize, weights: *const f64, weights_len: usize,
            scales: *const f64, scales_len: usize, points: *const f64, points_len: usize, offsets: *const usize, offsets_len: usize,
            rows: *const usize, rows_len: usize, marks: *mut usize, marks_len: usize,
            current: *const f64, current_len: usize, trial: *const f64, trial_len: usize, mark: usize,
            out: *mut f64, out_len: usize, report: *mut usize, report_len: usize,
        ) -> usize;
        fn vobzeile_scales(
            n: usize, m: usize, b: usize, e: usize,
            ends: *const usize, ends_len: usize, rays: *const f64, rays_len: usize, weights: *const f64, weights_len: usize,
            scales: *const f64, scales_len: usize, points: *const f64, points_len: usize, offsets: *const usize, offsets_len: usize,
            rows: *const usize, rows_len: usize, marks: *mut usize, marks_len: usize,
            current: *const f64, current_len: usize, trial: *const f64, trial_len: usize, mark: usize,
            out: *mut f64, out_len: usize, report: *mut usize, report_len: usize,
        ) -> usize;
        fn vobzeile_connected(
            n: usize, m: usize, b: usize, e: usize,
            ends: *const usize, ends_len: usize, weights: *const f64, weights_len: usize,
            nodes: *mut usize, nodes_len: usize, report: *mut usize, report_len: usize,
        ) -> usize;
    }

    pub struct Port<'a> {
        net: &'a Network,
        marks: Vec<usize>,
        work: Vec<f64>,
        pub cameras: Vec<f64>,
        pub placed: Vec<f64>,
        pub out: Vec<f64>,
        nodes: Vec<usize>,
        pub report: [usize; 4],
    }

    impl<'a> Port<'a> {
        pub fn new(net: &'a Network, route: usize, limit: usize) -> Self {
            Self {
                net,
                marks: vec![0; net.b],
                work: vec![0.0; rules::work_length(net.n, net.m, net.b, net.e, route, limit)],
                cameras: vec![0.0; 3 * net.n],
                placed: vec![0.0; 3 * net.m],
                out: vec![0.0; net.b + net.e],
                nodes: vec![0; net.n + net.m],
                report: [0; 4],
            }
        }

        pub fn solve(&mut self, route: usize, limit: usize) -> usize {
            let s = self.net;
            unsafe {
                vobzeile_solve(
                    s.n, s.m, s.b, s.e, s.ends.as_ptr(), s.ends.len(), s.rays.as_ptr(), s.rays.len(), s.weights.as_ptr(), s.weights.len(),
                    s.scales.as_ptr(), s.scales.len(), s.points.as_ptr(), s.points.len(), s.offsets.as_ptr(), s.offsets.len(),
                    s.rows.as_ptr(), s.rows.len(), self.marks.as_mut_ptr(), self.marks.len(), route, limit, self.work.as_mut_ptr(), self.work.len(),
                    self.cameras.as_mut_ptr(), self.cameras.len(), self.placed.as_mut_ptr(), self.placed.len(), self.report.as_mut_ptr(), 4,
                )
            }
        }

        pub fn step(&mut self, scales: bool, cameras: &[f64]) -> usize {
            let s = self.net;
            let step = if scales { vobzeile_scales } else { vobzeile_dots };
            unsafe {
                step(
                    s.n, s.m, s.b, s.e, s.ends.as_ptr(), s.ends.len(), s.rays.as_ptr(), s.rays.len(), s.weights.as_ptr(), s.weights.len(),
                    s.scales.as_ptr(), s.scales.len(), s.points.as_ptr(), s.points.len(), s.offsets.as_ptr(), s.offsets.len(),
                    s.rows.as_ptr(), s.rows.len(), self.marks.as_mut_ptr(), self.marks.len(),
                    cameras.as_ptr(), cameras.len(), cameras.as_ptr(), cameras.len(), 0,
                    self.out.as_mut_ptr(), self.out.len(), self.report.as_mut_ptr(), 1,
                )
            }
        }

        pub fn connected(&mut self) -> usize {
            let s = self.net;
            unsafe {
                vobzeile_connected(
                    s.n, s.m, s.b, s.e, s.ends.as_ptr(), s.ends.len(), s.weights.as_ptr(), s.weights.len(),
                    self.nodes.as_mut_ptr(), self.nodes.len(), self.report.as_mut_ptr(), 1,
                )
            }
        }
    }
}

/// The best of some runs.
fn best<T>(runs: usize, mut work: impl FnMut() -> T) -> (Duration, T) {
    let mut least = Duration::MAX;
    let mut last = None;
    for _ in 0..runs {
        let start = clock();
        let answer = std::hint::black_box(work());
        least = least.min(clock() - start);
        last = Some(answer);
    }
    (least, last.unwrap())
}

/// A solve: the Rust matrix-free, the Rust by its plan, the port.
struct Solve {
    name: String,
    times: [Duration; 3],
    /// The Rust's two over the port, in the pass where the ratio was least and where it was greatest.
    ratios: [[f64; 2]; 2],
    rounds: usize,
    /// Rounds and couplings, how far the plan's cameras are from the port's, and what the plan's own checks say.
    note: String,
}

impl Solve {
    fn new(name: &str, times: [Duration; 3], rounds: usize, note: String) -> Self {
        let ratios = [0, 1].map(|i| [ratio(times[i], times[2]); 2]);
        Self { name: name.to_string(), times, ratios, rounds, note }
    }

    /// The least of two passes.
    fn join(&mut self, pass: Self) {
        for (time, other) in self.times.iter_mut().zip(pass.times) {
            *time = other.min(*time);
        }
        for ([least, greatest], [low, high]) in self.ratios.iter_mut().zip(pass.ratios) {
            (*least, *greatest) = (least.min(low), greatest.max(high));
        }
    }

    fn print(&self) {
        let [free, planned, port] = self.times;
        let beside = |time, [least, greatest]: [f64; 2]| match ratio(time, port) {
            only if least == greatest => format!("{only:.2}"),
            whole => format!("{whole:.2} ({least:.2} to {greatest:.2})"),
        };
        let (first, second) = (beside(free, self.ratios[0]), beside(planned, self.ratios[1]));
        println!("| {} | {} | {} | {} | {first} | {second} | {} |", self.name, ms(free), ms(planned), ms(port), self.note);
    }
}

/// The other calls and the Rust's stages.
struct Calls {
    name: String,
    /// The Rust, the port.
    dots: [Duration; 2],
    scales: [Duration; 2],
    connectivity: [Duration; 2],
    /// The port's solve.
    solve: Duration,
    /// The port: refused by 8, refused by 14.
    refused: [Duration; 2],
    /// The port: refused by 5 at the last direction (by 4 at the last bearing where there is none), refused by 6 at the last row listed.
    lists: [Duration; 2],
    /// The Rust: sums and assembly, the same with couplings, couplings compiled, points.
    stages: [Duration; 4],
}

impl Calls {
    fn join(&mut self, pass: Self) {
        let least = |times: &mut [Duration], others: &[Duration]| times.iter_mut().zip(others).for_each(|(time, other)| *time = (*time).min(*other));
        least(&mut self.dots, &pass.dots);
        least(&mut self.scales, &pass.scales);
        least(&mut self.connectivity, &pass.connectivity);
        least(std::slice::from_mut(&mut self.solve), &[pass.solve]);
        least(&mut self.refused, &pass.refused);
        least(&mut self.lists, &pass.lists);
        least(&mut self.stages, &pass.stages);
    }

    fn print(&self) {
        let beside = |[rust, port]: [Duration; 2]| format!("{} / {} = {:.2}", ms(rust), ms(port), ratio(rust, port));
        let [dots, scales, connectivity] = [self.dots, self.scales, self.connectivity].map(beside);
        println!("| {} | {dots} | {scales} | {connectivity} | {} | {} |", self.name, ms(self.refused[0]), ms(self.refused[1]));
    }

    fn print_lists(&self) {
        let [before, after] = self.lists;
        let marks = after.saturating_sub(before);
        let of = |call: Duration| format!("{:.0} %", 100.0 * ratio(marks, call));
        let [dots, scales, solve] = [self.dots[1], self.scales[1], self.solve].map(of);
        println!("| {} | {} | {} | {} | {dots} | {scales} | {solve} |", self.name, ms(before), ms(after), ms(marks));
    }

    fn print_stages(&self) {
        println!("| {} | {} |", self.name, self.stages.map(ms).join(" | "));
    }
}

fn ratio(rust: Duration, port: Duration) -> f64 {
    rust.as_secs_f64() / port.as_secs_f64()
}

/// Milliseconds, to about three digits.
fn ms(time: Duration) -> String {
    let ms = time.as_secs_f64() * 1e3;
    let digits = [(0.1, 3), (10.0, 2), (1000.0, 1)].iter().find(|(bound, _)| ms < *bound).map_or(0, |(_, digits)| *digits);
    let text = format!("{ms:.digits$}");
    if digits == 0 { grouped(text.parse().unwrap()) } else { text }
}

fn grouped(number: usize) -> String {
    if number < 1000 { number.to_string() } else { format!("{},{:03}", grouped(number / 1000), number % 1000) }
}

fn same(left: &[f64], right: &[f64]) -> bool {
    left.len() == right.len() && left.iter().zip(right).all(|(l, r)| l.to_bits() == r.to_bits() || (l.is_nan() && r.is_nan()))
}

/// The greatest difference between two lists of coordinates, beside the greatest coordinate.
fn apart(left: &[f64], right: &[f64]) -> f64 {
    let most = right.iter().fold(0.0, |most: f64, x| most.max(x.abs()));
    left.iter().zip(right).fold(0.0, |far: f64, (l, r)| far.max((l - r).abs())) / most
}

/// The stages of a Rust solve together, `reduced` being its choice of parts.
fn whole<T>(oracle: &mut Oracle, runs: usize, mut reduced: impl FnMut(&mut Oracle) -> Result<T, Tag>) -> (Duration, T) {
    let (sums, ()) = best(runs.max(3), || oracle.sums());
    let (assembly, ()) = best(runs.max(3), || oracle.assemble());
    let (solve, answer) = best(runs, || reduced(oracle));
    let (points, ()) = best(runs.max(3), || oracle.recover());
    (sums + assembly + solve + points, answer.unwrap_or_else(|tag| panic!("refused {} at {}", tag.number, tag.place)))
}

/// A solve by a route, and the cameras that it placed.
fn solve(name: &str, net: &Network, route: usize, limit: usize, runs: usize) -> (Solve, Vec<f64>) {
    let mut free = Oracle::new(&net.view());
    let (free_time, (anchor, answered, rounds)) = whole(&mut free, runs, |oracle| oracle.reduced(route, limit));
    let mut planned = Oracle::planned(&net.view());
    let (planned_time, (backend, planned_rounds)) = whole(&mut planned, runs, |oracle| oracle.by_plan());
    let mut port = Port::new(net, route, limit);
    let (port_time, number) = best(runs, || port.solve(route, limit));
    assert!(number == 0 && port.report == [anchor, answered, rounds, few(&net.view())], "{name}: the answer differs");
    assert!(same(&port.cameras, &free.trial_cameras()) && same(&port.placed, &free.trial_points()), "{name}: the placement differs");
    let far = apart(&planned.trial_cameras(), &port.cameras);
    assert!(far < 1e-6, "{name}: the plan's cameras are {far:e} apart");
    assert!(backend == ReducedSystemBackend::SparseCouplingPcg, "{name}: by its plan {backend:?} answered");
    let couplings = planned.couplings().unwrap_or(0);
    let checks = match tried(&net.view()) {
        Ok(number) if number == couplings => "taken".to_string(),
        Ok(number) => panic!("{name}: try_new has {number} couplings, not {couplings}"),
        Err(refusal) => refusal,
    };
    let counted = |rounds| if rounds == 1 { "1 round".to_string() } else { format!("{} rounds", grouped(rounds)) };
    let told = if answered == 2 { counted(rounds) } else { "dense".to_string() };
    let by_plan = format!("{}, {} couplings", counted(planned_rounds), grouped(couplings));
    let note = format!("{told}; by its plan {by_plan}; {far:.0e} apart; {checks}");
    (Solve::new(name, [free_time, planned_time, port_time], rounds, note), port.cameras)
}

/// Two calls of solve that are refused right before 6 is tested, and by 6, both at the last place; 6 clears the marks.
fn lists(name: &str, net: &Network, runs: usize) -> [Duration; 2] {
    let refused = |net: &Network, wanted: usize| {
        let mut port = Port::new(net, 1, 0);
        let (time, number) = best(runs, || port.solve(1, 0));
        assert!(number == wanted, "{name}: not refused by {wanted}");
        time
    };
    let (mut ends, mut listed) = (net.clone(), net.clone());
    let last = net.ends.len() - 1;
    ends.ends[last] = if net.e > 0 { net.ends[last - 1] } else { net.m };
    if net.b > 1 {
        listed.rows[net.b - 1] = net.rows[net.b - 2];
    } else {
        listed.offsets[0] = 1;
    }
    [refused(&ends, if net.e > 0 { 5 } else { 4 }), refused(&listed, 6)]
}

/// The other calls and stages, dots and scales being of the given cameras and the old points.
fn calls(name: &str, net: &Network, cameras: &[f64], solve: Duration, runs: usize) -> Calls {
    let mut planned = Oracle::planned(&net.view());
    let sums = best(runs, || planned.sums()).0;
    let with_couplings = sums + best(runs, || planned.assemble()).0;
    let (compiled, couplings) = best(runs, || planned.couplings());
    assert!(couplings.is_some(), "{name}: the plan has no couplings");
    let mut oracle = Oracle::new(&net.view());
    let sums = best(runs, || oracle.sums()).0;
    let assembly = sums + best(runs, || oracle.assemble()).0;
    oracle.place(cameras, &net.points);
    let mut port = Port::new(net, 1, 0);
    let rust_dots = best(runs, || oracle.dots()).0;
    let (dots, number) = best(runs, || port.step(false, cameras));
    assert!(number == 0 && same(&port.out, &oracle.trial_dots()), "{name}: dots differ");
    let rust_scales = best(runs, || oracle.scales()).0;
    let (scales, number) = best(runs, || port.step(true, cameras));
    assert!(number == 0 && same(&port.out, &oracle.trial_scales()), "{name}: scales differ");
    let (rust_connectivity, answer) = best(runs, || oracle.connected());
    let (connectivity, number) = best(runs, || port.connected());
    assert!(number == 0 && port.report[0] == answer as usize, "{name}: connectivity differs");
    // every test is passed but the last, 8
    let (tests, number) = best(runs, || port.solve(1, 257));
    assert!(number == 8, "{name}: a limit of 257 is not refused");
    // the system is formed, then the route is refused, and the work buffer is cleared
    let (formed, number) = best(runs, || port.solve(1, 0));
    assert!(number == 14, "{name}: a limit of 0 is not refused");
    let points = best(runs, || oracle.recover()).0;
    Calls {
        name: name.to_string(),
        dots: [rust_dots, dots],
        scales: [rust_scales, scales],
        connectivity: [rust_connectivity, connectivity],
        solve,
        refused: [tests, formed],
        lists: lists(name, net, runs),
        stages: [assembly, with_couplings, compiled, points],
    }
}

/// Whole solves of some networks, one after the other: which were accepted.
fn every(oracles: &mut [Oracle], runs: usize, reduced: impl Fn(&mut Oracle) -> bool) -> (Duration, Vec<bool>) {
    let solve = |oracle: &mut Oracle| {
        oracle.sums();
        oracle.assemble();
        let accepted = reduced(oracle);
        if accepted {
            oracle.recover();
        }
        accepted
    };
    best(runs, || oracles.iter_mut().map(solve).collect())
}

/// The ordinary small networks that fit the solve program's image, all together: by the program's route, and by the plan's, which is dense.
fn small(runs: usize) -> Vec<Solve> {
    let fits = |net: &Network| net.n <= 64 && 52 + 48 * (net.b + net.e) + 24 * net.m <= 16384;
    let cases: Vec<_> = (64..).map(|number| drawn(1, number)).filter(|c| ["block", "strip"].contains(&c.kind) && fits(&c.net)).take(1000).collect();
    let mut oracles: Vec<Oracle> = cases.iter().map(|case| Oracle::new(&case.net.view())).collect();
    let mut solves = Vec::new();
    for (route, limit) in [(3, 48), (1, 256)] {
        let (planned, _) = every(&mut oracles, runs, |oracle| oracle.by_plan().is_ok());
        let (free, accepted) = every(&mut oracles, runs, |oracle| oracle.reduced(route, limit).is_ok());
        let mut ports: Vec<Port> = cases.iter().map(|case| Port::new(&case.net, route, limit)).collect();
        let (port, numbers) = best(runs, || ports.iter_mut().map(|port| port.solve(route, limit)).collect::<Vec<usize>>());
        for ((oracle, port), (accepted, number)) in oracles.iter().zip(&ports).zip(accepted.iter().zip(numbers)) {
            assert!(*accepted == (number == 0), "a small network's answer differs");
            assert!(!accepted || same(&port.cameras, &oracle.trial_cameras()), "a small network's placement differs");
        }
        let name = format!("1,000 networks of 1 to 64 cameras, route {route}");
        solves.push(Solve::new(&name, [free, planned, port], 0, "by its plan dense".to_string()));
    }
    solves
}

/// How fast numbers come in, in GB/s: a sum over `count` doubles, again and again, by eight chains.
fn bandwidth(count: usize, runs: usize) -> f64 {
    let numbers = vec![1.0f64; count];
    let sum = || {
        let mut chains = [0.0f64; 8];
        for part in numbers.chunks_exact(8) {
            chains.iter_mut().zip(part).for_each(|(chain, x)| *chain += x);
        }
        chains.iter().sum::<f64>()
    };
    let (time, total) = best(runs, sum);
    assert_eq!(total, count as f64);
    8.0 * count as f64 / time.as_secs_f64() / 1e9
}

/// What one application of the system reads that does not stay in the nearer caches: row numbers, ends and effective weights of each
/// row, offset and weight of each point.
fn bytes_a_round(net: &Network) -> f64 {
    (8 * net.b + 24 * (net.b + net.e) + 16 * net.m) as f64
}

/// The kinds of full-size networks that are timed.
const FULL: [usize; 10] = [0, 8, 1, 2, 9, 3, 6, 4, 7, 10];

/// Every network once.
fn pass(runs: usize) -> (Vec<Solve>, Vec<Calls>) {
    let (mut solves, mut others) = (Vec::new(), Vec::new());
    for kind in FULL {
        let case = full(1, kind);
        let (solved, cameras) = solve(case.kind, &case.net, 2, 0, runs);
        others.push(calls(case.kind, &case.net, &cameras, solved.times[2], runs.max(3)));
        solves.push(solved);
    }
    let net = block_of(1, 257, 4096, 1024);
    for (net, lists) in [(net.clone(), ""), (net.shuffled(&mut Random::new(1, 257)), ", lists shuffled")] {
        let named = |route: &str| format!("n=257, route {route}{lists}");
        solves.push(solve(&named("3"), &net, 3, 256, runs.max(3)).0);
        let (solved, cameras) = solve(&named("1 (dense)"), &net, 1, 256, runs.max(3));
        others.push(calls(&format!("n=257{lists}"), &net, &cameras, solved.times[2], runs.max(3)));
        solves.push(solved);
    }
    solves.extend(small(runs.max(3)));
    (solves, others)
}

fn main() {
    let quick = std::env::args().any(|a| a == "--quick");
    let (passes, runs) = if quick { (1, 1) } else { (3, 3) };
    let (mut solves, mut others) = pass(runs);
    for _ in 1..passes {
        let (again, calls) = pass(runs);
        solves.iter_mut().zip(again).for_each(|(solve, pass)| solve.join(pass));
        others.iter_mut().zip(calls).for_each(|(call, pass)| call.join(pass));
    }
    println!("Milliseconds, the least of {passes} x {runs} runs; in brackets the ratios of single passes.\n");
    println!("| solve | Rust, matrix-free | Rust, by its plan | port | matrix-free / port | by its plan / port | |");
    println!("|---|---|---|---|---|---|---|");
    solves.iter().for_each(Solve::print);
    println!("\n| network | dots, Rust / port | scales, Rust / port | connectivity, Rust / port | port: tests 1 to 8 alone | port: tests, sums, assembly, clearing |");
    println!("|---|---|---|---|---|---|");
    others.iter().for_each(Calls::print);
    println!("\n| network | port: tests 1 to 5 alone | tests 1 to 6 alone | 6 with its marks | of dots | of scales | of a solve |");
    println!("|---|---|---|---|---|---|---|");
    others.iter().for_each(Calls::print_lists);
    println!("\n| network | Rust: sums and assembly | the same with couplings | couplings compiled, once | points |");
    println!("|---|---|---|---|---|");
    others.iter().for_each(Calls::print_stages);
    let (near, far) = (bandwidth(1 << 20, 20), bandwidth(1 << 25, 5));
    println!("\nNumbers come in at {near:.1} GB/s from 8 MB and at {far:.1} GB/s from 256 MB.\n");
    println!("| network | read in a round, MB | at the former, ms | a round of the port (solve / rounds), ms |");
    println!("|---|---|---|---|");
    for (kind, solve) in FULL.iter().zip(&solves) {
        let megabytes = bytes_a_round(&full(1, *kind).net) / 1e6;
        let round = solve.times[2].as_secs_f64() * 1e3 / solve.rounds as f64;
        println!("| {} | {megabytes:.1} | {:.2} | {round:.2} |", solve.name, megabytes / near);
    }
}
