//! The port's C functions beside the oracle, bit for bit (one NaN counts as another).
//!
//!   compare [--count N] [--seed S] [--from K] [--full] [--brief] [--until D]     (stops at D disagreements)
//!
//! Each network: connectivity, parts listing, the solve by its own route and by the others, dots and scales from the network's own
//! positions and from what the solve placed, the work length, and a spoiled call that 1 to 8 must refuse. Every buffer is lent
//! with canaries on both sides; after each call the inputs, the outputs, the report, the marks, the work buffer and its surplus are
//! compared whole.

mod classes;

use classes::Met;
use networks::{Case, FULL_KINDS, Network, Random, full, generate};
use oracle::{Placement, Tag};
use std::fmt::Debug;

unsafe extern "C" {
    fn vobzeile_solve(
        n: usize, m: usize, b: usize, e: usize,
        ends: *const usize, ends_len: usize, rays: *const f64, rays_len: usize, weights: *const f64, weights_len: usize,
        scales: *const f64, scales_len: usize, points: *const f64, points_len: usize, offsets: *const usize, offsets_len: usize,
        rows: *const usize, rows_len: usize, marks: *mut usize, marks_len: usize,
        route: usize, limit: usize,
        work: *mut f64, work_len: usize, cameras: *mut f64, cameras_len: usize, placed: *mut f64, placed_len: usize,
        report: *mut usize, report_len: usize,
    ) -> usize;
    fn vobzeile_dots(
        n: usize, m: usize, b: usize, e: usize,
        ends: *const usize, ends_len: usize, rays: *const f64, rays_len: usize, weights: *const f64, weights_len: usize,
        scales: *const f64, scales_len: usize, points: *const f64, points_len: usize, offsets: *const usize, offsets_len: usize,
        rows: *const usize, rows_len: usize, marks: *mut usize, marks_len: usize,
        current: *const f64, current_len: usize, trial: *const f64, trial_len: usize, mark: usize,
        out: *mut f64, out_len: usize, report: *mut usize, report_len: usize,
    ) -> usize;
    fn vobzeile_scales(
        n: usize, m: usize, b: usize, e: usize,
        ends: *const usize, ends_len: usize, rays: *const f64, rays_len: usize, weights: *const f64, weights_len: usize,
        scales: *const f64, scales_len: usize, points: *const f64, points_len: usize, offsets: *const usize, offsets_len: usize,
        rows: *const usize, rows_len: usize, marks: *mut usize, marks_len: usize,
        current: *const f64, current_len: usize, trial: *const f64, trial_len: usize, mark: usize,
        out: *mut f64, out_len: usize, report: *mut usize, report_len: usize,
    ) -> usize;
    fn vobzeile_connected(
        n: usize, m: usize, b: usize, e: usize,
        ends: *const usize, ends_len: usize, weights: *const f64, weights_len: usize,
        nodes: *mut usize, nodes_len: usize, report: *mut usize, report_len: usize,
    ) -> usize;
    fn vobzeile_parts(
        n: usize, m: usize, b: usize, e: usize,
        ends: *const usize, ends_len: usize, weights: *const f64, weights_len: usize,
        nodes: *mut usize, nodes_len: usize, labels: *mut usize, labels_len: usize, report: *mut usize, report_len: usize,
    ) -> usize;
    fn vobzeile_work_length(
        n: usize, m: usize, b: usize, e: usize, route: usize, limit: usize, report: *mut usize, report_len: usize,
    ) -> usize;
}

/// A number that a buffer can hold: a canary of it, and when two are the same.
trait Held: Copy + Debug {
    fn canary(place: usize) -> Self;
    fn same(self, other: Self) -> bool;
}

impl Held for f64 {
    /// Every fourth a NaN with a payload, so that what was held can make no difference unseen.
    fn canary(place: usize) -> f64 {
        match place % 4 {
            0 => f64::from_bits(0x7ff4_dead_beef_0000 + place as u64),
            1 => -1.5e300,
            2 => f64::NEG_INFINITY,
            _ => 3.25 + place as f64,
        }
    }

    fn same(self, other: f64) -> bool {
        self.to_bits() == other.to_bits() || (self.is_nan() && other.is_nan())
    }
}

impl Held for usize {
    fn canary(place: usize) -> usize {
        usize::MAX / 3 + place
    }

    fn same(self, other: usize) -> bool {
        self == other
    }
}

const GUARD: usize = 8;

/// A lent buffer between two guards, and what it held before the call.
struct Lent<T> {
    name: &'static str,
    all: Vec<T>,
    before: Vec<T>,
}

impl<T: Held> Lent<T> {
    fn holding(name: &'static str, numbers: &[T]) -> Self {
        let guard = |start: usize| (0..GUARD).map(move |i| T::canary(start + i));
        let all: Vec<T> = guard(0).chain(numbers.iter().copied()).chain(guard(GUARD)).collect();
        Self { name, before: all.clone(), all }
    }

    fn blank(name: &'static str, length: usize) -> Self {
        let numbers: Vec<T> = (0..length).map(|i| T::canary(i + 100)).collect();
        Self::holding(name, &numbers)
    }

    fn len(&self) -> usize {
        self.all.len() - 2 * GUARD
    }

    fn get(&self) -> &[T] {
        &self.all[GUARD..GUARD + self.len()]
    }

    fn ptr(&self) -> *const T {
        self.all[GUARD..].as_ptr()
    }

    fn mut_ptr(&mut self) -> *mut T {
        self.all[GUARD..].as_mut_ptr()
    }

    /// The first numbers are `expected`, everything else, canaries included, is what it was, to the bit.
    fn check(&self, expected: &[T], differences: &mut Vec<String>)
    where
        T: Bits,
    {
        for (place, number) in self.all.iter().enumerate() {
            let wanted = place.checked_sub(GUARD).and_then(|i| expected.get(i)).copied();
            let fine = match wanted {
                Some(wanted) => number.same(wanted),
                None => number.bits() == self.before[place].bits(),
            };
            if !fine {
                let wanted = wanted.unwrap_or(self.before[place]);
                let place = place as isize - GUARD as isize;
                differences.push(format!("{}[{place}] is {number:?}, wanted {wanted:?}", self.name));
                return;
            }
        }
    }

    fn untouched(&self, differences: &mut Vec<String>)
    where
        T: Bits,
    {
        self.check(&[], differences);
    }
}

/// A zero of the work buffer is +0.0 to the bit, and an untouched NaN keeps its payload.
trait Bits {
    fn bits(&self) -> u64;
}

impl Bits for f64 {
    fn bits(&self) -> u64 {
        self.to_bits()
    }
}

impl Bits for usize {
    fn bits(&self) -> u64 {
        *self as u64
    }
}

/// A network as a call lends it, and what the marks hold at first; its lengths may be spoiled.
struct Call {
    n: usize,
    m: usize,
    b: usize,
    e: usize,
    ends: Lent<usize>,
    rays: Lent<f64>,
    weights: Lent<f64>,
    scales: Lent<f64>,
    points: Lent<f64>,
    offsets: Lent<usize>,
    rows: Lent<usize>,
    marks: Vec<usize>,
}

/// Marks as a call may find them: canaries, ones, row numbers, or zeros and ones. None of it may show.
fn soiled(length: usize, random: &mut Random) -> Vec<usize> {
    let kind = random.below(4);
    let mark = |place: usize| match kind {
        0 => usize::canary(place + 100),
        1 => 1,
        2 => place,
        _ => random.below(2),
    };
    (0..length).map(mark).collect()
}

impl Call {
    fn new(net: &Network, random: &mut Random) -> Self {
        Self {
            n: net.n,
            m: net.m,
            b: net.b,
            e: net.e,
            ends: Lent::holding("ends", &net.ends),
            rays: Lent::holding("rays", &net.rays),
            weights: Lent::holding("weights", &net.weights),
            scales: Lent::holding("scales", &net.scales),
            points: Lent::holding("points", &net.points),
            offsets: Lent::holding("offsets", &net.offsets),
            rows: Lent::holding("rows", &net.rows),
            marks: soiled(net.b, random),
        }
    }

    fn view(&self) -> oracle::Network<'_> {
        oracle::Network {
            n: self.n,
            m: self.m,
            b: self.b,
            e: self.e,
            ends: self.ends.get(),
            rays: self.rays.get(),
            weights: self.weights.get(),
            scales: self.scales.get(),
            points: self.points.get(),
            offsets: self.offsets.get(),
            rows: self.rows.get(),
        }
    }

    fn untouched(&self, differences: &mut Vec<String>) {
        self.ends.untouched(differences);
        self.rays.untouched(differences);
        self.weights.untouched(differences);
        self.scales.untouched(differences);
        self.points.untouched(differences);
        self.offsets.untouched(differences);
        self.rows.untouched(differences);
    }
}

fn answered(what: &str, got: usize, wanted: usize, differences: &mut Vec<String>) {
    if got != wanted {
        differences.push(format!("{what} is {got}, wanted {wanted}"));
    }
}

/// The marks are all zero once 6 has been tested, whatever the answer, and untouched where 1 to 5 refuse.
fn cleared(marks: &Lent<usize>, refusal: Option<rules::Refusal>, differences: &mut Vec<String>) {
    let zeros = if rules::lists_tested(refusal) { marks.len() } else { 0 };
    marks.check(&vec![0; zeros], differences);
}

/// The refusal's place is the report's first number, if it has one; 3 leaves a report that has not `length` numbers.
fn refused(report: &Lent<usize>, length: usize, (number, place): rules::Refusal, differences: &mut Vec<String>) {
    let left = number == 3 && report.len() != length;
    let stored = if left { 0 } else { report.len().min(1) };
    report.check(&[place][..stored], differences);
}

/// The numbers of a report: a solve's, and every other call's.
const SOLVE_REPORT: usize = 4;
const REPORT: usize = 1;

/// What a solve is lent beside the network.
struct Room {
    work: usize,
    cameras: usize,
    placed: usize,
    report: usize,
}

/// The refusal of 1 to 8, or what the kernel answered.
type Solved = Result<Result<Placement, Tag>, rules::Refusal>;

fn compare_solve(call: &Call, route: usize, limit: usize, room: Room, differences: &mut Vec<String>) -> Solved {
    let mut marks = Lent::holding("marks", &call.marks);
    let mut work: Lent<f64> = Lent::blank("work", room.work);
    let mut cameras: Lent<f64> = Lent::blank("cameras", room.cameras);
    let mut placed: Lent<f64> = Lent::blank("placed", room.placed);
    let mut report: Lent<usize> = Lent::blank("report", room.report);
    let got = unsafe {
        vobzeile_solve(
            call.n, call.m, call.b, call.e,
            call.ends.ptr(), call.ends.len(), call.rays.ptr(), call.rays.len(), call.weights.ptr(), call.weights.len(),
            call.scales.ptr(), call.scales.len(), call.points.ptr(), call.points.len(), call.offsets.ptr(), call.offsets.len(),
            call.rows.ptr(), call.rows.len(), marks.mut_ptr(), marks.len(),
            route, limit,
            work.mut_ptr(), work.len(), cameras.mut_ptr(), cameras.len(), placed.mut_ptr(), placed.len(),
            report.mut_ptr(), report.len(),
        )
    };
    let net = call.view();
    let needed = || rules::work_length(net.n, net.m, net.b, net.e, route, limit);
    let outputs_fit = || room.cameras == 3 * net.n && room.placed == 3 * net.m && room.report == SOLVE_REPORT;
    let fit = || room.work >= needed() && marks.len() == net.b && outputs_fit();
    let solved = match rules::solve(&net, route, limit, fit) {
        Some(refusal) => Err(refusal),
        None => Ok(oracle::solve(&net, route, limit)),
    };
    call.untouched(differences);
    cleared(&marks, solved.as_ref().err().copied(), differences);
    match &solved {
        Err(refusal) => {
            answered("solve's refusal", got, refusal.0, differences);
            refused(&report, SOLVE_REPORT, *refusal, differences);
            work.untouched(differences);
            cameras.untouched(differences);
            placed.untouched(differences);
        }
        Ok(answer) => {
            let zeros = vec![0.0; needed()];
            work.check(&zeros, differences);
            match answer {
                Ok(placement) => {
                    answered("solve's answer", got, 0, differences);
                    report.check(&[placement.anchor, placement.route, placement.rounds, placement.few], differences);
                    cameras.check(&placement.cameras, differences);
                    placed.check(&placement.points, differences);
                }
                Err(tag) => {
                    answered("solve's refusal", got, tag.number, differences);
                    report.check(&tag.places(), differences);
                    cameras.untouched(differences);
                    placed.untouched(differences);
                }
            }
        }
    }
    solved
}

/// Dots and scales of the marked cameras; the other buffer holds canaries. `short` spoils one of the three lengths, `told` is the report's.
fn compare_step(
    call: &Call, cameras: &[f64], mark: usize, short: Option<usize>, told: usize, differences: &mut Vec<String>,
) -> Option<rules::Refusal> {
    let net = call.view();
    let mut other: Vec<f64> = (0..cameras.len()).map(f64::canary).collect();
    let mut cameras = cameras.to_vec();
    if short == Some(0) {
        cameras.push(0.0);
    }
    if short == Some(1) {
        other.push(0.0);
    }
    let marked = cameras.clone();
    let (current, trial) = if mark == 1 { (other, cameras) } else { (cameras, other) };
    let current = Lent::holding("current", &current);
    let trial = Lent::holding("trial", &trial);
    let length = call.weights.len() + (short == Some(2)) as usize;
    let cameras_fit = || current.len() == 3 * net.n && trial.len() == 3 * net.n;
    let fit = || cameras_fit() && length == net.b + net.e && call.marks.len() == net.b && told == REPORT;
    let refusal = rules::step(&net, &marked, fit);
    type Step = unsafe extern "C" fn(
        usize, usize, usize, usize,
        *const usize, usize, *const f64, usize, *const f64, usize, *const f64, usize, *const f64, usize, *const usize, usize, *const usize, usize,
        *mut usize, usize, *const f64, usize, *const f64, usize, usize, *mut f64, usize, *mut usize, usize,
    ) -> usize;
    let steps: [(&'static str, Step, fn(&oracle::Network, &[f64]) -> Vec<f64>); 2] =
        [("dots", vobzeile_dots, oracle::dots), ("scales", vobzeile_scales, oracle::scales)];
    for (name, step, of) in steps {
        let mut marks = Lent::holding("marks", &call.marks);
        let mut out: Lent<f64> = Lent::blank(name, length);
        let mut report: Lent<usize> = Lent::blank("report", told);
        let got = unsafe {
            step(
                call.n, call.m, call.b, call.e,
                call.ends.ptr(), call.ends.len(), call.rays.ptr(), call.rays.len(), call.weights.ptr(), call.weights.len(),
                call.scales.ptr(), call.scales.len(), call.points.ptr(), call.points.len(), call.offsets.ptr(), call.offsets.len(),
                call.rows.ptr(), call.rows.len(), marks.mut_ptr(), marks.len(),
                current.ptr(), current.len(), trial.ptr(), trial.len(), mark, out.mut_ptr(), out.len(), report.mut_ptr(), report.len(),
            )
        };
        match refusal {
            Some(refusal) => {
                answered(name, got, refusal.0, differences);
                refused(&report, REPORT, refusal, differences);
                out.untouched(differences);
            }
            None => {
                answered(name, got, 0, differences);
                report.check(&[0], differences);
                out.check(&of(&net, &marked), differences);
            }
        }
        call.untouched(differences);
        cleared(&marks, refusal, differences);
        current.untouched(differences);
        trial.untouched(differences);
    }
    refusal
}

/// Connectivity and the parts listing. `more` and `off` are added to the lengths of the node numbers and the labels, `told` is the
/// report's.
fn compare_graph(call: &Call, more: isize, off: isize, told: usize, differences: &mut Vec<String>) -> Option<rules::Refusal> {
    let net = call.view();
    // counts over the limit are refused before the lengths are looked at
    let sized = |count: usize, change: isize| count.min(70_000).saturating_add_signed(change);
    let mut nodes: Lent<usize> = Lent::blank("nodes", sized(net.n.saturating_add(net.m), more));
    let mut report: Lent<usize> = Lent::blank("report", told);
    let got = unsafe {
        vobzeile_connected(
            net.n, net.m, net.b, net.e,
            call.ends.ptr(), call.ends.len(), call.weights.ptr(), call.weights.len(),
            nodes.mut_ptr(), nodes.len(), report.mut_ptr(), report.len(),
        )
    };
    let refusal = rules::graph(&net, || nodes.len() >= net.n + net.m && told == REPORT);
    match refusal {
        Some(refusal) => {
            answered("connectivity's refusal", got, refusal.0, differences);
            refused(&report, REPORT, refusal, differences);
            nodes.untouched(differences);
        }
        None => {
            answered("connectivity's answer", got, 0, differences);
            report.check(&[oracle::connected(&net) as usize], differences);
            nodes.check(&vec![0; net.n + net.m], differences);
        }
    }
    call.untouched(differences);

    let mut nodes: Lent<usize> = Lent::blank("nodes", nodes.len());
    let mut labels: Lent<usize> = Lent::blank("labels", sized(net.n, off));
    let mut report: Lent<usize> = Lent::blank("report", told);
    let got = unsafe {
        vobzeile_parts(
            net.n, net.m, net.b, net.e,
            call.ends.ptr(), call.ends.len(), call.weights.ptr(), call.weights.len(),
            nodes.mut_ptr(), nodes.len(), labels.mut_ptr(), labels.len(), report.mut_ptr(), report.len(),
        )
    };
    let refusal = rules::graph(&net, || nodes.len() >= net.n + net.m && labels.len() == net.n && told == REPORT);
    match refusal {
        Some(refusal) => {
            answered("the listing's refusal", got, refusal.0, differences);
            refused(&report, REPORT, refusal, differences);
            nodes.untouched(differences);
            labels.untouched(differences);
        }
        None => {
            let (label, parts) = oracle::labels(&net);
            answered("the listing's answer", got, 0, differences);
            report.check(&[parts], differences);
            labels.check(&label, differences);
            nodes.check(&vec![0; net.n + net.m], differences);
        }
    }
    call.untouched(differences);
    refusal
}

fn compare_work_length(call: &Call, route: usize, limit: usize, told: usize, differences: &mut Vec<String>) {
    let Call { n, m, b, e, .. } = *call;
    let mut report: Lent<usize> = Lent::blank("report", told);
    let got = unsafe { vobzeile_work_length(n, m, b, e, route, limit, report.mut_ptr(), report.len()) };
    match rules::length(n, m, b, e, told == REPORT) {
        Some(refusal) => {
            answered("the work length's refusal", got, refusal.0, differences);
            refused(&report, REPORT, refusal, differences);
        }
        None => {
            answered("the work length's answer", got, 0, differences);
            report.check(&[rules::work_length(n, m, b, e, route, limit)], differences);
        }
    }
}

fn room(net: &Network, route: usize, limit: usize, surplus: usize) -> Room {
    Room {
        work: rules::work_length(net.n, net.m, net.b, net.e, route, limit) + surplus,
        cameras: 3 * net.n,
        placed: 3 * net.m,
        report: SOLVE_REPORT,
    }
}

fn change<T: Held>(lent: &mut Lent<T>, change: impl FnOnce(&mut Vec<T>)) {
    let mut numbers = lent.get().to_vec();
    change(&mut numbers);
    *lent = Lent::holding(lent.name, &numbers);
}

/// The places of a list that names `least` rows or more.
fn listed(net: &Network, least: usize, random: &mut Random) -> Option<std::ops::Range<usize>> {
    let lists: Vec<_> = net.offsets.windows(2).map(|ends| ends[0]..ends[1]).filter(|list| list.len() >= least).collect();
    (!lists.is_empty()).then(|| lists[random.below(lists.len())].clone())
}

/// The calls that test 6, by the names that their refusals are counted under.
const SOLVE: &str = "spoiled solve";
const STEP: &str = "spoiled dots and scales";

/// Mistakes that are counted apart where a call has no other: the first is refused by 3, the others by 6.
const MARKS: &str = "marks";
const REPEATED: &str = "a row repeated";
const ELSEWHERE: &str = "two rows under each other's points";
const MISSING: &str = "a row missing";

/// The refusals of spoiled calls that must be met.
fn wanted() -> Vec<String> {
    let numbers = (1..=8).map(|number| format!("{SOLVE} refused {number}")).chain((1..=7).map(|number| format!("{STEP} refused {number}")));
    let causes = [(3, MARKS), (6, REPEATED), (6, ELSEWHERE), (6, MISSING)];
    let apart = [SOLVE, STEP].into_iter().flat_map(|name| causes.map(|(number, mistake)| format!("{name} refused {number}: {mistake}")));
    numbers.chain(apart).collect()
}

/// A call with one to three mistakes, so that the order of the refusals shows; what was mistaken is counted by the refusal met.
fn compare_spoiled(case: &Case, random: &mut Random, differences: &mut Vec<String>, met: &mut Met, number: u64) {
    let mut call = Call::new(&case.net, random);
    let (mut route, mut limit) = (case.route, case.limit);
    let mut room = room(&case.net, route, limit, random.below(3));
    let mut cameras = case.cameras.clone();
    let (mut more, mut off, mut short) = (0, 0, None);
    let rows = case.net.b + case.net.e;
    let bad = [f64::NAN, f64::INFINITY, f64::NEG_INFINITY];
    let mistakes = random.among(1, 3);
    let mut mistake = None;
    for _ in 0..mistakes {
        match random.below(30) {
            0 => call.n = random.pick(&[0, 4097, usize::MAX, call.n + 1, 1 << 63]),
            1 => call.m = random.pick(&[65537, usize::MAX, call.m + 1, call.m.wrapping_sub(1), usize::MAX / 3 + 1]),
            2 => call.b = random.pick(&[262145, usize::MAX, call.b + 1, call.b.wrapping_sub(1), 1 << 63]),
            3 => call.e = random.pick(&[65537, usize::MAX, call.e + 1, call.e.wrapping_sub(1), usize::MAX - call.b + 1]),
            4 => change(&mut call.ends, |x| x.push(0)),
            5 => change(&mut call.rays, |x| x.truncate(x.len().saturating_sub(1))),
            6 => change(&mut call.weights, |x| x.push(1.0)),
            7 => change(&mut call.scales, |x| x.truncate(x.len().saturating_sub(1))),
            8 => change(&mut call.points, |x| x.push(0.0)),
            9 => change(&mut call.offsets, |x| x.truncate(x.len().saturating_sub(1))),
            10 => change(&mut call.rows, |x| x.push(0)),
            11 => room.work = room.work.saturating_sub(random.among(1, 3)),
            12 => room.cameras += 1,
            13 => room.placed += 1,
            14 => {
                more = -1;
                off = 1;
                short = Some(random.below(3));
            }
            15 if rows > 0 => {
                let row = random.below(rows);
                let end = random.below(2);
                let past = if end == 1 && row < case.net.b { case.net.m } else { case.net.n };
                change(&mut call.ends, |x| if 2 * row + end < x.len() { x[2 * row + end] = past });
            }
            16 if rows > 0 => {
                let place = random.below(2 * rows);
                change(&mut call.ends, |x| if place < x.len() { x[place] = usize::MAX });
            }
            17 if case.net.e > 0 => {
                let row = case.net.b + random.below(case.net.e);
                change(&mut call.ends, |x| if 2 * row + 1 < x.len() { x[2 * row] = x[2 * row + 1] });
            }
            18 if case.net.b > 0 => {
                let place = random.below(case.net.b);
                let value = random.pick(&[0, case.net.b, usize::MAX, case.net.b - 1]);
                change(&mut call.rows, |x| if place < x.len() { x[place] = value });
            }
            // no mistake where both are under one point
            19 if case.net.b > 1 => {
                let (one, other) = (random.below(case.net.b), random.below(case.net.b));
                change(&mut call.rows, |x| if one.max(other) < x.len() { x.swap(one, other) });
            }
            20 => {
                let place = random.below(case.net.m + 1);
                let value = random.pick(&[0, 1, case.net.b, case.net.b + 1, usize::MAX]);
                change(&mut call.offsets, |x| if place < x.len() { x[place] = value });
            }
            21 if rows > 0 => {
                let row = random.below(rows);
                let value = random.pick(&[-1.0, -5e-324, f64::NAN, f64::INFINITY]);
                change(&mut call.weights, |x| if row < x.len() { x[row] = value });
            }
            22 if rows > 0 => {
                let row = random.below(rows);
                let value = random.pick(&[0.0, -0.0, -1.0, f64::NAN, f64::INFINITY]);
                change(&mut call.scales, |x| if row < x.len() { x[row] = value });
            }
            23 if rows > 0 => {
                let (place, value) = (random.below(3 * rows), random.pick(&bad));
                change(&mut call.rays, |x| if place < x.len() { x[place] = value });
            }
            24 => {
                if case.net.m > 0 && random.chance(50) {
                    let (place, value) = (random.below(3 * case.net.m), random.pick(&bad));
                    change(&mut call.points, |x| if place < x.len() { x[place] = value });
                } else {
                    let place = random.below(cameras.len());
                    cameras[place] = random.pick(&bad);
                }
            }
            25 => {
                if random.chance(50) {
                    call.marks.push(1);
                    mistake = Some(MARKS);
                } else if call.marks.pop().is_some() {
                    mistake = Some(MARKS);
                }
            }
            26 => {
                if let Some(list) = listed(&case.net, 2, random) {
                    let (one, by) = (random.below(list.len()), random.among(1, list.len() - 1));
                    let (place, other) = (list.start + one, list.start + (one + by) % list.len());
                    change(&mut call.rows, |x| if list.end <= x.len() { x[place] = x[other] });
                    mistake = Some(REPEATED);
                }
            }
            27 => {
                if let (Some(one), Some(other)) = (listed(&case.net, 1, random), listed(&case.net, 1, random)) {
                    if one != other {
                        let (place, other) = (random.among(one.start, one.end - 1), random.among(other.start, other.end - 1));
                        change(&mut call.rows, |x| if place.max(other) < x.len() { x.swap(place, other) });
                        mistake = Some(ELSEWHERE);
                    }
                }
            }
            // the row goes to the end, and the lists after it start one earlier
            28 => {
                if let Some(list) = listed(&case.net, 1, random) {
                    let place = random.among(list.start, list.end - 1);
                    change(&mut call.rows, |x| if place < x.len() { x[place..].rotate_left(1) });
                    change(&mut call.offsets, |x| x.iter_mut().filter(|offset| **offset > place).for_each(|offset| *offset -= 1));
                    mistake = Some(MISSING);
                }
            }
            _ => {
                route = random.pick(&[0, 4, usize::MAX, route]);
                limit = random.pick(&[257, usize::MAX, 256, limit]);
            }
        }
    }
    let mut told = REPORT;
    if random.chance(20) {
        room.report = random.pick(&[0, 1, 3, 5]);
        told = random.pick(&[0, 2, 3]);
    }
    let only = mistake.filter(|_| mistakes == 1 && room.report == SOLVE_REPORT);
    let met_by = |name: &str, refusal: &rules::Refusal| format!("{name} refused {}", refusal.0);
    let mut meet = |name: &str, refusal: &rules::Refusal| {
        met.meet(met_by(name, refusal), number);
        if let Some(mistake) = only {
            met.meet(format!("{}: {mistake}", met_by(name, refusal)), number);
        }
    };
    if let Err(refusal) = compare_solve(&call, route, limit, room, differences) {
        meet(SOLVE, &refusal);
    }
    if let Some(refusal) = compare_step(&call, &cameras, random.below(2), short, told, differences) {
        meet(STEP, &refusal);
    }
    if let Some(refusal) = compare_graph(&call, more, off, told, differences) {
        met.meet(met_by("spoiled graph calls", &refusal), number);
    }
    compare_work_length(&call, route, limit, told, differences);
}

fn compare(case: &Case, random: &mut Random, met: &mut Met, number: u64, routes: &[usize]) -> Vec<String> {
    let mut differences = Vec::new();
    let call = Call::new(&case.net, random);
    compare_graph(&call, random.below(3) as isize, 0, REPORT, &mut differences);
    met.meet(if oracle::connected(&case.net.view()) { "connected" } else { "disconnected" }, number);
    met.meet(classes::of_lists(&case.net.view()), number);
    compare_step(&call, &case.cameras, random.below(2), None, REPORT, &mut differences);
    for &route in routes {
        let surplus = random.below(3);
        let solved = compare_solve(&call, route, case.limit, room(&case.net, route, case.limit, surplus), &mut differences);
        compare_work_length(&call, route, case.limit, REPORT, &mut differences);
        let Ok(answer) = solved else {
            differences.push("a network of the generator was refused".to_string());
            continue;
        };
        for class in classes::of_solve(case.net.n, route, &answer) {
            met.meet(class, number);
        }
        for class in classes::of_few(&case.net.view(), &answer) {
            met.meet(class, number);
        }
        for class in classes::of_camera(case.net.n, &answer) {
            met.meet(class, number);
        }
        if let (Ok(placement), true) = (answer, route == case.route) {
            // the points that were placed take the place of the old ones
            let net = Network { points: placement.points, ..case.net.clone() };
            let call = Call::new(&net, random);
            if let Some((number_, _)) = compare_step(&call, &placement.cameras, random.below(2), None, REPORT, &mut differences) {
                met.meet(format!("dots and scales of a placement refused {number_}"), number);
            }
        }
    }
    differences
}

fn main() {
    let arguments: Vec<String> = std::env::args().skip(1).collect();
    let value = |name: &str, usual: u64| {
        let place = arguments.iter().position(|a| a == name);
        place.map_or(usual, |i| arguments[i + 1].parse().expect("a number"))
    };
    let flag = |name: &str| arguments.iter().any(|a| a == name);
    let (count, seed, from) = (value("--count", 100_000), value("--seed", 1), value("--from", 0));
    let until = value("--until", u64::MAX);
    let mut met = Met::default();
    let (mut networks, mut disagreements) = (0u64, 0u64);
    let mut tell = |kind: &str, number: u64, differences: Vec<String>| {
        networks += 1;
        disagreements += !differences.is_empty() as u64;
        if !differences.is_empty() && disagreements <= 10 {
            println!("case {number} ({kind}): {}", differences.join("; "));
        }
        disagreements < until
    };
    for number in from..from + count {
        let case = generate(seed, number);
        let random = &mut Random::new(!seed, number);
        let mut differences = compare(&case, random, &mut met, number, &[1, 2, 3]);
        if random.chance(50) {
            compare_spoiled(&case, random, &mut differences, &mut met, number);
        }
        if !tell(case.kind, number, differences) {
            break;
        }
    }
    if flag("--full") {
        for kind in 0..FULL_KINDS {
            let case = full(seed, kind);
            let number = from + count + kind as u64;
            let random = &mut Random::new(!seed, 1 << 41 | kind as u64);
            let differences = compare(&case, random, &mut met, number, &[2]);
            println!("{}: {}", case.kind, if differences.is_empty() { "agrees" } else { "DIFFERS" });
            tell(case.kind, number, differences);
        }
    }
    let whole = (flag("--brief") || met.report(&wanted())) & classes::no_tens();
    println!("{networks} networks compared, seed {seed}, from case {from}: {disagreements} disagreements");
    if disagreements > 0 || !whole {
        std::process::exit(1);
    }
}
