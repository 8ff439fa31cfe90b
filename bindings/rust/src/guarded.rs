//! Callers' mistakes, by the C functions themselves: every buffer is cut out of a larger one, and after each call the inputs, whatever a
//! refusal leaves, and the canaries on both sides hold what they held, to the bit.

use crate::Counts;
use crate::ffi::{self, Lent, Marked, Read, Solved};
use crate::step::Call;
use std::fmt::Debug;

trait Held: Copy + Debug {
    fn canary(place: usize) -> Self;
    fn bits(self) -> u64;
}

impl Held for f64 {
    /// Every fourth is a NaN with a payload.
    fn canary(place: usize) -> Self {
        match place % 4 {
            0 => f64::from_bits(0x7ff4_dead_beef_0000 + place as u64),
            1 => -1.5e300,
            2 => f64::NEG_INFINITY,
            _ => 3.25 + place as f64,
        }
    }

    fn bits(self) -> u64 {
        self.to_bits()
    }
}

impl Held for usize {
    fn canary(place: usize) -> Self {
        usize::MAX / 3 + place
    }

    fn bits(self) -> u64 {
        self as u64
    }
}

impl Held for u8 {
    fn canary(place: usize) -> Self {
        (0xa5 + 7 * place % 90) as u8
    }

    fn bits(self) -> u64 {
        self.into()
    }
}

const GUARD: usize = 8;

struct Guarded<T> {
    all: Vec<T>,
    before: Vec<T>,
}

impl<T: Held> Guarded<T> {
    fn holding(numbers: &[T]) -> Self {
        let guard = |start: usize| (0..GUARD).map(move |i| T::canary(start + i));
        let inner = numbers.iter().copied();
        let all: Vec<T> = guard(0).chain(inner).chain(guard(GUARD)).collect();
        Self {
            before: all.clone(),
            all,
        }
    }

    fn blank(length: usize) -> Self {
        let numbers: Vec<T> = (0..length).map(|i| T::canary(100 + i)).collect();
        Self::holding(&numbers)
    }

    fn get(&self) -> &[T] {
        &self.all[GUARD..self.all.len() - GUARD]
    }

    fn get_mut(&mut self) -> &mut [T] {
        let end = self.all.len() - GUARD;
        &mut self.all[GUARD..end]
    }

    /// The first numbers are these; all others are what they were.
    #[track_caller]
    fn holds(&self, first: &[T]) {
        let mut wanted = self.before.clone();
        wanted[GUARD..GUARD + first.len()].copy_from_slice(first);
        let same = |(a, b): (&T, &T)| a.bits() == b.bits();
        let whole = self.all.iter().zip(&wanted).all(same);
        assert!(whole, "{:?} is not {wanted:?}", self.all);
    }

    #[track_caller]
    fn untouched(&self) {
        self.holds(&[]);
    }

    /// Whatever is inside, the canaries on both sides are what they were.
    #[track_caller]
    fn guarded(&self) {
        self.holds(self.get());
    }
}

impl Guarded<usize> {
    /// The first number of a report that must have `length` numbers: a refusal's place, or the one number of an answer. The others are
    /// what they were, and so is the whole of a report that 3 refuses. 0 where there is none.
    #[track_caller]
    fn told(&self, code: usize, length: usize) -> usize {
        if self.get().len() != length {
            assert!((1..=3).contains(&code) || (20..=22).contains(&code));
            if code == 3 {
                self.untouched();
                return 0;
            }
        }
        let first = &self.get()[..self.get().len().min(1)];
        self.holds(first);
        first.first().copied().unwrap_or(0)
    }
}

/// A call with all that can be wrong about it. Lengths are of buffers that hold nothing yet.
#[derive(Clone)]
struct Case {
    counts: Counts,
    ends: Vec<usize>,
    rays: Vec<f64>,
    weights: Vec<f64>,
    scales: Vec<f64>,
    points: Vec<f64>,
    offsets: Vec<usize>,
    rows: Vec<usize>,
    marks: Vec<usize>,
    route: usize,
    limit: usize,
    current: Vec<f64>,
    trial: Vec<f64>,
    mark: usize,
    work: usize,
    cameras: usize,
    placed: usize,
    out: usize,
    nodes: usize,
    labels: usize,
    bytes: usize,
    report: usize,
    solve_report: usize,
}

/// Cameras 0 and 1 see point 0, camera 2 sees point 1; directions 0-1 and 1-2.
fn case() -> Case {
    Case {
        counts: Counts {
            cameras: 3,
            points: 2,
            bearings: 3,
            directions: 2,
        },
        ends: vec![0, 0, 2, 1, 1, 0, 0, 1, 1, 2],
        rays: vec![
            0.0, 0.0, 1.0, 0.6, 0.8, 0.0, -1.0, 0.0, 0.0, 1.0, 0.0, 0.0, 0.0, 1.0, 0.0,
        ],
        weights: vec![1.0, 2.0, 1.5, 1.0, 0.5],
        scales: vec![1.0, 0.5, 2.0, 1.0, 1.0],
        points: vec![0.0, 0.0, 1.0, 2.0, 2.0, 2.0],
        offsets: vec![0, 2, 3],
        rows: vec![0, 2, 1],
        marks: vec![usize::MAX, 1, 7],
        route: 3,
        limit: 2,
        current: vec![0.0, 0.0, 0.0, 1.0, 0.0, 0.0, 1.0, 1.0, 0.0],
        trial: vec![f64::NAN; 9],
        mark: 0,
        // 24 * 3 + 4 * 2 + 3 + 2 + 4 + 6, and two to spare
        work: 97,
        cameras: 9,
        placed: 6,
        out: 5,
        // 3 + 2, and one to spare
        nodes: 6,
        labels: 3,
        // 52 + 48 * 5 + 24 * 2, and four to spare
        bytes: 344,
        report: 1,
        solve_report: 4,
    }
}

/// The number and place of a refusal; (0, 0) is an answer.
type Outcome = (usize, usize);

const ANSWERED: Outcome = (0, 0);

/// The buffers of a network, guarded.
struct Buffers {
    counts: Counts,
    ends: Guarded<usize>,
    rays: Guarded<f64>,
    weights: Guarded<f64>,
    scales: Guarded<f64>,
    points: Guarded<f64>,
    offsets: Guarded<usize>,
    rows: Guarded<usize>,
}

impl Buffers {
    fn of(case: &Case) -> Self {
        Self {
            counts: case.counts,
            ends: Guarded::holding(&case.ends),
            rays: Guarded::holding(&case.rays),
            weights: Guarded::holding(&case.weights),
            scales: Guarded::holding(&case.scales),
            points: Guarded::holding(&case.points),
            offsets: Guarded::holding(&case.offsets),
            rows: Guarded::holding(&case.rows),
        }
    }

    fn lent(&self) -> Lent<'_> {
        Lent {
            counts: self.counts,
            ends: self.ends.get(),
            rays: self.rays.get(),
            weights: self.weights.get(),
            scales: self.scales.get(),
            points: self.points.get(),
            offsets: self.offsets.get(),
            rows: self.rows.get(),
        }
    }

    #[track_caller]
    fn untouched(&self) {
        self.ends.untouched();
        self.rays.untouched();
        self.weights.untouched();
        self.scales.untouched();
        self.points.untouched();
        self.offsets.untouched();
        self.rows.untouched();
    }
}

/// The marks are left where 1 to 5 refuse, and else all 0.
#[track_caller]
fn cleared(marks: &Guarded<usize>, code: usize, case: &Case) {
    if (1..=5).contains(&code) {
        marks.untouched();
    } else {
        assert_eq!(marks.get().len(), case.counts.bearings);
        marks.holds(&vec![0; case.counts.bearings]);
    }
}

fn solve(case: &Case) -> Outcome {
    solve_named(case).0
}

/// The outcome, and the camera that 11 to 13 store behind the place.
fn solve_named(case: &Case) -> (Outcome, Option<usize>) {
    let buffers = Buffers::of(case);
    let mut marks = Guarded::holding(&case.marks);
    let mut work = Guarded::<f64>::blank(case.work);
    let mut cameras = Guarded::<f64>::blank(case.cameras);
    let mut placed = Guarded::<f64>::blank(case.placed);
    let mut report = Guarded::<usize>::blank(case.solve_report);
    let solved = Solved {
        marks: marks.get_mut(),
        work: work.get_mut(),
        cameras: cameras.get_mut(),
        placed: placed.get_mut(),
        report: report.get_mut(),
    };
    let code = ffi::solve(&buffers.lent(), case.route, case.limit, solved);
    buffers.untouched();
    cleared(&marks, code, case);
    if (1..=8).contains(&code) {
        work.untouched();
    } else {
        let mut needed = [0];
        ffi::work_length(case.counts, case.route, case.limit, &mut needed);
        work.holds(&vec![0.0; needed[0]]);
    }
    if code == 0 {
        let answer = report.get().to_vec();
        assert_eq!(answer.len(), 4);
        report.holds(&answer);
        cameras.guarded();
        placed.guarded();
        assert!(cameras.get().iter().all(|number| number.is_finite()));
        return (ANSWERED, None);
    }
    cameras.untouched();
    placed.untouched();
    if (11..=13).contains(&code) {
        let told = [report.get()[0], report.get()[1]];
        report.holds(&told);
        return ((code, told[0]), Some(told[1]));
    }
    ((code, report.told(code, 4)), None)
}

/// Dots and scales, which refuse alike.
fn step(case: &Case) -> Outcome {
    let run = |call: Call| {
        let buffers = Buffers::of(case);
        let mut marks = Guarded::holding(&case.marks);
        let current = Guarded::holding(&case.current);
        let trial = Guarded::holding(&case.trial);
        let mut out = Guarded::<f64>::blank(case.out);
        let mut report = Guarded::<usize>::blank(case.report);
        let marked = Marked {
            current: current.get(),
            trial: trial.get(),
            mark: case.mark,
        };
        let code = call(
            &buffers.lent(),
            marks.get_mut(),
            marked,
            out.get_mut(),
            report.get_mut(),
        );
        buffers.untouched();
        cleared(&marks, code, case);
        current.untouched();
        trial.untouched();
        let place = report.told(code, 1);
        if code == 0 {
            assert_eq!(place, 0);
            out.guarded();
            assert!(out.get().iter().all(|number| number.is_finite()));
        } else {
            out.untouched();
        }
        (code, place)
    };
    let outcome = run(ffi::dots);
    assert_eq!(outcome, run(ffi::scales));
    outcome
}

fn graph(case: &Case) -> Outcome {
    let buffers = Buffers::of(case);
    let mut nodes = Guarded::<usize>::blank(case.nodes);
    let mut labels = Guarded::<usize>::blank(case.labels);
    let mut report = Guarded::<usize>::blank(case.report);
    let code = ffi::parts(
        &buffers.lent(),
        nodes.get_mut(),
        labels.get_mut(),
        report.get_mut(),
    );
    buffers.untouched();
    let first = report.told(code, 1);
    if code == 0 {
        nodes.holds(&vec![0; case.counts.cameras + case.counts.points]);
        labels.guarded();
    } else {
        nodes.untouched();
        labels.untouched();
    }

    let mut nodes = Guarded::<usize>::blank(case.nodes);
    let mut report = Guarded::<usize>::blank(case.report);
    let connected = ffi::connected(&buffers.lent(), nodes.get_mut(), report.get_mut());
    buffers.untouched();
    let yes = report.told(connected, 1);
    // the labels are the listing's alone
    if case.labels == case.counts.cameras {
        assert_eq!(connected, code);
        let wanted = if code == 0 {
            (first == 1) as usize
        } else {
            first
        };
        assert_eq!(yes, wanted);
    }
    if connected == 0 {
        nodes.holds(&vec![0; case.counts.cameras + case.counts.points]);
    } else {
        nodes.untouched();
    }
    if code == 0 { ANSWERED } else { (code, first) }
}

fn write(case: &Case) -> Outcome {
    let buffers = Buffers::of(case);
    let mut out = Guarded::<u8>::blank(case.bytes);
    let mut report = Guarded::<usize>::blank(case.report);
    let code = ffi::write(&buffers.lent(), out.get_mut(), report.get_mut());
    buffers.untouched();
    let first = report.told(code, 1);
    if code == 0 {
        assert_eq!(first, 340);
        out.holds(&out.get()[..340]);
        return ANSWERED;
    }
    out.untouched();
    (code, first)
}

/// What solve, dots and scales, graph calls and the writer say to a case with one mistake.
#[track_caller]
fn refused(
    spoil: impl FnOnce(&mut Case),
    on_solve: Outcome,
    on_step: Outcome,
    on_graph: Outcome,
    on_write: Outcome,
) {
    let mut spoiled = case();
    spoil(&mut spoiled);
    assert_eq!(solve(&spoiled), on_solve, "solve");
    assert_eq!(step(&spoiled), on_step, "dots and scales");
    assert_eq!(graph(&spoiled), on_graph, "graph");
    assert_eq!(write(&spoiled), on_write, "write");
}

#[track_caller]
fn all_tell(spoil: impl FnOnce(&mut Case), outcome: Outcome) {
    refused(spoil, outcome, outcome, outcome, outcome);
}

fn shorten<T>(numbers: &mut Vec<T>) {
    numbers.truncate(numbers.len() - 1);
}

#[test]
fn nothing_wrong() {
    all_tell(|_| {}, ANSWERED);
    all_tell(|c| c.route = 1, ANSWERED);
    all_tell(|c| c.route = 2, ANSWERED);
    // the trial buffer is marked, and the current one holds NaNs
    all_tell(
        |c| {
            std::mem::swap(&mut c.current, &mut c.trial);
            c.mark = usize::MAX;
        },
        ANSWERED,
    );
}

#[test]
fn camera_count() {
    for n in [0, 4097, 1 << 63, usize::MAX] {
        all_tell(|c| c.counts.cameras = n, (1, 0));
    }
}

#[test]
fn row_counts() {
    for count in [
        65537,
        1 << 63,
        usize::MAX / 3 + 1,
        usize::MAX - 1,
        usize::MAX,
    ] {
        all_tell(|c| c.counts.points = count, (2, 0));
        all_tell(|c| c.counts.directions = count, (2, 0));
    }
    for count in [262145, 1 << 63, usize::MAX - 1, usize::MAX] {
        all_tell(|c| c.counts.bearings = count, (2, 0));
        // 1 comes first
        all_tell(
            |c| {
                c.counts.bearings = count;
                c.counts.cameras = count;
            },
            (1, 0),
        );
    }
}

#[test]
fn lengths_and_counts() {
    // within the limits, and other than the lengths say
    all_tell(|c| c.counts.bearings = 262144, (3, 0));
    all_tell(|c| c.counts.bearings = 0, (3, 0));
    all_tell(|c| c.counts.directions = 65536, (3, 0));
    refused(|c| c.counts.points = 65536, (3, 0), (3, 0), (3, 0), (3, 0));
    refused(
        |c| c.counts.cameras = 4096,
        (3, 0),
        (3, 0),
        (3, 0),
        ANSWERED,
    );
    let (three, fine) = ((3, 0), ANSWERED);
    all_tell(|c| c.ends.push(0), three);
    all_tell(|c| c.ends.clear(), three);
    all_tell(|c| shorten(&mut c.weights), three);
    all_tell(|c| c.weights.push(1.0), three);
    refused(|c| c.rays.push(1.0), three, three, fine, three);
    refused(|c| c.rays.truncate(12), three, three, fine, three);
    refused(|c| shorten(&mut c.scales), three, three, fine, three);
    refused(|c| c.scales.clear(), three, three, fine, three);
    refused(|c| c.points.push(1.0), three, three, fine, three);
    refused(|c| c.points.clear(), three, three, fine, three);
    refused(|c| c.offsets.push(3), three, three, fine, fine);
    refused(|c| c.offsets.clear(), three, three, fine, fine);
    refused(|c| shorten(&mut c.rows), three, three, fine, fine);
    refused(|c| c.rows.push(0), three, three, fine, fine);
    refused(|c| shorten(&mut c.marks), three, three, fine, fine);
    refused(|c| c.marks.push(0), three, three, fine, fine);
    refused(|c| c.marks.clear(), three, three, fine, fine);
    // 4 comes later
    let both = |c: &mut Case| {
        c.marks.clear();
        c.ends[2] = 3;
    };
    refused(both, three, three, (4, 1), (4, 1));
}

#[test]
fn lengths_of_outputs() {
    let (three, fine) = ((3, 0), ANSWERED);
    for length in [0, 1, 94] {
        refused(|c| c.work = length, three, fine, fine, fine);
    }
    // just what is needed
    refused(|c| c.work = 95, fine, fine, fine, fine);
    for length in [0, 8, 10] {
        refused(|c| c.cameras = length, three, fine, fine, fine);
    }
    for length in [0, 5, 7] {
        refused(|c| c.placed = length, three, fine, fine, fine);
    }
    for length in [0, 4, 6] {
        refused(|c| c.out = length, fine, three, fine, fine);
    }
    refused(|c| shorten(&mut c.current), fine, three, fine, fine);
    refused(|c| c.trial.push(0.0), fine, three, fine, fine);
    refused(|c| c.trial.clear(), fine, three, fine, fine);
    for length in [0, 1, 4] {
        refused(|c| c.nodes = length, fine, fine, three, fine);
    }
    refused(|c| c.nodes = 5, fine, fine, fine, fine);
    for length in [0, 2, 4] {
        refused(|c| c.labels = length, fine, fine, three, fine);
    }
    for length in [0, 1, 36, 339] {
        refused(|c| c.bytes = length, fine, fine, fine, (23, 340));
    }
    refused(|c| c.bytes = 340, fine, fine, fine, fine);
}

#[test]
fn lengths_of_reports() {
    let (three, fine) = ((3, 0), ANSWERED);
    for length in [0, 1, 2, 3, 5] {
        refused(|c| c.solve_report = length, three, fine, fine, fine);
    }
    for length in [0, 2, 3, 4, 5] {
        refused(|c| c.report = length, fine, three, three, three);
        let both = |c: &mut Case| {
            c.report = length;
            c.solve_report = 6 - length;
        };
        // 1 and 2 come first
        all_tell(
            |c| {
                both(c);
                c.counts.cameras = 4097;
            },
            (1, 0),
        );
        all_tell(
            |c| {
                both(c);
                c.counts.points = usize::MAX;
            },
            (2, 0),
        );
    }
    // 4 to 8 and 23 come later
    for length in [0, 2, 3] {
        let both = |c: &mut Case| {
            c.report = length;
            c.solve_report = length;
        };
        all_tell(
            |c| {
                both(c);
                c.ends[2] = 3;
            },
            three,
        );
        all_tell(
            |c| {
                both(c);
                c.weights[1] = f64::NAN;
                c.route = 0;
                c.bytes = 0;
            },
            three,
        );
    }
}

#[test]
fn numbers_out_of_range() {
    for past in [3, usize::MAX] {
        // camera of bearing 1, target of direction 0
        all_tell(|c| c.ends[2] = past, (4, 1));
        all_tell(|c| c.ends[7] = past, (4, 3));
        // the lowest row counts
        all_tell(
            |c| {
                c.ends[8] = past;
                c.ends[4] = past;
            },
            (4, 2),
        );
    }
    // point of bearing 2; a direction's target may be 2
    all_tell(|c| c.ends[5] = 2, (4, 2));
}

#[test]
fn source_and_target() {
    all_tell(|c| c.ends[6] = 1, (5, 3));
    all_tell(|c| c.ends[9] = 1, (5, 4));
    // a bearing's camera and point may have one number
    all_tell(|c| c.ends[3] = 1, ANSWERED);
    // 4 comes first, though its row is higher
    all_tell(
        |c| {
            c.ends[6] = 1;
            c.ends[9] = 9;
        },
        (4, 4),
    );
}

#[test]
fn point_lists() {
    let lists = |spoil: fn(&mut Case)| refused(spoil, (6, 0), (6, 0), ANSWERED, ANSWERED);
    lists(|c| c.rows = vec![0, 0, 1]);
    lists(|c| c.rows = vec![2, 2, 1]);
    lists(|c| c.rows = vec![0, 2, 2]);
    lists(|c| c.rows = vec![0, 1, 2]);
    lists(|c| c.rows[2] = usize::MAX);
    lists(|c| c.rows[0] = 3);
    lists(|c| c.offsets = vec![0, 1, 3]);
    lists(|c| c.offsets = vec![1, 2, 3]);
    lists(|c| c.offsets = vec![0, 2, 2]);
    lists(|c| c.offsets = vec![0, 4, 3]);
    lists(|c| c.offsets = vec![0, usize::MAX, 3]);
    lists(|c| c.offsets[2] = usize::MAX);
    // any order under a point
    all_tell(|c| c.rows = vec![2, 0, 1], ANSWERED);
    // 4 and 5 come first, and leave the marks
    for (end, number, outcome) in [(2, 3, (4, 1)), (6, 1, (5, 3))] {
        all_tell(
            |c| {
                c.rows = vec![0, 0, 1];
                c.ends[end] = number;
            },
            outcome,
        );
    }
}

/// Whatever the marks hold before, every call answers or refuses as ever.
#[test]
fn marks_of_any_content() {
    for first in [0, 1, 2, usize::MAX] {
        for second in [0, 1, 2, usize::MAX] {
            let marks = vec![first, second, first];
            all_tell(|c| c.marks = marks.clone(), ANSWERED);
            refused(
                |c| {
                    c.marks = marks.clone();
                    c.rows = vec![0, 0, 1];
                },
                (6, 0),
                (6, 0),
                ANSWERED,
                ANSWERED,
            );
        }
    }
    // without bearings there are none
    let mut directions = case();
    directions.counts.bearings = 0;
    directions.ends.drain(..6);
    directions.rays.drain(..9);
    directions.weights.drain(..3);
    directions.scales.drain(..3);
    directions.offsets = vec![0; 3];
    directions.rows.clear();
    directions.out = 2;
    assert_eq!((solve(&directions), step(&directions)), ((3, 0), (3, 0)));
    directions.marks.clear();
    assert_eq!(
        (solve(&directions), step(&directions)),
        (ANSWERED, ANSWERED)
    );
}

#[test]
fn outside_the_domain() {
    for bad in [f64::NAN, f64::INFINITY, f64::NEG_INFINITY] {
        for row in 0..5 {
            let all = (7, row);
            all_tell(|c| c.weights[row] = bad, all);
            refused(|c| c.scales[row] = bad, all, all, ANSWERED, all);
            for component in 0..3 {
                refused(
                    |c| c.rays[3 * row + component] = bad,
                    all,
                    all,
                    ANSWERED,
                    all,
                );
            }
        }
        for place in 0..6 {
            let all = (7, 5 + place / 3);
            refused(|c| c.points[place] = bad, all, all, ANSWERED, all);
        }
        for place in 0..9 {
            let camera = (7, 7 + place / 3);
            refused(
                |c| c.current[place] = bad,
                ANSWERED,
                camera,
                ANSWERED,
                ANSWERED,
            );
        }
    }
    for bad in [-1.0, -5e-324] {
        all_tell(|c| c.weights[4] = bad, (7, 4));
    }
    for bad in [0.0, -0.0, -1.0] {
        refused(|c| c.scales[2] = bad, (7, 2), (7, 2), ANSWERED, (7, 2));
    }
    // a weight may be a zero of either sign
    all_tell(|c| c.weights[4] = -0.0, ANSWERED);
    // 6 comes first
    let both = |c: &mut Case| {
        c.weights[0] = f64::NAN;
        c.rows = vec![2, 2, 1];
    };
    refused(both, (6, 0), (6, 0), (7, 0), (7, 0));
}

#[test]
fn routes() {
    let solve_alone = |spoil: &dyn Fn(&mut Case)| {
        refused(spoil, (8, 0), ANSWERED, ANSWERED, ANSWERED);
    };
    for route in [0, 4, usize::MAX] {
        solve_alone(&|c| c.route = route);
    }
    for limit in [257, usize::MAX] {
        solve_alone(&|c| c.limit = limit);
    }
    // 7 comes first
    refused(
        |c| {
            c.route = 0;
            c.points[3] = f64::NAN;
        },
        (7, 6),
        (7, 6),
        ANSWERED,
        (7, 6),
    );
    refused(
        |c| {
            c.route = 1;
            c.limit = 1;
        },
        (14, 2),
        ANSWERED,
        ANSWERED,
        ANSWERED,
    );
}

/// The camera of 11 to 13: where the sum stops being finite, or n. The report's other numbers are left, the work buffer is cleared.
#[test]
fn cameras_of_sums() {
    let named = |spoil: &dyn Fn(&mut Case)| {
        let mut spoiled = case();
        spoiled.route = 2;
        spoil(&mut spoiled);
        solve_named(&spoiled)
    };
    // camera 1 is the anchor
    assert_eq!(named(&|c| c.rays[9] = 1e200), ((13, 0), Some(0)));
    assert_eq!(named(&|c| c.rays[13] = 1e200), ((13, 1), Some(2)));
    // right sides whose square sum is still finite, but not that over the diagonals
    let light = |c: &mut Case| {
        c.weights = vec![0.0, 0.0, 0.0, 1e-6, 1e-6];
        c.rays[14] = 1e159;
    };
    assert_eq!(named(&light), ((11, 2), Some(2)));
    // no such camera on routes that go dense
    let dense = |c: &mut Case| {
        light(c);
        c.route = 3;
    };
    assert_eq!(named(&dense), (ANSWERED, None));
    // products so small that they vanish
    for (code, strong, weight, ray) in [
        (
            11,
            9.338372753875757e300,
            1.1672965942344696e300,
            -6.8710075957e-313,
        ),
        (
            12,
            1.5216196064818478e301,
            1.9020245081023097e300,
            -1.101660789756e-312,
        ),
    ] {
        let vanishing = |c: &mut Case| {
            c.weights = vec![strong, 0.0, 0.0, 0.0, weight];
            c.scales = vec![1.0; 5];
            c.rays.fill(0.0);
            c.rays[2] = 1.0;
            c.rays[12] = ray;
        };
        assert_eq!(named(&vanishing), ((code, 0), Some(3)));
    }
}

#[test]
fn work_lengths() {
    let length = |n, m, b, e, route, limit, room| {
        let counts = Counts {
            cameras: n,
            points: m,
            bearings: b,
            directions: e,
        };
        let mut report = Guarded::<usize>::blank(room);
        let code = ffi::work_length(counts, route, limit, report.get_mut());
        (code, report.told(code, 1))
    };
    assert_eq!(length(3, 2, 3, 2, 3, 2, 1), (0, 95));
    assert_eq!(length(3, 2, 3, 2, 1, 2, 1), (0, 95));
    assert_eq!(length(3, 2, 3, 2, 3, 1, 1), (0, 85));
    assert_eq!(length(3, 2, 3, 2, 2, 2, 1), (0, 85));
    assert_eq!(length(3, 2, 3, 2, 0, 2, 1), (0, 85));
    assert_eq!(length(3, 2, 3, 2, 3, 257, 1), (0, 85));
    for room in [0, 2, 3] {
        assert_eq!(length(3, 2, 3, 2, 3, 2, room), (3, 0));
        assert_eq!(length(0, 2, 3, 2, 3, 2, room), (1, 0));
        assert_eq!(length(3, 65537, 3, 2, 3, 2, room), (2, 0));
    }
    let full = 24 * 4096 + 4 * 65536 + 262144 + 65536;
    assert_eq!(length(4096, 65536, 262144, 65536, 3, 256, 1), (0, full));
    assert_eq!(length(257, 0, 0, 0, 3, 256, 1), (0, 24 * 257 + 65536 + 768));
    assert_eq!(length(0, 2, 3, 2, 3, 2, 1), (1, 0));
    assert_eq!(length(usize::MAX, 2, 3, 2, 3, 2, 1), (1, 0));
    assert_eq!(length(3, 65537, 3, 2, 3, 2, 1), (2, 0));
    assert_eq!(length(3, 2, usize::MAX, 2, 3, 2, 1), (2, 0));
    assert_eq!(length(3, 2, 3, usize::MAX, 3, 2, 1), (2, 0));
}

#[test]
fn listing_points() {
    let list = |m, b, ends: &[usize], offsets, rows, room| {
        let ends = Guarded::holding(ends);
        let mut offsets = Guarded::<usize>::blank(offsets);
        let mut rows = Guarded::<usize>::blank(rows);
        let mut report = Guarded::<usize>::blank(room);
        let code = ffi::list_points(
            m,
            b,
            ends.get(),
            offsets.get_mut(),
            rows.get_mut(),
            report.get_mut(),
        );
        let place = report.told(code, 1);
        ends.untouched();
        if code == 0 {
            offsets.guarded();
            rows.guarded();
        } else {
            offsets.untouched();
            rows.untouched();
        }
        (code, place, offsets.get().to_vec(), rows.get().to_vec())
    };
    let outcome = |m, b, ends: &[usize], offsets, rows| {
        let (code, place, ..) = list(m, b, ends, offsets, rows, 1);
        (code, place)
    };
    let ends = [7, 2, 0, 0, 1, 2, 9, 0, 4, 2];
    let (code, _, offsets, rows) = list(4, 5, &ends, 5, 5, 1);
    assert_eq!(
        (code, offsets, rows),
        (0, vec![0, 2, 2, 5, 5], vec![1, 3, 0, 2, 4])
    );
    // directions may follow
    let (code, _, offsets, rows) = list(3, 4, &ends, 4, 4, 1);
    assert_eq!(
        (code, offsets, rows),
        (0, vec![0, 2, 2, 4], vec![1, 3, 0, 2])
    );
    let (code, _, offsets, rows) = list(0, 0, &[], 1, 0, 1);
    assert_eq!((code, offsets, rows), (0, vec![0], vec![]));
    assert_eq!(outcome(2, 5, &ends, 3, 5), (4, 0));
    assert_eq!(outcome(2, 2, &ends[2..], 3, 2), (4, 1));
    assert_eq!(outcome(0, 5, &ends, 1, 5), (4, 0));
    for (m, b, offsets, rows) in [
        (4, 5, 4, 5),
        (4, 5, 6, 5),
        (4, 5, 0, 5),
        (4, 5, 5, 4),
        (4, 5, 5, 0),
        (4, 6, 5, 6),
        (usize::MAX, 5, 0, 5),
        (usize::MAX, 5, 5, 5),
        (4, usize::MAX, 5, 5),
        (4, 1 << 63, 5, 5),
    ] {
        assert_eq!(outcome(m, b, &ends, offsets, rows), (3, 0));
    }
    for room in [0, 2, 3] {
        let (code, place, ..) = list(4, 5, &ends, 5, 5, room);
        assert_eq!((code, place), (3, 0));
        // 4 comes later
        let (code, place, ..) = list(2, 5, &ends, 3, 5, room);
        assert_eq!((code, place), (3, 0));
    }
}

/// The image of the case.
fn image() -> Vec<u8> {
    let case = case();
    let buffers = Buffers::of(&case);
    let mut bytes = vec![0; 340];
    assert_eq!(ffi::write(&buffers.lent(), &mut bytes, &mut [0]), 0);
    bytes
}

/// The outcome of the counts and of the reader, into buffers of the case's lengths.
fn read(bytes: &[u8], case: &Case, room: usize) -> (Outcome, Outcome) {
    let bytes = Guarded::holding(bytes);
    let mut report = Guarded::<usize>::blank(room);
    let code = ffi::counts(bytes.get(), report.get_mut());
    bytes.untouched();
    let counted = outcome_of(code, &report);
    let mut ends = Guarded::<usize>::blank(case.ends.len());
    let mut rays = Guarded::<f64>::blank(case.rays.len());
    let mut weights = Guarded::<f64>::blank(case.weights.len());
    let mut scales = Guarded::<f64>::blank(case.scales.len());
    let mut points = Guarded::<f64>::blank(case.points.len());
    let mut report = Guarded::<usize>::blank(room);
    let read = Read {
        ends: ends.get_mut(),
        rays: rays.get_mut(),
        weights: weights.get_mut(),
        scales: scales.get_mut(),
        points: points.get_mut(),
        report: report.get_mut(),
    };
    let code = ffi::read(bytes.get(), read);
    bytes.untouched();
    if code == 0 {
        ends.holds(&case.ends);
        rays.holds(&case.rays);
        weights.holds(&case.weights);
        scales.holds(&case.scales);
        points.holds(&case.points);
    } else {
        ends.untouched();
        rays.untouched();
        weights.untouched();
        scales.untouched();
        points.untouched();
    }
    (counted, outcome_of(code, &report))
}

fn outcome_of(code: usize, report: &Guarded<usize>) -> Outcome {
    if code == 0 {
        report.holds(&[3, 2, 3, 2]);
        return ANSWERED;
    }
    (code, report.told(code, 4))
}

#[track_caller]
fn image_refused(spoil: impl FnOnce(&mut Vec<u8>), on_counts: Outcome, on_read: Outcome) {
    let mut bytes = image();
    spoil(&mut bytes);
    assert_eq!(read(&bytes, &case(), 4), (on_counts, on_read));
}

fn put(bytes: &mut [u8], at: usize, number: u32) {
    bytes[at..at + 4].copy_from_slice(&number.to_le_bytes());
}

fn put_double(bytes: &mut [u8], at: usize, number: f64) {
    bytes[at..at + 8].copy_from_slice(&number.to_le_bytes());
}

#[test]
fn images() {
    image_refused(|_| {}, ANSWERED, ANSWERED);
    let same = |spoil: &dyn Fn(&mut Vec<u8>), outcome| image_refused(spoil, outcome, outcome);
    for length in [0, 1, 3, 35] {
        same(&|bytes| bytes.truncate(length), (20, 0));
    }
    for (at, byte) in [(0, 0), (0, 2), (1, 1), (2, 3), (2, 5), (3, 1)] {
        same(&|bytes| bytes[at] = byte, (20, 0));
    }
    for length in [36, 52, 339] {
        same(&|bytes| bytes.truncate(length), (21, 3));
    }
}

#[test]
fn lengths_of_image_reports() {
    for room in [0, 1, 3, 5] {
        let same = |spoil: &dyn Fn(&mut Vec<u8>), outcome| {
            let mut bytes = image();
            spoil(&mut bytes);
            assert_eq!(read(&bytes, &case(), room), (outcome, outcome));
        };
        same(&|_| {}, (3, 0));
        // 20 to 22, 1 and 2 come first; a report without a number has no place
        let place = |place: usize| if room == 0 { 0 } else { place };
        same(&|bytes| bytes.truncate(35), (20, 0));
        same(&|bytes| put(bytes, 20, 0), (21, place(2)));
        same(&|bytes| put(bytes, 48, 7), (22, place(2)));
        same(&|bytes| put(bytes, 36, 4097), (1, 0));
        // 4 comes later
        same(&|bytes| put(bytes, 52, 3), (3, 0));
    }
}

#[test]
fn image_pairs() {
    let same = |spoil: &dyn Fn(&mut Vec<u8>), outcome| image_refused(spoil, outcome, outcome);
    // an offset that is not where the one before ended
    for pair in 0..4 {
        for number in [0, 35, 341, u32::MAX] {
            same(&|bytes| put(bytes, 4 + 8 * pair, number), (21, pair));
        }
    }
    same(&|bytes| bytes.push(0), (21, 3));
    same(&|bytes| put(bytes, 4 + 8 * 3 + 4, u32::MAX), (21, 3));
    // sections that follow one another, with other lengths than the counts say
    same(
        &|bytes| {
            put(bytes, 4 + 4, 15);
            put(bytes, 12, 51);
            put(bytes, 16, 145);
        },
        (22, 0),
    );
    same(
        &|bytes| {
            put(bytes, 16, 145);
            put(bytes, 20, 197);
            put(bytes, 24, 95);
        },
        (22, 1),
    );
    same(
        &|bytes| {
            put(bytes, 24, 97);
            put(bytes, 28, 293);
            put(bytes, 32, 47);
        },
        (22, 2),
    );
    same(
        &|bytes| {
            bytes.push(0);
            put(bytes, 32, 49);
        },
        (22, 3),
    );
    // counts that differ, huge ones among them
    for number in [0, 2, 4, u32::MAX] {
        same(&|bytes| put(bytes, 44, number), (22, 1));
        same(
            &|bytes| put(bytes, 48, if number == 2 { 1 } else { number }),
            (22, 2),
        );
        same(
            &|bytes| put(bytes, 40, if number == 2 { 1 } else { number }),
            (22, 3),
        );
    }
    for number in [0, 4097, u32::MAX] {
        same(&|bytes| put(bytes, 36, number), (1, 0));
    }
}

#[test]
fn image_rows() {
    let read_refuses = |spoil: &dyn Fn(&mut Vec<u8>), outcome| {
        image_refused(spoil, ANSWERED, outcome);
    };
    for past in [3, u32::MAX] {
        read_refuses(&|bytes| put(bytes, 52 + 48, past), (4, 1));
        read_refuses(&|bytes| put(bytes, 52 + 48 * 4 + 4, past), (4, 4));
    }
    read_refuses(&|bytes| put(bytes, 52 + 4, 2), (4, 0));
    read_refuses(&|bytes| put(bytes, 52 + 48 * 3, 1), (5, 3));
    for bad in [f64::NAN, -f64::NAN, f64::INFINITY, f64::NEG_INFINITY] {
        for row in 0..5 {
            for number in 0..5 {
                let at = 52 + 48 * row + 8 + 8 * number;
                read_refuses(&|bytes| put_double(bytes, at, bad), (7, row));
            }
        }
        for number in 0..6 {
            let at = 52 + 48 * 5 + 8 * number;
            read_refuses(&|bytes| put_double(bytes, at, bad), (7, 5 + number / 3));
        }
    }
    read_refuses(&|bytes| put_double(bytes, 52 + 32, -1.0), (7, 0));
    read_refuses(&|bytes| put_double(bytes, 52 + 40, 0.0), (7, 0));
}

#[test]
fn reader_lengths() {
    let bytes = image();
    let with = |spoil: fn(&mut Case)| {
        let mut case = case();
        spoil(&mut case);
        assert_eq!(read(&bytes, &case, 4), (ANSWERED, (3, 0)));
    };
    with(|c| c.ends.push(0));
    with(|c| c.ends.clear());
    with(|c| shorten(&mut c.rays));
    with(|c| c.weights.push(0.0));
    with(|c| c.scales.clear());
    with(|c| shorten(&mut c.points));
}

#[test]
fn roots() {
    for (number, root) in [
        (2.0, f64::from_bits(0x3ff6_a09e_667f_3bcd)),
        (f64::from_bits(1), 2f64.powi(-537)),
        (4.0, 2.0),
        (0.0, 0.0),
        (-0.0, -0.0),
        (f64::INFINITY, f64::INFINITY),
    ] {
        assert_eq!(ffi::sqrt(number).to_bits(), root.to_bits());
    }
    assert!(ffi::sqrt(-1.0).is_nan());
    assert!(ffi::sqrt(f64::NAN).is_nan());
}
