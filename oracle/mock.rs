//! A stand-in for the port's C functions, by which the comparison is tested: the refusals and marks of rules.rs, then the kernel `subject`
//! (the oracle itself, or a changed copy of it).

use rules::Refusal;
use std::slice::{from_raw_parts, from_raw_parts_mut};

/// Returns the number and stores the place, if the report has a first number; 3 leaves a report that has not `length` numbers.
fn refuse(report: &mut [usize], length: usize, (number, place): Refusal) -> usize {
    if number == 3 && report.len() != length {
        return number;
    }
    if let Some(first) = report.first_mut() {
        *first = place;
    }
    number
}

/// The marks, once 6 has been tested.
fn clear(marks: &mut [usize], refusal: Option<Refusal>) {
    if rules::lists_tested(refusal) {
        marks.fill(0);
    }
}

macro_rules! shared {
    ($($name:ident $len:ident),*) => { $(let $name = unsafe { from_raw_parts($name, $len) };)* };
}

macro_rules! lent {
    ($($name:ident $len:ident),*) => { $(let $name = unsafe { from_raw_parts_mut($name, $len) };)* };
}

macro_rules! network {
    ($n:ident, $m:ident, $b:ident, $e:ident, $ends:expr, $rays:expr, $weights:expr, $scales:expr, $points:expr, $offsets:expr, $rows:expr) => {
        (
            oracle::Network { n: $n, m: $m, b: $b, e: $e, ends: $ends, rays: $rays, weights: $weights, scales: $scales, points: $points, offsets: $offsets, rows: $rows },
            subject::Network { n: $n, m: $m, b: $b, e: $e, ends: $ends, rays: $rays, weights: $weights, scales: $scales, points: $points, offsets: $offsets, rows: $rows },
        )
    };
}

#[unsafe(no_mangle)]
pub unsafe extern "C" fn vobzeile_solve(
    n: usize, m: usize, b: usize, e: usize,
    ends: *const usize, ends_len: usize, rays: *const f64, rays_len: usize, weights: *const f64, weights_len: usize,
    scales: *const f64, scales_len: usize, points: *const f64, points_len: usize, offsets: *const usize, offsets_len: usize,
    rows: *const usize, rows_len: usize, marks: *mut usize, marks_len: usize,
    route: usize, limit: usize,
    work: *mut f64, work_len: usize, cameras: *mut f64, cameras_len: usize, placed: *mut f64, placed_len: usize,
    report: *mut usize, report_len: usize,
) -> usize {
    shared!(ends ends_len, rays rays_len, weights weights_len, scales scales_len, points points_len, offsets offsets_len, rows rows_len);
    lent!(marks marks_len, work work_len, cameras cameras_len, placed placed_len, report report_len);
    let (net, subject) = network!(n, m, b, e, ends, rays, weights, scales, points, offsets, rows);
    let needed = || rules::work_length(n, m, b, e, route, limit);
    let fit = || marks.len() == b && work.len() >= needed() && cameras.len() == 3 * n && placed.len() == 3 * m && report_len == 4;
    let refusal = rules::solve(&net, route, limit, fit);
    clear(marks, refusal);
    if let Some(refusal) = refusal {
        return refuse(report, 4, refusal);
    }
    work[..needed()].fill(0.0);
    match subject::solve(&subject, route, limit) {
        Ok(answer) => {
            cameras.copy_from_slice(&answer.cameras);
            placed.copy_from_slice(&answer.points);
            report.copy_from_slice(&[answer.anchor, answer.route, answer.rounds, answer.few]);
            0
        }
        Err(tag) => {
            let places = tag.places();
            report[..places.len()].copy_from_slice(&places);
            tag.number
        }
    }
}

macro_rules! step {
    ($name:ident, $of:path) => {
        #[unsafe(no_mangle)]
        pub unsafe extern "C" fn $name(
            n: usize, m: usize, b: usize, e: usize,
            ends: *const usize, ends_len: usize, rays: *const f64, rays_len: usize, weights: *const f64, weights_len: usize,
            scales: *const f64, scales_len: usize, points: *const f64, points_len: usize, offsets: *const usize, offsets_len: usize,
            rows: *const usize, rows_len: usize, marks: *mut usize, marks_len: usize,
            current: *const f64, current_len: usize, trial: *const f64, trial_len: usize, mark: usize,
            out: *mut f64, out_len: usize, report: *mut usize, report_len: usize,
        ) -> usize {
            shared!(ends ends_len, rays rays_len, weights weights_len, scales scales_len, points points_len, offsets offsets_len, rows rows_len);
            shared!(current current_len, trial trial_len);
            lent!(marks marks_len, out out_len, report report_len);
            let (net, subject) = network!(n, m, b, e, ends, rays, weights, scales, points, offsets, rows);
            let marked = if mark == 1 { trial } else { current };
            let fit = || marks.len() == b && current.len() == 3 * n && trial.len() == 3 * n && out.len() == b + e && report_len == 1;
            let refusal = rules::step(&net, marked, fit);
            clear(marks, refusal);
            if let Some(refusal) = refusal {
                return refuse(report, 1, refusal);
            }
            out.copy_from_slice(&$of(&subject, marked));
            report[0] = 0;
            0
        }
    };
}

step!(vobzeile_dots, subject::dots);
step!(vobzeile_scales, subject::scales);

#[unsafe(no_mangle)]
pub unsafe extern "C" fn vobzeile_connected(
    n: usize, m: usize, b: usize, e: usize,
    ends: *const usize, ends_len: usize, weights: *const f64, weights_len: usize,
    nodes: *mut usize, nodes_len: usize, report: *mut usize, report_len: usize,
) -> usize {
    shared!(ends ends_len, weights weights_len);
    lent!(nodes nodes_len, report report_len);
    let (net, subject) = network!(n, m, b, e, ends, &[], weights, &[], &[], &[], &[]);
    if let Some(refusal) = rules::graph(&net, || nodes.len() >= n + m && report_len == 1) {
        return refuse(report, 1, refusal);
    }
    nodes[..n + m].fill(0);
    report[0] = subject::connected(&subject) as usize;
    0
}

#[unsafe(no_mangle)]
pub unsafe extern "C" fn vobzeile_parts(
    n: usize, m: usize, b: usize, e: usize,
    ends: *const usize, ends_len: usize, weights: *const f64, weights_len: usize,
    nodes: *mut usize, nodes_len: usize, labels: *mut usize, labels_len: usize, report: *mut usize, report_len: usize,
) -> usize {
    shared!(ends ends_len, weights weights_len);
    lent!(nodes nodes_len, labels labels_len, report report_len);
    let (net, subject) = network!(n, m, b, e, ends, &[], weights, &[], &[], &[], &[]);
    if let Some(refusal) = rules::graph(&net, || nodes.len() >= n + m && labels.len() == n && report_len == 1) {
        return refuse(report, 1, refusal);
    }
    nodes[..n + m].fill(0);
    let (label, parts) = subject::labels(&subject);
    labels.copy_from_slice(&label);
    report[0] = parts;
    0
}

#[unsafe(no_mangle)]
pub unsafe extern "C" fn vobzeile_work_length(
    n: usize, m: usize, b: usize, e: usize, route: usize, limit: usize, report: *mut usize, report_len: usize,
) -> usize {
    lent!(report report_len);
    if let Some(refusal) = rules::length(n, m, b, e, report_len == 1) {
        return refuse(report, 1, refusal);
    }
    report[0] = rules::work_length(n, m, b, e, route, limit);
    0
}
