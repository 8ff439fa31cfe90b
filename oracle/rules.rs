//! Refusals 1 to 8 and the work length, written from documents 01 and 02: what the Rust kernel has no part in.
//!
//! A refusal is its number and place. Lengths are tested by equality, except the work buffer and the node numbers, which may
//! be longer than needed. A report's length and that of the marks are among them: `fit` has them too.

use oracle::Network;

pub type Refusal = (usize, usize);

/// n, m, B, E.
pub fn counts(n: usize, m: usize, b: usize, e: usize) -> Option<Refusal> {
    if n == 0 || n > 4096 {
        return Some((1, 0));
    }
    if m > 65536 || b > 262144 || e > 65536 {
        return Some((2, 0));
    }
    None
}

fn ends(net: &Network) -> Option<Refusal> {
    let rows = net.b + net.e;
    let second = |row: usize| if row < net.b { net.m } else { net.n };
    let stray = |row: &usize| net.ends[2 * row] >= net.n || net.ends[2 * row + 1] >= second(*row);
    if let Some(row) = (0..rows).find(stray) {
        return Some((4, row));
    }
    if let Some(row) = (net.b..rows).find(|row| net.ends[2 * row] == net.ends[2 * row + 1]) {
        return Some((5, row));
    }
    None
}

/// Every bearing once, under its own point, in any order.
fn lists_hold(net: &Network) -> bool {
    let offsets = net.offsets;
    if offsets[0] != 0 || offsets[net.m] != net.b || offsets.windows(2).any(|w| w[1] < w[0]) {
        return false;
    }
    let mut times = vec![0; net.b];
    for point in 0..net.m {
        for &row in &net.rows[offsets[point]..offsets[point + 1]] {
            if row >= net.b || net.ends[2 * row + 1] != point {
                return false;
            }
            times[row] += 1;
        }
    }
    times.iter().all(|times| *times == 1)
}

/// Whether 6 has been tested, given the refusal by 1 to 8 of a solve, of dots or of scales. If so, the marks end all zero, else they are untouched.
pub fn lists_tested(refusal: Option<Refusal>) -> bool {
    refusal.is_none_or(|(number, _)| number >= 6)
}

fn bad_weight(weight: f64) -> bool {
    !weight.is_finite() || weight < 0.0
}

fn bad_vector(numbers: &[f64], index: usize) -> bool {
    !numbers[3 * index..3 * index + 3].iter().all(|x| x.is_finite())
}

/// The running number goes over bearings, directions, points, cameras.
fn domain(net: &Network, cameras: &[f64]) -> Option<Refusal> {
    let rows = net.b + net.e;
    let bad_row = |row: &usize| {
        let scale = net.scales[*row];
        bad_weight(net.weights[*row]) || !scale.is_finite() || scale <= 0.0 || bad_vector(net.rays, *row)
    };
    let row = (0..rows).find(bad_row);
    let point = || (0..net.m).find(|p| bad_vector(net.points, *p)).map(|p| rows + p);
    let camera = || (0..cameras.len() / 3).find(|c| bad_vector(cameras, *c)).map(|c| rows + net.m + c);
    row.or_else(point).or_else(camera).map(|place| (7, place))
}

fn fits(net: &Network) -> bool {
    let rows = net.b + net.e;
    net.ends.len() == 2 * rows
        && net.rays.len() == 3 * rows
        && net.weights.len() == rows
        && net.scales.len() == rows
        && net.points.len() == 3 * net.m
        && net.offsets.len() == net.m + 1
        && net.rows.len() == net.b
}

/// The call for the work length: 1 and 2, and 3 for its report.
pub fn length(n: usize, m: usize, b: usize, e: usize, fit: bool) -> Option<Refusal> {
    counts(n, m, b, e).or_else(|| (!fit).then_some((3, 0)))
}

/// Graph calls: 1 to 5 and the weight part of 7. `fit`: the call's other lengths fit.
pub fn graph(net: &Network, fit: impl FnOnce() -> bool) -> Option<Refusal> {
    if let Some(refusal) = counts(net.n, net.m, net.b, net.e) {
        return Some(refusal);
    }
    let rows = net.b + net.e;
    if net.ends.len() != 2 * rows || net.weights.len() != rows || !fit() {
        return Some((3, 0));
    }
    ends(net).or_else(|| (0..rows).find(|row| bad_weight(net.weights[*row])).map(|row| (7, row)))
}

/// Dots and scales: 1 to 7, with the positions of the cameras that they are formed from.
pub fn step(net: &Network, cameras: &[f64], fit: impl FnOnce() -> bool) -> Option<Refusal> {
    if let Some(refusal) = counts(net.n, net.m, net.b, net.e) {
        return Some(refusal);
    }
    if !fits(net) || !fit() {
        return Some((3, 0));
    }
    ends(net).or_else(|| (!lists_hold(net)).then_some((6, 0))).or_else(|| domain(net, cameras))
}

fn bad_route(route: usize, limit: usize) -> bool {
    !(1..=3).contains(&route) || limit > 256
}

/// Solve: 1 to 8.
pub fn solve(net: &Network, route: usize, limit: usize, fit: impl FnOnce() -> bool) -> Option<Refusal> {
    step(net, &[], fit).or_else(|| bad_route(route, limit).then_some((8, 0)))
}

/// T = 24n + 4m + B + E + d² + 3d.
pub fn work_length(n: usize, m: usize, b: usize, e: usize, route: usize, limit: usize) -> usize {
    let d = if bad_route(route, limit) || route == 2 || n - 1 > limit { 0 } else { n - 1 };
    24 * n + 4 * m + b + e + d * d + 3 * d
}
