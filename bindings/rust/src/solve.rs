//! The solve.

use crate::ffi::{self, Solved};
use crate::{Counts, Error, Network};

/// How to solve, and, of an answer, what solved it.
#[derive(Clone, Copy, Debug, PartialEq, Eq, Hash)]
pub enum Route {
    /// Dense Cholesky.
    Dense = 1,
    /// Preconditioned conjugate gradients, matrix-free.
    Iterative = 2,
    /// Iterative, then dense if that refused and n-1 is within the dense limit. Of an answer: dense, after iterative refused.
    IterativeThenDense = 3,
}

impl Route {
    /// 1, 2 or 3.
    pub fn number(self) -> usize {
        self as usize
    }
}

/// What an accepted solve reports.
#[derive(Clone, Copy, Debug, PartialEq, Eq, Hash)]
pub struct Report {
    /// The camera that is held still, at three zeros.
    pub anchor: usize,
    /// The route that answered.
    pub route: Route,
    /// The rounds of the iterative route; 0 where dense answered.
    pub rounds: usize,
    /// How many cameras, the anchor among them, have fewer than two rows. A bearing on a point whose weight is below 1e-12 is not counted, a
    /// direction is counted at both of its ends.
    pub few: usize,
}

/// An accepted placement.
#[derive(Clone, Debug, PartialEq)]
pub struct Placement {
    /// The position of each camera.
    pub cameras: Vec<[f64; 3]>,
    /// The position of each point. Not tested for finiteness.
    pub points: Vec<[f64; 3]>,
    /// The camera that is held still, at three zeros.
    pub anchor: usize,
    /// The route that answered.
    pub route: Route,
    /// The rounds of the iterative route; 0 where dense answered.
    pub rounds: usize,
    /// How many cameras have fewer than two rows, as of [`Report::few`].
    pub few: usize,
}

/// Buffers that solves, dots, scales and graph calls work in. They grow as needed and are kept, so that calls after the first on networks
/// of one size allocate nothing. What they hold makes no difference to a call.
#[derive(Clone, Debug, Default)]
pub struct Workspace {
    work: Vec<f64>,
    marks: Vec<usize>,
    nodes: Vec<usize>,
    labels: Vec<usize>,
}

fn grown<T: Copy>(buffer: &mut Vec<T>, length: usize, with: T) -> &mut [T] {
    if buffer.len() < length {
        buffer.resize(length, with);
    }
    buffer
}

/// The first of them, just so many.
fn exactly<T: Copy>(buffer: &mut Vec<T>, length: usize, with: T) -> &mut [T] {
    &mut grown(buffer, length, with)[..length]
}

impl Workspace {
    /// An empty workspace.
    pub fn new() -> Self {
        Self::default()
    }

    /// A workspace that has room for this network's solves by this route, its dots and scales and its graph calls.
    pub fn for_network(
        network: &Network<'_>,
        route: Route,
        dense_limit: usize,
    ) -> Result<Self, Error> {
        let mut workspace = Self::new();
        let counts = network.counts();
        let length = work_length(counts, route, dense_limit)?;
        workspace.work(counts, length);
        workspace.graph(counts);
        Ok(workspace)
    }

    /// Marks of just B bearings, by which the point lists are tested.
    pub(crate) fn marks(&mut self, counts: Counts) -> &mut [usize] {
        exactly(&mut self.marks, counts.bearings, 0)
    }

    /// Marks, and at least so many doubles.
    fn work(&mut self, counts: Counts, length: usize) -> (&mut [usize], &mut [f64]) {
        let marks = exactly(&mut self.marks, counts.bearings, 0);
        (marks, grown(&mut self.work, length, 0.0))
    }

    /// Node numbers, and labels of just n cameras.
    pub(crate) fn graph(&mut self, counts: Counts) -> (&mut [usize], &mut [usize]) {
        let nodes = grown(&mut self.nodes, counts.cameras + counts.points, 0);
        (nodes, exactly(&mut self.labels, counts.cameras, 0))
    }
}

/// The doubles that the work buffer of a solve needs; a [`Workspace`] grows to it by itself. Refused by 1 and 2.
pub fn work_length(counts: Counts, route: Route, dense_limit: usize) -> Result<usize, Error> {
    let mut report = [0];
    let code = ffi::work_length(counts, route.number(), dense_limit, &mut report);
    Error::check(code, &report, counts)?;
    Ok(report[0])
}

/// Places every camera and point: with the network's weights w and scales s, the positions that minimise
/// Σ w |s (second end - first end) - ray|² over the rows, plus 1e-6 Σ |camera|², with the anchor held at 0 (where no camera has two
/// bearings to one point).
///
/// # Arguments
///
/// - `network`: the rows, and the old points, which a point keeps where its weight (its sum of w s²) is below 1e-12.
/// - `workspace`: buffers to work in; it grows where it must, and what it holds makes no difference.
/// - `route`: dense, iterative, or iterative and then dense.
/// - `dense_limit`: the most dense rows (n-1) that a route may go dense with, 0 to [`MAX_DENSE_LIMIT`](crate::MAX_DENSE_LIMIT).
///
/// # Errors
///
/// By 6 (point lists that were set break their rule), 7 (a weight, scale or point that was set anew is outside the domain), 8
/// (`dense_limit` over its limit), 9 to 13 (the iterative part gave up, on a camera that [`Error::camera`] may name), 14
/// ([`Route::Dense`], and n-1 is over the limit), 15 to 17 (the dense part gave up). The network is only read.
pub fn solve(
    network: &Network<'_>,
    workspace: &mut Workspace,
    route: Route,
    dense_limit: usize,
) -> Result<Placement, Error> {
    let counts = network.counts();
    let mut cameras = vec![[0.0; 3]; counts.cameras];
    let mut points = vec![[0.0; 3]; counts.points];
    let report = solve_into(
        network,
        workspace,
        route,
        dense_limit,
        &mut cameras,
        &mut points,
    )?;
    Ok(Placement {
        cameras,
        points,
        anchor: report.anchor,
        route: report.route,
        rounds: report.rounds,
        few: report.few,
    })
}

/// [`solve`] into the caller's buffers: `cameras` has n positions, `points` m. Nothing is allocated where the workspace has room.
///
/// # Errors
///
/// By 3 (`cameras` or `points` of another length), and as of [`solve`]. A refusal leaves `cameras` and `points` as they were.
pub fn solve_into(
    network: &Network<'_>,
    workspace: &mut Workspace,
    route: Route,
    dense_limit: usize,
    cameras: &mut [[f64; 3]],
    points: &mut [[f64; 3]],
) -> Result<Report, Error> {
    let counts = network.counts();
    let length = work_length(counts, route, dense_limit)?;
    let mut report = [0; 4];
    let (marks, work) = workspace.work(counts, length);
    let solved = Solved {
        marks,
        work,
        cameras: cameras.as_flattened_mut(),
        placed: points.as_flattened_mut(),
        report: &mut report,
    };
    let code = ffi::solve(&network.lent(), route.number(), dense_limit, solved);
    if code != 0 {
        let slices = [
            ("cameras", counts.cameras, cameras.len()),
            ("points", counts.points, points.len()),
        ];
        return Err(Error::of_lengths(code, &report, counts, &slices));
    }
    let [anchor, answered, rounds, few] = report;
    let route = match answered {
        1 => Route::Dense,
        2 => Route::Iterative,
        _ => Route::IterativeThenDense,
    };
    Ok(Report {
        anchor,
        route,
        rounds,
        few,
    })
}
