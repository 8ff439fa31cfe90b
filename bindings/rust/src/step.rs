//! Dots and scales: what a step forms from placed cameras and points.

use crate::ffi::{self, Lent, Marked};
use crate::{Error, Network, Workspace};

/// Dots or scales.
pub(crate) type Call = fn(&Lent<'_>, &mut [usize], Marked<'_>, &mut [f64], &mut [usize]) -> usize;

fn fill(
    call: Call,
    network: &Network<'_>,
    workspace: &mut Workspace,
    cameras: &[[f64; 3]],
    out: &mut [f64],
) -> Result<(), Error> {
    let marked = Marked {
        current: cameras.as_flattened(),
        trial: cameras.as_flattened(),
        mark: 0,
    };
    let counts = network.counts();
    let marks = workspace.marks(counts);
    let mut report = [0];
    match call(&network.lent(), marks, marked, out, &mut report) {
        0 => Ok(()),
        number => {
            let slices = [
                ("cameras", counts.cameras, cameras.len()),
                ("out", counts.rows(), out.len()),
            ];
            Err(Error::of_lengths(number, &report, counts, &slices))
        }
    }
}

/// The dot of each row with its baseline, bearings first: ray with (point - camera), direction with (target - source).
///
/// # Arguments
///
/// - `network`: the rows, and the points as they were placed ([`Network::set_points`]).
/// - `workspace`: buffers to work in; it grows where it must, and what it holds makes no difference.
/// - `cameras`: the n camera positions as they were placed.
///
/// # Errors
///
/// By 3 (`cameras` of another length), 6 (point lists that were set break their rule) and 7 (a camera position is not finite, or a weight,
/// scale or point that was set anew is outside the domain: a placed point can be so, since a solve does not test its points). Network and
/// cameras are only read.
pub fn dots(
    network: &Network<'_>,
    workspace: &mut Workspace,
    cameras: &[[f64; 3]],
) -> Result<Vec<f64>, Error> {
    let mut out = vec![0.0; network.weights().len()];
    dots_into(network, workspace, cameras, &mut out)?;
    Ok(out)
}

/// [`dots`] into the caller's buffer, of one number a row. Nothing is allocated where the workspace has room.
///
/// # Errors
///
/// By 3 (`cameras` or `out` of another length), 6 and 7, as of [`dots`]. A refusal leaves `out` as it was.
pub fn dots_into(
    network: &Network<'_>,
    workspace: &mut Workspace,
    cameras: &[[f64; 3]],
    out: &mut [f64],
) -> Result<(), Error> {
    fill(ffi::dots, network, workspace, cameras, out)
}

/// The scale of each row, bearings first: renewed, max(dot / squared baseline, 1e-5), or the row's old scale where its point's weight
/// (the sum of w s², with the old scales s) or the squared baseline is below 1e-12. A direction has no point: in a network without
/// bearings, one of a weight below 1e-12 keeps its scale.
///
/// # Arguments
///
/// - `network`: the rows with their old scales, and the points as they were placed ([`Network::set_points`]).
/// - `workspace`: buffers to work in, as of [`dots`].
/// - `cameras`: the n camera positions as they were placed.
///
/// # Errors
///
/// As of [`dots`]. Network and cameras are only read; [`Network::set_scales`] takes the answer.
pub fn scales(
    network: &Network<'_>,
    workspace: &mut Workspace,
    cameras: &[[f64; 3]],
) -> Result<Vec<f64>, Error> {
    let mut out = vec![0.0; network.weights().len()];
    scales_into(network, workspace, cameras, &mut out)?;
    Ok(out)
}

/// [`scales`] into the caller's buffer, of one number a row. Nothing is allocated where the workspace has room.
///
/// # Errors
///
/// As of [`dots_into`]. A refusal leaves `out` as it was.
pub fn scales_into(
    network: &Network<'_>,
    workspace: &mut Workspace,
    cameras: &[[f64; 3]],
    out: &mut [f64],
) -> Result<(), Error> {
    fill(ffi::scales, network, workspace, cameras, out)
}
