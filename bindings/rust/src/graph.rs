//! What hangs together.

use crate::{Error, Network, Workspace, ffi};

/// The parts that rows of a weight above 0 join.
#[derive(Clone, Copy, Debug, PartialEq, Eq)]
pub struct Parts<'w> {
    /// Of each camera, the lowest camera that it reaches.
    pub labels: &'w [usize],
    /// How many parts there are.
    pub count: usize,
}

/// Whether rows of a weight above 0 join every camera to camera 0.
pub fn is_connected(network: &Network<'_>, workspace: &mut Workspace) -> Result<bool, Error> {
    let counts = network.counts();
    let (nodes, _) = workspace.graph(counts);
    let mut report = [0];
    let code = ffi::connected(&network.lent(), nodes, &mut report);
    Error::check(code, &report, counts)?;
    Ok(report[0] != 0)
}

/// The parts that rows of a weight above 0 join; the labels stay in the workspace.
pub fn parts<'w>(network: &Network<'_>, workspace: &'w mut Workspace) -> Result<Parts<'w>, Error> {
    let counts = network.counts();
    let (nodes, labels) = workspace.graph(counts);
    let mut report = [0];
    let code = ffi::parts(&network.lent(), nodes, labels, &mut report);
    Error::check(code, &report, counts)?;
    Ok(Parts {
        labels,
        count: report[0],
    })
}
