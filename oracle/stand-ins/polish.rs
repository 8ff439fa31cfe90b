//! Stand-in for the kernel's polish, whose text is not at hand; `solve_into` names it, and nothing here runs `solve_into`.

use super::api::BataOptions;
use super::plan::GlobalPositioningPlan;
use super::workspace::GlobalPositioningWorkspace;

pub(super) struct Polished {
    pub(super) accepted_steps: usize,
}

pub(super) fn polish(
    _plan: &GlobalPositioningPlan,
    _workspace: &mut GlobalPositioningWorkspace,
    _options: &BataOptions,
    _steps: usize,
    _cut: bool,
) -> Polished {
    unreachable!("the polish is no part of the linear step")
}
