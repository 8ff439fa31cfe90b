//! The C functions (include/vobzeile.h), and each behind a safe function over slices.
//!
//! Every function takes whatever it is lent: it tests its own input, stays within the slices and ends. A slice gives what the C side asks
//! of a buffer: a pointer that is never null, aligned, good for its length, and alone where it is `&mut`.

use crate::Counts;

unsafe extern "C" {
    fn vobzeile_sqrt(x: f64) -> f64;
    fn vobzeile_list_points(
        m: usize,
        b: usize,
        ends: *const usize,
        ends_len: usize,
        offsets: *mut usize,
        offsets_len: usize,
        rows: *mut usize,
        rows_len: usize,
        report: *mut usize,
        report_len: usize,
    ) -> usize;
    fn vobzeile_connected(
        n: usize,
        m: usize,
        b: usize,
        e: usize,
        ends: *const usize,
        ends_len: usize,
        weights: *const f64,
        weights_len: usize,
        nodes: *mut usize,
        nodes_len: usize,
        report: *mut usize,
        report_len: usize,
    ) -> usize;
    fn vobzeile_parts(
        n: usize,
        m: usize,
        b: usize,
        e: usize,
        ends: *const usize,
        ends_len: usize,
        weights: *const f64,
        weights_len: usize,
        nodes: *mut usize,
        nodes_len: usize,
        labels: *mut usize,
        labels_len: usize,
        report: *mut usize,
        report_len: usize,
    ) -> usize;
    fn vobzeile_work_length(
        n: usize,
        m: usize,
        b: usize,
        e: usize,
        route: usize,
        limit: usize,
        report: *mut usize,
        report_len: usize,
    ) -> usize;
    fn vobzeile_dots(
        n: usize,
        m: usize,
        b: usize,
        e: usize,
        ends: *const usize,
        ends_len: usize,
        rays: *const f64,
        rays_len: usize,
        weights: *const f64,
        weights_len: usize,
        scales: *const f64,
        scales_len: usize,
        points: *const f64,
        points_len: usize,
        offsets: *const usize,
        offsets_len: usize,
        rows: *const usize,
        rows_len: usize,
        marks: *mut usize,
        marks_len: usize,
        current: *const f64,
        current_len: usize,
        trial: *const f64,
        trial_len: usize,
        mark: usize,
        out: *mut f64,
        out_len: usize,
        report: *mut usize,
        report_len: usize,
    ) -> usize;
    fn vobzeile_scales(
        n: usize,
        m: usize,
        b: usize,
        e: usize,
        ends: *const usize,
        ends_len: usize,
        rays: *const f64,
        rays_len: usize,
        weights: *const f64,
        weights_len: usize,
        scales: *const f64,
        scales_len: usize,
        points: *const f64,
        points_len: usize,
        offsets: *const usize,
        offsets_len: usize,
        rows: *const usize,
        rows_len: usize,
        marks: *mut usize,
        marks_len: usize,
        current: *const f64,
        current_len: usize,
        trial: *const f64,
        trial_len: usize,
        mark: usize,
        out: *mut f64,
        out_len: usize,
        report: *mut usize,
        report_len: usize,
    ) -> usize;
    fn vobzeile_solve(
        n: usize,
        m: usize,
        b: usize,
        e: usize,
        ends: *const usize,
        ends_len: usize,
        rays: *const f64,
        rays_len: usize,
        weights: *const f64,
        weights_len: usize,
        scales: *const f64,
        scales_len: usize,
        points: *const f64,
        points_len: usize,
        offsets: *const usize,
        offsets_len: usize,
        rows: *const usize,
        rows_len: usize,
        marks: *mut usize,
        marks_len: usize,
        route: usize,
        limit: usize,
        work: *mut f64,
        work_len: usize,
        cameras: *mut f64,
        cameras_len: usize,
        placed: *mut f64,
        placed_len: usize,
        report: *mut usize,
        report_len: usize,
    ) -> usize;
    fn vobzeile_counts(
        bytes: *const u8,
        bytes_len: usize,
        report: *mut usize,
        report_len: usize,
    ) -> usize;
    fn vobzeile_read(
        bytes: *const u8,
        bytes_len: usize,
        ends: *mut usize,
        ends_len: usize,
        rays: *mut f64,
        rays_len: usize,
        weights: *mut f64,
        weights_len: usize,
        scales: *mut f64,
        scales_len: usize,
        points: *mut f64,
        points_len: usize,
        report: *mut usize,
        report_len: usize,
    ) -> usize;
    fn vobzeile_write(
        n: usize,
        m: usize,
        b: usize,
        e: usize,
        ends: *const usize,
        ends_len: usize,
        rays: *const f64,
        rays_len: usize,
        weights: *const f64,
        weights_len: usize,
        scales: *const f64,
        scales_len: usize,
        points: *const f64,
        points_len: usize,
        out: *mut u8,
        out_len: usize,
        report: *mut usize,
        report_len: usize,
    ) -> usize;
}

/// A network as a call is lent it.
#[derive(Clone, Copy)]
pub(crate) struct Lent<'a> {
    pub(crate) counts: Counts,
    pub(crate) ends: &'a [usize],
    pub(crate) rays: &'a [f64],
    pub(crate) weights: &'a [f64],
    pub(crate) scales: &'a [f64],
    pub(crate) points: &'a [f64],
    pub(crate) offsets: &'a [usize],
    pub(crate) rows: &'a [usize],
}

/// Two buffers of camera positions, and the mark that says which of them is meant (it has nothing to do with the marks of 6).
#[derive(Clone, Copy)]
pub(crate) struct Marked<'a> {
    pub(crate) current: &'a [f64],
    pub(crate) trial: &'a [f64],
    pub(crate) mark: usize,
}

/// What a solve fills.
pub(crate) struct Solved<'a> {
    pub(crate) marks: &'a mut [usize],
    pub(crate) work: &'a mut [f64],
    pub(crate) cameras: &'a mut [f64],
    pub(crate) placed: &'a mut [f64],
    pub(crate) report: &'a mut [usize],
}

/// What a reader fills.
pub(crate) struct Read<'a> {
    pub(crate) ends: &'a mut [usize],
    pub(crate) rays: &'a mut [f64],
    pub(crate) weights: &'a mut [f64],
    pub(crate) scales: &'a mut [f64],
    pub(crate) points: &'a mut [f64],
    pub(crate) report: &'a mut [usize],
}

pub(crate) fn sqrt(x: f64) -> f64 {
    // SAFETY: numbers only.
    unsafe { vobzeile_sqrt(x) }
}

pub(crate) fn list_points(
    m: usize,
    b: usize,
    ends: &[usize],
    offsets: &mut [usize],
    rows: &mut [usize],
    report: &mut [usize],
) -> usize {
    // SAFETY: each pointer comes with its slice's length; the function stays within them.
    unsafe {
        vobzeile_list_points(
            m,
            b,
            ends.as_ptr(),
            ends.len(),
            offsets.as_mut_ptr(),
            offsets.len(),
            rows.as_mut_ptr(),
            rows.len(),
            report.as_mut_ptr(),
            report.len(),
        )
    }
}

pub(crate) fn connected(lent: &Lent, nodes: &mut [usize], report: &mut [usize]) -> usize {
    // SAFETY: each pointer comes with its slice's length; the function stays within them.
    unsafe {
        vobzeile_connected(
            lent.counts.cameras,
            lent.counts.points,
            lent.counts.bearings,
            lent.counts.directions,
            lent.ends.as_ptr(),
            lent.ends.len(),
            lent.weights.as_ptr(),
            lent.weights.len(),
            nodes.as_mut_ptr(),
            nodes.len(),
            report.as_mut_ptr(),
            report.len(),
        )
    }
}

pub(crate) fn parts(
    lent: &Lent,
    nodes: &mut [usize],
    labels: &mut [usize],
    report: &mut [usize],
) -> usize {
    // SAFETY: each pointer comes with its slice's length; the function stays within them.
    unsafe {
        vobzeile_parts(
            lent.counts.cameras,
            lent.counts.points,
            lent.counts.bearings,
            lent.counts.directions,
            lent.ends.as_ptr(),
            lent.ends.len(),
            lent.weights.as_ptr(),
            lent.weights.len(),
            nodes.as_mut_ptr(),
            nodes.len(),
            labels.as_mut_ptr(),
            labels.len(),
            report.as_mut_ptr(),
            report.len(),
        )
    }
}

pub(crate) fn work_length(
    counts: Counts,
    route: usize,
    limit: usize,
    report: &mut [usize],
) -> usize {
    // SAFETY: the pointer comes with its slice's length; the function stays within it.
    unsafe {
        vobzeile_work_length(
            counts.cameras,
            counts.points,
            counts.bearings,
            counts.directions,
            route,
            limit,
            report.as_mut_ptr(),
            report.len(),
        )
    }
}

pub(crate) fn dots(
    lent: &Lent,
    marks: &mut [usize],
    cameras: Marked,
    out: &mut [f64],
    report: &mut [usize],
) -> usize {
    // SAFETY: each pointer comes with its slice's length; the function stays within them.
    unsafe {
        vobzeile_dots(
            lent.counts.cameras,
            lent.counts.points,
            lent.counts.bearings,
            lent.counts.directions,
            lent.ends.as_ptr(),
            lent.ends.len(),
            lent.rays.as_ptr(),
            lent.rays.len(),
            lent.weights.as_ptr(),
            lent.weights.len(),
            lent.scales.as_ptr(),
            lent.scales.len(),
            lent.points.as_ptr(),
            lent.points.len(),
            lent.offsets.as_ptr(),
            lent.offsets.len(),
            lent.rows.as_ptr(),
            lent.rows.len(),
            marks.as_mut_ptr(),
            marks.len(),
            cameras.current.as_ptr(),
            cameras.current.len(),
            cameras.trial.as_ptr(),
            cameras.trial.len(),
            cameras.mark,
            out.as_mut_ptr(),
            out.len(),
            report.as_mut_ptr(),
            report.len(),
        )
    }
}

pub(crate) fn scales(
    lent: &Lent,
    marks: &mut [usize],
    cameras: Marked,
    out: &mut [f64],
    report: &mut [usize],
) -> usize {
    // SAFETY: each pointer comes with its slice's length; the function stays within them.
    unsafe {
        vobzeile_scales(
            lent.counts.cameras,
            lent.counts.points,
            lent.counts.bearings,
            lent.counts.directions,
            lent.ends.as_ptr(),
            lent.ends.len(),
            lent.rays.as_ptr(),
            lent.rays.len(),
            lent.weights.as_ptr(),
            lent.weights.len(),
            lent.scales.as_ptr(),
            lent.scales.len(),
            lent.points.as_ptr(),
            lent.points.len(),
            lent.offsets.as_ptr(),
            lent.offsets.len(),
            lent.rows.as_ptr(),
            lent.rows.len(),
            marks.as_mut_ptr(),
            marks.len(),
            cameras.current.as_ptr(),
            cameras.current.len(),
            cameras.trial.as_ptr(),
            cameras.trial.len(),
            cameras.mark,
            out.as_mut_ptr(),
            out.len(),
            report.as_mut_ptr(),
            report.len(),
        )
    }
}

pub(crate) fn solve(lent: &Lent, route: usize, limit: usize, solved: Solved) -> usize {
    // SAFETY: each pointer comes with its slice's length; the function stays within them.
    unsafe {
        vobzeile_solve(
            lent.counts.cameras,
            lent.counts.points,
            lent.counts.bearings,
            lent.counts.directions,
            lent.ends.as_ptr(),
            lent.ends.len(),
            lent.rays.as_ptr(),
            lent.rays.len(),
            lent.weights.as_ptr(),
            lent.weights.len(),
            lent.scales.as_ptr(),
            lent.scales.len(),
            lent.points.as_ptr(),
            lent.points.len(),
            lent.offsets.as_ptr(),
            lent.offsets.len(),
            lent.rows.as_ptr(),
            lent.rows.len(),
            solved.marks.as_mut_ptr(),
            solved.marks.len(),
            route,
            limit,
            solved.work.as_mut_ptr(),
            solved.work.len(),
            solved.cameras.as_mut_ptr(),
            solved.cameras.len(),
            solved.placed.as_mut_ptr(),
            solved.placed.len(),
            solved.report.as_mut_ptr(),
            solved.report.len(),
        )
    }
}

pub(crate) fn counts(bytes: &[u8], report: &mut [usize]) -> usize {
    // SAFETY: each pointer comes with its slice's length; the function stays within them.
    unsafe {
        vobzeile_counts(
            bytes.as_ptr(),
            bytes.len(),
            report.as_mut_ptr(),
            report.len(),
        )
    }
}

pub(crate) fn read(bytes: &[u8], read: Read) -> usize {
    // SAFETY: each pointer comes with its slice's length; the function stays within them.
    unsafe {
        vobzeile_read(
            bytes.as_ptr(),
            bytes.len(),
            read.ends.as_mut_ptr(),
            read.ends.len(),
            read.rays.as_mut_ptr(),
            read.rays.len(),
            read.weights.as_mut_ptr(),
            read.weights.len(),
            read.scales.as_mut_ptr(),
            read.scales.len(),
            read.points.as_mut_ptr(),
            read.points.len(),
            read.report.as_mut_ptr(),
            read.report.len(),
        )
    }
}

/// The point lists of `lent` are not looked at.
pub(crate) fn write(lent: &Lent, out: &mut [u8], report: &mut [usize]) -> usize {
    // SAFETY: each pointer comes with its slice's length; the function stays within them.
    unsafe {
        vobzeile_write(
            lent.counts.cameras,
            lent.counts.points,
            lent.counts.bearings,
            lent.counts.directions,
            lent.ends.as_ptr(),
            lent.ends.len(),
            lent.rays.as_ptr(),
            lent.rays.len(),
            lent.weights.as_ptr(),
            lent.weights.len(),
            lent.scales.as_ptr(),
            lent.scales.len(),
            lent.points.as_ptr(),
            lent.points.len(),
            out.as_mut_ptr(),
            out.len(),
            report.as_mut_ptr(),
            report.len(),
        )
    }
}
