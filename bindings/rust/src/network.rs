//! The network: its rows, points and point lists.

use crate::Error;
use crate::ffi::{self, Lent};
use std::borrow::Cow;

/// How many cameras, points, bearings and directions a network has.
#[derive(Clone, Copy, Debug, Default, PartialEq, Eq, Hash)]
pub struct Counts {
    /// n: 1 to [`MAX_CAMERAS`](crate::MAX_CAMERAS).
    pub cameras: usize,
    /// m: 0 to [`MAX_POINTS`](crate::MAX_POINTS).
    pub points: usize,
    /// B: 0 to [`MAX_BEARINGS`](crate::MAX_BEARINGS).
    pub bearings: usize,
    /// E: 0 to [`MAX_DIRECTIONS`](crate::MAX_DIRECTIONS).
    pub directions: usize,
}

impl Counts {
    /// B + E: bearings and directions.
    pub fn rows(&self) -> usize {
        self.bearings.saturating_add(self.directions)
    }
}

/// A sight line from a camera to a point.
#[derive(Clone, Copy, Debug, PartialEq)]
pub struct Bearing {
    /// Camera number.
    pub camera: usize,
    /// Point number.
    pub point: usize,
    /// Ray from the camera toward the point, usually of unit length: it is not normalised here.
    pub ray: [f64; 3],
    /// Finite, not below 0.
    pub weight: f64,
    /// Finite, above 0; for a unit ray, one over the distance that the row is taken to span.
    pub scale: f64,
}

/// A camera-to-camera direction.
#[derive(Clone, Copy, Debug, PartialEq)]
pub struct Direction {
    /// Source camera.
    pub source: usize,
    /// Target camera, another one.
    pub target: usize,
    /// Direction from source to target, usually of unit length: it is not normalised here.
    pub direction: [f64; 3],
    /// Finite, not below 0.
    pub weight: f64,
    /// Finite, above 0; for a unit ray, one over the distance that the row is taken to span.
    pub scale: f64,
}

/// Rows and points with their point lists, owned or borrowed.
///
/// Rows are numbered bearings first, then directions; duplicate rows are added up. Rays are used as they are given: they are not
/// normalised, and zero ones are not refused. The point lists are ascending unless others are set. A network was tested when it was made
/// (refusals 1 to 5 and 7). Weights, scales, points and point lists may be set anew afterwards: each call tests what it is lent. Threads
/// may share a network that none of them changes.
#[derive(Clone, Debug, PartialEq)]
pub struct Network<'a> {
    cameras: usize,
    bearings: usize,
    ends: Cow<'a, [[usize; 2]]>,
    rays: Cow<'a, [[f64; 3]]>,
    weights: Cow<'a, [f64]>,
    scales: Cow<'a, [f64]>,
    points: Cow<'a, [[f64; 3]]>,
    offsets: Vec<usize>,
    rows: Vec<usize>,
}

impl<'a> Network<'a> {
    /// A network of rows that are laid out already, lent or handed over: the first `bearings` of them are bearings, whose ends are camera
    /// and point, the others directions, whose ends are source and target. The rows are those of `ends`; `rays`, `weights` and `scales`
    /// have one element each for a row.
    ///
    /// # Errors
    ///
    /// By 1 (`cameras`), 2 (too many rows or points), 3 (a slice of another length than `ends`, or more bearings than rows), 4 (an end
    /// out of range), 5 (a direction from a camera to itself), 7 (a number outside the domain).
    pub fn new(
        cameras: usize,
        bearings: usize,
        ends: impl Into<Cow<'a, [[usize; 2]]>>,
        rays: impl Into<Cow<'a, [[f64; 3]]>>,
        weights: impl Into<Cow<'a, [f64]>>,
        scales: impl Into<Cow<'a, [f64]>>,
        points: impl Into<Cow<'a, [[f64; 3]]>>,
    ) -> Result<Self, Error> {
        let network = Self {
            cameras,
            bearings,
            ends: ends.into(),
            rays: rays.into(),
            weights: weights.into(),
            scales: scales.into(),
            points: points.into(),
            offsets: Vec::new(),
            rows: Vec::new(),
        };
        network.check()?;
        network.listed()
    }

    /// 1 to 5 and 7, by the writer of images, which looks at all but the point lists. The length of the image.
    pub(crate) fn check(&self) -> Result<usize, Error> {
        let mut report = [0];
        match ffi::write(&self.lent(), &mut [], &mut report) {
            23 => Ok(report[0]),
            number => {
                let counts = self.counts();
                let rows = self.ends.len();
                let slices = [
                    ("ends", counts.rows(), rows),
                    ("rays", rows, self.rays.len()),
                    ("weights", rows, self.weights.len()),
                    ("scales", rows, self.scales.len()),
                ];
                Err(Error::of_lengths(number, &report, counts, &slices))
            }
        }
    }

    /// With its point lists, ascending under each point.
    fn listed(mut self) -> Result<Self, Error> {
        let counts = self.counts();
        self.offsets = vec![0; counts.points + 1];
        self.rows = vec![0; counts.bearings];
        let mut report = [0];
        let code = ffi::list_points(
            counts.points,
            counts.bearings,
            self.ends.as_flattened(),
            &mut self.offsets,
            &mut self.rows,
            &mut report,
        );
        Error::check(code, &report, counts)?;
        Ok(self)
    }

    pub(crate) fn lent(&self) -> Lent<'_> {
        Lent {
            counts: self.counts(),
            ends: self.ends.as_flattened(),
            rays: self.rays.as_flattened(),
            weights: &self.weights,
            scales: &self.scales,
            points: self.points.as_flattened(),
            offsets: &self.offsets,
            rows: &self.rows,
        }
    }

    /// The counts.
    pub fn counts(&self) -> Counts {
        Counts {
            cameras: self.cameras,
            points: self.points.len(),
            bearings: self.bearings,
            directions: self.ends.len().saturating_sub(self.bearings),
        }
    }

    /// The ends of each row.
    pub fn ends(&self) -> &[[usize; 2]] {
        &self.ends
    }

    /// The ray or direction of each row.
    pub fn rays(&self) -> &[[f64; 3]] {
        &self.rays
    }

    /// The weight of each row.
    pub fn weights(&self) -> &[f64] {
        &self.weights
    }

    /// The scale of each row.
    pub fn scales(&self) -> &[f64] {
        &self.scales
    }

    /// The points: old ones to a solve, placed ones to dots and scales.
    pub fn points(&self) -> &[[f64; 3]] {
        &self.points
    }

    /// The bearings, in order.
    pub fn bearings(&self) -> impl ExactSizeIterator<Item = Bearing> + '_ {
        (0..self.bearings).map(|row| Bearing {
            camera: self.ends[row][0],
            point: self.ends[row][1],
            ray: self.rays[row],
            weight: self.weights[row],
            scale: self.scales[row],
        })
    }

    /// The directions, in order.
    pub fn directions(&self) -> impl ExactSizeIterator<Item = Direction> + '_ {
        (self.bearings..self.ends.len()).map(|row| Direction {
            source: self.ends[row][0],
            target: self.ends[row][1],
            direction: self.rays[row],
            weight: self.weights[row],
            scale: self.scales[row],
        })
    }

    /// The bearings of a point, in the order of its list. Panics unless the point is one of the network's, or where offsets that were set
    /// fall or go past the rows.
    pub fn point_bearings(&self, point: usize) -> &[usize] {
        &self.rows[self.offsets[point]..self.offsets[point + 1]]
    }

    /// Sets the weight of each row; refused by 3 unless there are as many. Their domain is tested by the calls.
    pub fn set_weights(&mut self, weights: &[f64]) -> Result<(), Error> {
        set("weights", &mut self.weights, weights)
    }

    /// Sets the scale of each row, as [`scales`](crate::scales) gives them; refused by 3 unless there are as many. Their domain is
    /// tested by the calls.
    pub fn set_scales(&mut self, scales: &[f64]) -> Result<(), Error> {
        set("scales", &mut self.scales, scales)
    }

    /// Sets the points, as a solve placed them; refused by 3 unless there are as many. Their domain is tested by the calls.
    pub fn set_points(&mut self, points: &[[f64; 3]]) -> Result<(), Error> {
        set("points", &mut self.points, points)
    }

    /// Sets the point lists, as a matcher found them: that of point p is `rows[offsets[p]..offsets[p + 1]]`, in any order. Sums over a point's
    /// bearings go in list order. Refused by 3 unless there are m + 1 offsets and B rows. That the offsets go from 0 to B and never fall, and
    /// that every bearing is named once, under its own point, is tested by the calls that use the lists (6): solve, dots and scales.
    ///
    /// ```
    /// use vobzeile::{Bearing, Network, Route, Workspace, solve};
    ///
    /// let mut builder = Network::builder(3);
    /// builder.push_point([0.0; 3]);
    /// for camera in 0..3 {
    ///     let ray = [0.6, 0.0, -0.8];
    ///     builder.push_bearing(Bearing { camera, point: 0, ray, weight: 1.0, scale: 0.1 });
    /// }
    /// let mut network = builder.build()?;
    /// assert_eq!(network.point_bearings(0), [0, 1, 2]);
    /// network.set_lists(&[0, 3], &[2, 0, 1])?;
    /// solve(&network, &mut Workspace::new(), Route::Dense, 48)?;
    /// # Ok::<(), vobzeile::Error>(())
    /// ```
    pub fn set_lists(&mut self, offsets: &[usize], rows: &[usize]) -> Result<(), Error> {
        check_length("offsets", self.offsets.len(), offsets.len())?;
        check_length("rows", self.rows.len(), rows.len())?;
        self.offsets.copy_from_slice(offsets);
        self.rows.copy_from_slice(rows);
        Ok(())
    }

    /// The same network, owning all it holds.
    pub fn into_owned(self) -> Network<'static> {
        Network {
            cameras: self.cameras,
            bearings: self.bearings,
            ends: Cow::Owned(self.ends.into_owned()),
            rays: Cow::Owned(self.rays.into_owned()),
            weights: Cow::Owned(self.weights.into_owned()),
            scales: Cow::Owned(self.scales.into_owned()),
            points: Cow::Owned(self.points.into_owned()),
            offsets: self.offsets,
            rows: self.rows,
        }
    }
}

/// Refused by 3 where the lengths differ.
fn check_length(slice: &'static str, expected: usize, actual: usize) -> Result<(), Error> {
    if expected == actual {
        return Ok(());
    }
    Err(Error::Length {
        slice,
        expected,
        actual,
    })
}

fn set<T: Copy>(slice: &'static str, held: &mut Cow<'_, [T]>, numbers: &[T]) -> Result<(), Error> {
    check_length(slice, held.len(), numbers.len())?;
    held.to_mut().copy_from_slice(numbers);
    Ok(())
}

impl Network<'static> {
    /// A builder for a network of this many cameras.
    pub fn builder(cameras: usize) -> NetworkBuilder {
        NetworkBuilder {
            cameras,
            ..NetworkBuilder::default()
        }
    }

    /// The network of an image that has these counts.
    pub(crate) fn of_image(counts: Counts, bytes: &[u8]) -> Result<Self, Error> {
        let mut ends = vec![[0; 2]; counts.rows()];
        let mut rays = vec![[0.0; 3]; counts.rows()];
        let mut weights = vec![0.0; counts.rows()];
        let mut scales = vec![0.0; counts.rows()];
        let mut points = vec![[0.0; 3]; counts.points];
        let mut report = [0; 4];
        let read = ffi::Read {
            ends: ends.as_flattened_mut(),
            rays: rays.as_flattened_mut(),
            weights: &mut weights,
            scales: &mut scales,
            points: points.as_flattened_mut(),
            report: &mut report,
        };
        let code = ffi::read(bytes, read);
        Error::check(code, &report, counts)?;
        Self {
            cameras: counts.cameras,
            bearings: counts.bearings,
            ends: ends.into(),
            rays: rays.into(),
            weights: weights.into(),
            scales: scales.into(),
            points: points.into(),
            offsets: Vec::new(),
            rows: Vec::new(),
        }
        .listed()
    }
}

/// Bearings, directions and points, pushed in any order.
#[derive(Clone, Debug, Default, PartialEq)]
pub struct NetworkBuilder {
    cameras: usize,
    bearings: Vec<Bearing>,
    directions: Vec<Direction>,
    points: Vec<[f64; 3]>,
}

impl NetworkBuilder {
    /// Adds a bearing; bearings are numbered as they come.
    pub fn push_bearing(&mut self, bearing: Bearing) -> &mut Self {
        self.bearings.push(bearing);
        self
    }

    /// Adds a direction; directions are numbered as they come.
    pub fn push_direction(&mut self, direction: Direction) -> &mut Self {
        self.directions.push(direction);
        self
    }

    /// Adds a point at its old position, which it keeps where its bearings weigh next to nothing; points are numbered as they come.
    pub fn push_point(&mut self, position: [f64; 3]) -> &mut Self {
        self.points.push(position);
        self
    }

    /// The network, or its refusal by 1, 2, 4, 5 or 7.
    pub fn build(&self) -> Result<Network<'static>, Error> {
        let rows = self.bearings.len() + self.directions.len();
        let mut ends = Vec::with_capacity(rows);
        let mut rays = Vec::with_capacity(rows);
        let mut weights = Vec::with_capacity(rows);
        let mut scales = Vec::with_capacity(rows);
        let mut push = |row_ends, ray, weight, scale| {
            ends.push(row_ends);
            rays.push(ray);
            weights.push(weight);
            scales.push(scale);
        };
        for row in &self.bearings {
            push([row.camera, row.point], row.ray, row.weight, row.scale);
        }
        for row in &self.directions {
            push(
                [row.source, row.target],
                row.direction,
                row.weight,
                row.scale,
            );
        }
        let bearings = self.bearings.len();
        Network::new(
            self.cameras,
            bearings,
            ends,
            rays,
            weights,
            scales,
            self.points.clone(),
        )
    }
}
