//! Refused calls.

use crate::{Counts, MAX_BEARINGS, MAX_CAMERAS, MAX_DENSE_LIMIT, MAX_DIRECTIONS, MAX_POINTS};
use std::fmt;

/// A row of a network, a point or a camera, counted from 0 among its own kind.
#[derive(Clone, Copy, Debug, PartialEq, Eq, Hash)]
pub enum Row {
    /// A sight line from a camera to a point.
    Bearing(usize),
    /// A camera-to-camera direction.
    Direction(usize),
    /// A point's position.
    Point(usize),
    /// A camera's position.
    Camera(usize),
}

impl Row {
    /// What stands at a running place over bearings, then directions, points, cameras.
    fn at(place: usize, counts: Counts) -> Self {
        let mut rest = place;
        for (count, row) in [
            (counts.bearings, Self::Bearing as fn(usize) -> Self),
            (counts.directions, Self::Direction),
            (counts.points, Self::Point),
        ] {
            if rest < count {
                return row(rest);
            }
            rest -= count;
        }
        Self::Camera(rest)
    }
}

impl fmt::Display for Row {
    fn fmt(&self, formatter: &mut fmt::Formatter<'_>) -> fmt::Result {
        match self {
            Self::Bearing(index) => write!(formatter, "bearing {index}"),
            Self::Direction(index) => write!(formatter, "direction {index}"),
            Self::Point(index) => write!(formatter, "point {index}"),
            Self::Camera(index) => write!(formatter, "camera {index}"),
        }
    }
}

/// A refused call. Each variant is one numbered refusal; 9 to 17 are the kernel's `LinearSolveFailed`. There is no 10: no network can meet it.
#[derive(Clone, Copy, Debug, PartialEq, Eq, Hash)]
#[non_exhaustive]
pub enum Error {
    /// 1: no camera, or over 4,096.
    CameraCount,
    /// 2: over 65,536 points, 262,144 bearings or 65,536 directions.
    RowCount,
    /// 3: a slice's length differs from what the counts ask for. Lengths are counted in the slice's own elements: positions, rays or
    /// numbers. Where `expected` equals `actual`, the slice is not known.
    Length {
        /// The argument that is too long or too short, by its name.
        slice: &'static str,
        /// How many elements were expected (of `ends`, where the bearings are more than the rows, at least).
        expected: usize,
        /// How many came.
        actual: usize,
    },
    /// 4: a camera or point number is out of range.
    OutOfRange {
        /// The bearing or direction.
        row: Row,
        /// Its running number.
        place: usize,
    },
    /// 5: a direction with source = target.
    SelfLoop {
        /// The direction.
        direction: usize,
        /// Its running number.
        place: usize,
    },
    /// 6: the offsets of the point lists fall or do not go from 0 to B, or a bearing is missing, named twice or under another point.
    PointLists,
    /// 7: a weight, scale, ray, direction or position is outside the domain.
    OutsideDomain {
        /// The bearing, direction, point or camera.
        row: Row,
        /// Its running number.
        place: usize,
    },
    /// 8: no such route, or the dense limit is over 256.
    Route,
    /// 9, iterative: diagonal + 1e-6 is not finite.
    DiagonalNotFinite {
        /// The camera.
        camera: usize,
    },
    /// 11, iterative: the curvature is not finite, or at most 2^-52 times the size of the old product.
    Curvature {
        /// 0, 1, 2 for x, y, z.
        component: usize,
        /// The first camera with which the sum over the cameras is not finite. None: it stayed finite, and the curvature is too small.
        camera: Option<usize>,
    },
    /// 12, iterative: the new product is not finite, or the old one is at or below 0.
    Product {
        /// 0, 1, 2 for x, y, z.
        component: usize,
        /// The first camera with which the sum over the cameras is not finite. None: it stayed finite, and the old product is at or below 0.
        camera: Option<usize>,
    },
    /// 13, iterative: the final residual is not finite or above the allowed.
    Residual {
        /// 0, 1, 2 for x, y, z.
        component: usize,
        /// The first camera with which the sum over the cameras is not finite. None: it stayed finite, and the residual is above the allowed.
        camera: Option<usize>,
    },
    /// 14: the dense route, and n-1 over the dense limit.
    DenseLimit {
        /// n-1, the rows that a dense solve would have.
        dimension: usize,
    },
    /// 15, dense: a pivot is not finite or not above 0.
    Pivot {
        /// The dense row: cameras without the anchor, in order.
        row: usize,
    },
    /// 16, dense: a factor entry is not finite.
    Factor {
        /// The dense row: cameras without the anchor, in order.
        row: usize,
    },
    /// 17, dense: a back-substituted number is not finite.
    BackSubstitution {
        /// The dense row: cameras without the anchor, in order.
        row: usize,
    },
    /// 20: an image under 36 bytes, of another version than 1, or of another section count than 4.
    ImageHead,
    /// 21: an image whose offsets or lengths break the image rule.
    ImagePair {
        /// The pair of offset and length.
        pair: usize,
    },
    /// 22: an image with a section length that differs from what the counts say.
    ImageSection {
        /// The section: counts, bearings, directions, points.
        section: usize,
    },
    /// 23: the output is shorter than the image.
    ImageRoom {
        /// The bytes that the image needs.
        needed: usize,
    },
    /// A number that this package does not know.
    Other {
        /// The refusal's number.
        number: usize,
        /// Its place.
        place: usize,
    },
}

impl Error {
    /// The refusal by its number and the report, which has the place and, of 11 to 13, the camera, in a network of these counts.
    pub(crate) fn of(number: usize, report: &[usize], counts: Counts) -> Self {
        let place = report[0];
        let row = Row::at(place, counts);
        // n is no camera
        let camera = report.get(1).copied().filter(|&c| c < counts.cameras);
        match number {
            1 => Self::CameraCount,
            2 => Self::RowCount,
            3 => Self::Length {
                slice: "",
                expected: 0,
                actual: 0,
            },
            4 => Self::OutOfRange { row, place },
            5 => Self::SelfLoop {
                direction: place.saturating_sub(counts.bearings),
                place,
            },
            6 => Self::PointLists,
            7 => Self::OutsideDomain { row, place },
            8 => Self::Route,
            9 => Self::DiagonalNotFinite { camera: place },
            11 => Self::Curvature {
                component: place,
                camera,
            },
            12 => Self::Product {
                component: place,
                camera,
            },
            13 => Self::Residual {
                component: place,
                camera,
            },
            14 => Self::DenseLimit { dimension: place },
            15 => Self::Pivot { row: place },
            16 => Self::Factor { row: place },
            17 => Self::BackSubstitution { row: place },
            20 => Self::ImageHead,
            21 => Self::ImagePair { pair: place },
            22 => Self::ImageSection { section: place },
            23 => Self::ImageRoom { needed: place },
            _ => Self::Other { number, place },
        }
    }

    /// The refusal by its number and the report; a length's with the first of these slices (name, expected, actual) that is wrong.
    pub(crate) fn of_lengths(
        number: usize,
        report: &[usize],
        counts: Counts,
        slices: &[(&'static str, usize, usize)],
    ) -> Self {
        let wrong = slices.iter().find(|slice| slice.1 != slice.2);
        match (number, wrong) {
            (3, Some(&(slice, expected, actual))) => Self::Length {
                slice,
                expected,
                actual,
            },
            _ => Self::of(number, report, counts),
        }
    }

    /// Nothing where the code is 0, else the refusal.
    pub(crate) fn check(code: usize, report: &[usize], counts: Counts) -> Result<(), Self> {
        match code {
            0 => Ok(()),
            number => Err(Self::of(number, report, counts)),
        }
    }

    /// The refusal's number: 1 to 17, 20 to 23.
    pub fn number(&self) -> usize {
        match *self {
            Self::CameraCount => 1,
            Self::RowCount => 2,
            Self::Length { .. } => 3,
            Self::OutOfRange { .. } => 4,
            Self::SelfLoop { .. } => 5,
            Self::PointLists => 6,
            Self::OutsideDomain { .. } => 7,
            Self::Route => 8,
            Self::DiagonalNotFinite { .. } => 9,
            Self::Curvature { .. } => 11,
            Self::Product { .. } => 12,
            Self::Residual { .. } => 13,
            Self::DenseLimit { .. } => 14,
            Self::Pivot { .. } => 15,
            Self::Factor { .. } => 16,
            Self::BackSubstitution { .. } => 17,
            Self::ImageHead => 20,
            Self::ImagePair { .. } => 21,
            Self::ImageSection { .. } => 22,
            Self::ImageRoom { .. } => 23,
            Self::Other { number, .. } => number,
        }
    }

    /// The refusal's place; of 4, 5 and 7 the running number over bearings, then directions, points, cameras, of 11 to 13 the component.
    pub fn place(&self) -> usize {
        match *self {
            Self::CameraCount
            | Self::RowCount
            | Self::Length { .. }
            | Self::PointLists
            | Self::Route
            | Self::ImageHead => 0,
            Self::OutOfRange { place, .. }
            | Self::SelfLoop { place, .. }
            | Self::OutsideDomain { place, .. }
            | Self::Other { place, .. } => place,
            Self::DiagonalNotFinite { camera } => camera,
            Self::Curvature { component, .. }
            | Self::Product { component, .. }
            | Self::Residual { component, .. } => component,
            Self::DenseLimit { dimension } => dimension,
            Self::Pivot { row } | Self::Factor { row } | Self::BackSubstitution { row } => row,
            Self::ImagePair { pair } => pair,
            Self::ImageSection { section } => section,
            Self::ImageRoom { needed } => needed,
        }
    }

    /// The camera whose rows are the first to look at where the iterative part gave up: of 9 that of the diagonal, of 11 to 13 the first
    /// with which the sum over the cameras is not finite. None where that sum stayed finite (the library's own number is then n), and of
    /// all other refusals.
    pub fn camera(&self) -> Option<usize> {
        match *self {
            Self::DiagonalNotFinite { camera } => Some(camera),
            Self::Curvature { camera, .. }
            | Self::Product { camera, .. }
            | Self::Residual { camera, .. } => camera,
            _ => None,
        }
    }

    /// Whether the method gave up (9, or 11 to 17): the kernel's `LinearSolveFailed`.
    pub fn is_linear_solve_failure(&self) -> bool {
        matches!(self.number(), 9 | 11..=17)
    }
}

fn axis(component: usize) -> &'static str {
    ["x", "y", "z"].get(component).copied().unwrap_or("?")
}

fn section_name(section: usize) -> &'static str {
    ["counts", "bearings", "directions", "points"]
        .get(section)
        .copied()
        .unwrap_or("?")
}

/// The camera at which a sum over the cameras stops being finite, or, where it stays finite, what is wrong instead.
fn sum_words(
    formatter: &mut fmt::Formatter<'_>,
    component: usize,
    sum: &str,
    camera: Option<usize>,
    finite: &str,
) -> fmt::Result {
    let axis = axis(component);
    write!(formatter, "iterative: {axis}: the {sum}'s sum ")?;
    match camera {
        Some(camera) => write!(formatter, "stops being finite at camera {camera}"),
        None => write!(formatter, "stays finite, {finite}"),
    }
}

impl fmt::Display for Error {
    fn fmt(&self, formatter: &mut fmt::Formatter<'_>) -> fmt::Result {
        match *self {
            Self::CameraCount => write!(formatter, "no camera, or over {MAX_CAMERAS} cameras"),
            Self::RowCount => write!(
                formatter,
                "over {MAX_POINTS} points, {MAX_BEARINGS} bearings or {MAX_DIRECTIONS} directions"
            ),
            Self::Length {
                slice,
                expected,
                actual,
            } if expected != actual => {
                write!(formatter, "{slice}: length {actual}, expected {expected}")
            }
            Self::Length { .. } => formatter
                .write_str("a length differs from its count, or the work buffer is too short"),
            Self::OutOfRange { row, .. } => {
                let ends = match row {
                    Row::Bearing(_) => "camera or point",
                    _ => "source or target",
                };
                write!(formatter, "{row}: {ends} out of range")
            }
            Self::SelfLoop { direction, .. } => {
                write!(formatter, "direction {direction}: source = target")
            }
            Self::PointLists => formatter
                .write_str("the point lists do not name every bearing once, under its own point"),
            Self::OutsideDomain { row, .. } => {
                let numbers = match row {
                    Row::Bearing(_) => "weight, scale or ray",
                    Row::Direction(_) => "weight, scale or direction",
                    Row::Point(_) | Row::Camera(_) => "position",
                };
                write!(formatter, "{row}: {numbers} outside the domain")
            }
            Self::Route => write!(
                formatter,
                "no such route, or dense limit over {MAX_DENSE_LIMIT}"
            ),
            Self::DiagonalNotFinite { camera } => {
                write!(formatter, "iterative: camera {camera}: diagonal not finite")
            }
            Self::Curvature { component, camera } => {
                let finite = "and is too small";
                sum_words(formatter, component, "curvature", camera, finite)
            }
            Self::Product { component, camera } => {
                let finite = "but the old product is at or below 0";
                sum_words(formatter, component, "new product", camera, finite)
            }
            Self::Residual { component, camera } => {
                let finite = "and is above the allowed";
                sum_words(formatter, component, "final residual", camera, finite)
            }
            Self::DenseLimit { dimension } => write!(
                formatter,
                "dense: {dimension} rows are over the dense limit"
            ),
            Self::Pivot { row } => {
                write!(
                    formatter,
                    "dense: row {row}: pivot not finite or not above 0"
                )
            }
            Self::Factor { row } => {
                write!(formatter, "dense: row {row}: factor entry not finite")
            }
            Self::BackSubstitution { row } => write!(
                formatter,
                "dense: row {row}: back-substituted number not finite"
            ),
            Self::ImageHead => {
                formatter.write_str("image: under 36 bytes, version not 1 or section count not 4")
            }
            Self::ImagePair { pair } => write!(
                formatter,
                "image: pair {pair}: offset or length breaks the image rule"
            ),
            Self::ImageSection { section } => write!(
                formatter,
                "image: section {section} ({}): length differs from what the counts say",
                section_name(section)
            ),
            Self::ImageRoom { needed } => {
                write!(formatter, "image: the output needs {needed} bytes")
            }
            Self::Other { number, place } => {
                write!(formatter, "refused {number} place {place}")
            }
        }
    }
}

impl std::error::Error for Error {}

#[cfg(test)]
mod tests {
    use super::*;

    const COUNTS: Counts = Counts {
        cameras: 4,
        points: 3,
        bearings: 20,
        directions: 5,
    };

    #[test]
    fn number_and_place_come_back() {
        let zero_placed = [1, 2, 3, 6, 8, 20];
        for number in (1..=17).chain(20..=23).chain([18, 99]) {
            for place in [0, 1, 2, 20, 24, 25, 27, 28, 31] {
                let error = Error::of(number, &[place], COUNTS);
                assert_eq!(error.number(), number);
                let place = if zero_placed.contains(&number) {
                    0
                } else {
                    place
                };
                assert_eq!(error.place(), place, "{error:?}");
                assert!(!error.to_string().contains('?') || place > 2, "{error}");
                let gave_up = number == 9 || (11..=17).contains(&number);
                assert_eq!(error.is_linear_solve_failure(), gave_up);
                let other = matches!(error, Error::Other { .. });
                assert_eq!(other, [10, 18, 99].contains(&number));
            }
        }
    }

    #[test]
    fn cameras() {
        for number in (1..=17).chain(20..=23).chain([18, 99]) {
            for camera in [0, 1, 3, 4, 5, usize::MAX] {
                let error = Error::of(number, &[2, camera, 7, 7], COUNTS);
                let named = match number {
                    9 => Some(2),
                    11..=13 => (camera < 4).then_some(camera),
                    _ => None,
                };
                assert_eq!(error.camera(), named, "{error:?}");
                // the place is as without a camera
                assert_eq!(error.place(), Error::of(number, &[2], COUNTS).place());
            }
            // reports of the other calls have one number
            let named = Error::of(number, &[2], COUNTS).camera();
            assert_eq!(named, (number == 9).then_some(2));
        }
        let component = 1;
        let camera = Some(3);
        for (number, error) in [
            (11, Error::Curvature { component, camera }),
            (12, Error::Product { component, camera }),
            (13, Error::Residual { component, camera }),
        ] {
            assert_eq!(Error::of(number, &[1, 3, 0, 0], COUNTS), error);
        }
    }

    #[test]
    fn words_of_cameras() {
        for (number, camera, words) in [
            (11, 3, "the curvature's sum stops being finite at camera 3"),
            (11, 4, "the curvature's sum stays finite, and is too small"),
            (
                12,
                0,
                "the new product's sum stops being finite at camera 0",
            ),
            (
                12,
                4,
                "the new product's sum stays finite, but the old product is at or below 0",
            ),
            (
                13,
                2,
                "the final residual's sum stops being finite at camera 2",
            ),
            (
                13,
                4,
                "the final residual's sum stays finite, and is above the allowed",
            ),
        ] {
            let told = Error::of(number, &[0, camera, 0, 0], COUNTS).to_string();
            assert_eq!(told, format!("iterative: x: {words}"));
        }
    }

    #[test]
    fn words() {
        for (number, place, words) in [
            (4, 17, "bearing 17: camera or point out of range"),
            (4, 20, "direction 0: source or target out of range"),
            (5, 23, "direction 3: source = target"),
            (
                6,
                0,
                "the point lists do not name every bearing once, under its own point",
            ),
            (7, 17, "bearing 17: weight, scale or ray outside the domain"),
            (
                7,
                24,
                "direction 4: weight, scale or direction outside the domain",
            ),
            (7, 25, "point 0: position outside the domain"),
            (7, 27, "point 2: position outside the domain"),
            (7, 28, "camera 0: position outside the domain"),
            (7, 31, "camera 3: position outside the domain"),
            (9, 1, "iterative: camera 1: diagonal not finite"),
            (15, 0, "dense: row 0: pivot not finite or not above 0"),
            (
                22,
                1,
                "image: section 1 (bearings): length differs from what the counts say",
            ),
            (23, 124, "image: the output needs 124 bytes"),
            (40, 6, "refused 40 place 6"),
        ] {
            assert_eq!(Error::of(number, &[place], COUNTS).to_string(), words);
        }
    }

    #[test]
    fn is_an_error() {
        let error: Box<dyn std::error::Error + Send + Sync> = Box::new(Error::PointLists);
        assert!(error.to_string().starts_with("the point lists"));
    }
}
