//! What the tests share.
#![allow(dead_code)]

use std::path::{Path, PathBuf};
use vobzeile::{Bearing, Direction, Error, Network};

/// The root of the repository, if this package stands in one.
pub fn repository() -> Option<PathBuf> {
    let root = Path::new(env!("CARGO_MANIFEST_DIR")).join("../..");
    root.join("crates.txt").is_file().then_some(root)
}

pub const X: [f64; 3] = [1.0, 0.0, 0.0];
pub const Z: [f64; 3] = [0.0, 0.0, 1.0];
pub const FIVE: [f64; 3] = [5.0, 5.0, 5.0];

/// Ends, ray, weight and scale of a row.
pub type Row = (usize, usize, [f64; 3], f64, f64);

pub fn network(
    cameras: usize,
    bearings: &[Row],
    directions: &[Row],
    points: &[[f64; 3]],
) -> Network<'static> {
    let mut builder = Network::builder(cameras);
    for &(source, target, direction, weight, scale) in directions {
        builder.push_direction(Direction {
            source,
            target,
            direction,
            weight,
            scale,
        });
    }
    for &(camera, point, ray, weight, scale) in bearings {
        builder.push_bearing(Bearing {
            camera,
            point,
            ray,
            weight,
            scale,
        });
    }
    for &point in points {
        builder.push_point(point);
    }
    builder.build().expect("a sound network")
}

/// One camera that sees one point.
pub fn sight(weight: f64, scale: f64) -> Network<'static> {
    network(1, &[(0, 0, Z, weight, scale)], &[], &[FIVE])
}

/// Two cameras and a direction.
pub fn pair(weight: f64, scale: f64) -> Network<'static> {
    network(2, &[], &[(0, 1, X, weight, scale)], &[])
}

/// The bits of a double, one NaN counting as another.
pub fn bits(number: f64) -> u64 {
    if number.is_nan() {
        0x7ff8 << 48
    } else {
        number.to_bits()
    }
}

pub fn all_bits(numbers: &[f64]) -> Vec<u64> {
    numbers.iter().copied().map(bits).collect()
}

/// A refusal as the library's numbers: number and place, and of 11 to 13 the camera, which is n where the sum stayed finite.
pub fn told(error: &Error, n: usize) -> Vec<usize> {
    let mut numbers = vec![error.number(), error.place()];
    if (11..=13).contains(&error.number()) {
        numbers.push(error.camera().unwrap_or(n));
    }
    numbers
}

/// The refusal by 3 of this slice.
pub fn length(slice: &'static str, expected: usize, actual: usize) -> Error {
    Error::Length {
        slice,
        expected,
        actual,
    }
}
