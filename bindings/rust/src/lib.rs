//! The linear step of a global positioning kernel: from sight lines and camera-to-camera directions it places every camera and tie
//! point at once, holding one camera still. The work is done by a proved static library; this package gives it a safe interface.
//!
//! A [`Network`] holds the rows. [`solve`] places cameras and points, [`dots`] and [`scales`] are the rest of a step, [`is_connected`] and
//! [`parts`] tell what hangs together, [`read_image`] and [`write_image`] carry a network as bytes. Whatever is refused comes back as an
//! [`Error`] with its number and place, and then the caller's buffers hold what they held.
//!
//! Two cameras, 2 apart, that see two points:
//!
//! ```
//! use vobzeile::{Bearing, Network, Route, Workspace, scales, solve};
//!
//! let cameras = [[0.0, 0.0, 0.0], [2.0, 0.0, 0.0]];
//! let points: [[f64; 3]; 2] = [[1.0, 0.0, -4.0], [1.0, 3.0, -4.0]];
//! let mut builder = Network::builder(cameras.len());
//! for (point, to) in points.iter().enumerate() {
//!     builder.push_point([0.0; 3]);
//!     for (camera, from) in cameras.iter().enumerate() {
//!         let way = [to[0] - from[0], to[1] - from[1], to[2] - from[2]];
//!         let distance = way.iter().map(|x| x * x).sum::<f64>().sqrt();
//!         let ray = way.map(|x| x / distance);
//!         builder.push_bearing(Bearing { camera, point, ray, weight: 1.0, scale: 1.0 / distance });
//!     }
//! }
//! let mut network = builder.build()?;
//! let mut workspace = Workspace::new();
//! let placement = solve(&network, &mut workspace, Route::IterativeThenDense, 48)?;
//! assert_eq!((placement.anchor, placement.cameras[0]), (0, [0.0; 3]));
//! assert!((placement.cameras[1][0] - 2.0).abs() < 1e-3);
//! assert!((placement.points[1][1] - 3.0).abs() < 1e-3);
//!
//! // the next step's scales
//! network.set_points(&placement.points)?;
//! let renewed = scales(&network, &mut workspace, &placement.cameras)?;
//! network.set_scales(&renewed)?;
//! # Ok::<(), vobzeile::Error>(())
//! ```
//!
//! An accepted [`Placement`] of [`Route::Iterative`] has finite cameras whose residual is within the stated bound; points are not tested.
//! Results are promised in the default floating-point environment (round to nearest, no flush to zero).

#![deny(unsafe_code)]
#![warn(missing_docs)]

#[cfg(not(target_pointer_width = "64"))]
compile_error!("vobzeile: usize must have 64 bits");

mod error;
#[allow(unsafe_code)]
mod ffi;
mod graph;
#[cfg(test)]
mod guarded;
mod image;
mod network;
mod solve;
mod step;

pub use error::{Error, Row};
pub use graph::{Parts, is_connected, parts};
pub use image::{image_counts, image_length, read_image, write_image, write_image_into};
pub use network::{Bearing, Counts, Direction, Network, NetworkBuilder};
pub use solve::{Placement, Report, Route, Workspace, solve, solve_into, work_length};
pub use step::{dots, dots_into, scales, scales_into};

/// The most cameras of a network; it has at least 1.
pub const MAX_CAMERAS: usize = 4096;
/// The most points of a network.
pub const MAX_POINTS: usize = 65_536;
/// The most bearings of a network.
pub const MAX_BEARINGS: usize = 262_144;
/// The most directions of a network.
pub const MAX_DIRECTIONS: usize = 65_536;
/// The greatest dense limit that a solve takes.
pub const MAX_DENSE_LIMIT: usize = 256;

/// The square root, correctly rounded; -0.0 for -0.0, a NaN below zero.
pub fn sqrt(x: f64) -> f64 {
    ffi::sqrt(x)
}

#[cfg(doctest)]
#[doc = include_str!("../README.md")]
struct Readme;
