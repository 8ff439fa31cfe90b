//! The whole case and the values at the edges, by the safe interface.

mod common;

use common::{FIVE, X, Z, all_bits, length, network, pair, sight};
use vobzeile::{
    Counts, Error, Network, Placement, Route, Row, Workspace, dots, dots_into, is_connected, parts,
    scales, scales_into, solve, solve_into, sqrt, work_length,
};

const ROUTES: [Route; 3] = [Route::Dense, Route::Iterative, Route::IterativeThenDense];

fn placed(network: &Network, route: Route, limit: usize) -> Result<Placement, Error> {
    solve(network, &mut Workspace::new(), route, limit)
}

#[track_caller]
fn refused(network: &Network, route: Route, limit: usize) -> (usize, usize) {
    let error = placed(network, route, limit).expect_err("a refusal");
    assert!(error.is_linear_solve_failure() || error.number() == 8);
    (error.number(), error.place())
}

#[test]
fn whole_case() {
    let placement = placed(&sight(1.0, 0.5), Route::IterativeThenDense, 48).unwrap();
    assert_eq!(
        placement,
        Placement {
            cameras: vec![[0.0; 3]],
            points: vec![[0.0, 0.0, 2.0]],
            anchor: 0,
            route: Route::Iterative,
            rounds: 0,
            few: 1,
        }
    );
    assert_eq!(all_bits(placement.cameras.as_flattened()), [0; 3]);
    let point = all_bits(placement.points.as_flattened());
    assert_eq!(point, [0, 0, 0x4000_0000_0000_0000]);
}

#[test]
fn light_sights() {
    for route in ROUTES {
        let kept = placed(&sight(0.0, 0.5), route, 48).unwrap();
        assert_eq!(kept.points, [FIVE]);
        let light = placed(&sight(1e-12, 1.0), route, 48).unwrap();
        assert_eq!(light.points, [[0.0, 0.0, 1.0]]);
        // just below
        let lighter = placed(&sight(9.99e-13, 1.0), route, 48).unwrap();
        assert_eq!(lighter.points, [FIVE]);
    }
}

/// Cameras of fewer than two rows, the same on every route.
#[test]
fn few() {
    let few = |network: &Network| ROUTES.map(|route| placed(network, route, 48).unwrap().few);
    assert_eq!(few(&network(3, &[], &[], &[])), [3; 3]);
    // a direction at both of its ends, also with weight 0; a row given twice counts twice
    let (once, idle) = ((0, 1, X, 1.0, 1.0), (0, 1, X, 0.0, 1.0));
    assert_eq!(few(&network(2, &[], &[once], &[])), [2; 3]);
    assert_eq!(few(&network(2, &[], &[once, once], &[])), [0; 3]);
    assert_eq!(few(&network(2, &[], &[once, idle], &[])), [0; 3]);
    assert_eq!(
        few(&network(3, &[], &[once, once, (1, 2, X, 1.0, 1.0)], &[])),
        [1; 3]
    );
    // bearings of points at 1e-12 and just below; the weights of two bearings add up
    let sights = |point, weight| {
        let bearings = [(0, 0, Z, weight, 1.0), (0, point, Z, weight, 1.0)];
        network(1, &bearings, &[], &[FIVE, FIVE])
    };
    assert_eq!(few(&sights(1, 1e-12)), [0; 3]);
    assert_eq!(few(&sights(1, 9.99e-13)), [1; 3]);
    assert_eq!(few(&sights(0, 9.99e-13)), [0; 3]);
}

#[test]
fn points_are_not_tested() {
    let placement = placed(&sight(1e300, 1e10), Route::Iterative, 0).unwrap();
    assert_eq!(placement.cameras, [[0.0; 3]]);
    assert!(placement.points[0].iter().all(|number| number.is_nan()));
    // but dots and scales of such a point are refused
    let mut network = sight(1e300, 1e10);
    network.set_points(&placement.points).unwrap();
    let error = scales(&network, &mut Workspace::new(), &placement.cameras).unwrap_err();
    let row = Row::Point(0);
    assert_eq!(error, Error::OutsideDomain { row, place: 1 });
}

#[test]
fn refused_diagonal_and_pivot() {
    let heavy = pair(1e300, 1e10);
    assert_eq!(refused(&heavy, Route::Iterative, 1), (9, 1));
    assert_eq!(refused(&heavy, Route::Dense, 1), (15, 0));
    // dense's refusal where it may go dense, else the iterative one
    assert_eq!(refused(&heavy, Route::IterativeThenDense, 1), (15, 0));
    assert_eq!(refused(&heavy, Route::IterativeThenDense, 0), (9, 1));
}

#[test]
fn refused_factor() {
    let bearings = [
        (1, 0, Z, 1e200, 1.0),
        (2, 0, Z, 1e200, 1.0),
        (0, 1, Z, 1e201, 1.0),
    ];
    let heavy = network(3, &bearings, &[], &[FIVE, FIVE]);
    assert_eq!(refused(&heavy, Route::Dense, 2), (16, 1));
}

/// Number, place and camera of an iterative refusal.
#[track_caller]
fn named(network: &Network) -> (usize, usize, Option<usize>) {
    let error = placed(network, Route::Iterative, 0).expect_err("a refusal");
    (error.number(), error.place(), error.camera())
}

/// A flight line of six cameras, of which 1 is the anchor; the direction from 2 to 3 is `bad`.
fn line(bad: [f64; 3], weight: f64) -> Network<'static> {
    let mut directions = [0, 1, 2, 3, 4].map(|camera| (camera, camera + 1, X, weight, 1.0));
    directions[2].2 = bad;
    network(6, &[], &directions, &[])
}

/// 11 to 13 name the first camera with which the running sum over the cameras is not finite.
#[test]
fn cameras_of_sums() {
    // square sums of the right sides are still finite, but not those over the diagonals
    let curvature = line([0.0, 1e159, 0.0], 1e-6);
    assert_eq!(named(&curvature), (11, 1, Some(2)));
    let error = placed(&curvature, Route::Iterative, 0).unwrap_err();
    let (component, camera) = (1, Some(2));
    assert_eq!(error, Error::Curvature { component, camera });
    let words = "iterative: y: the curvature's sum stops being finite at camera 2";
    assert_eq!(error.to_string(), words);
    // both products are finite, their sum is not
    let sum = line([1.7e154, 0.0, 0.0], 0.5);
    assert_eq!(named(&sum), (11, 0, Some(3)));
    // a pair of cameras, 2 and 3, that hang together strongly and by a thread from camera 0: the first step goes too far
    let (soft, near) = (4e-6, 1e152);
    let right = [(1.0 + soft) * 1.001 * near, 0.999 * near];
    let directions = [
        (0, 2, [(right[0] + right[1]) / soft, 0.0, 0.0], soft, 1.0),
        (2, 3, [right[1], 0.0, 0.0], 1.0, 1.0),
    ];
    let product = network(5, &[(0, 0, Z, 10.0, 1.0)], &directions, &[FIVE]);
    assert_eq!(named(&product), (12, 0, Some(2)));
    assert_eq!(named(&line([0.0, 0.0, 1e200], 1.0)), (13, 2, Some(2)));
    // two cameras from one spot at either end of a weak direction: the residual is finite and too large
    let directions = [
        (0, 1, [0.0; 3], 2e10, 1.0),
        (1, 2, X, 1.0, 1.0),
        (2, 3, [0.0; 3], 1e10, 1.0),
    ];
    let excess = network(4, &[], &directions, &[]);
    assert_eq!(named(&excess), (13, 0, None));
    let words = "iterative: x: the final residual's sum stays finite, and is above the allowed";
    let error = placed(&excess, Route::Iterative, 0).unwrap_err();
    assert_eq!(error.to_string(), words);
    // 9 names the camera of the diagonal, the dense part none
    let heavy = pair(1e300, 1e10);
    assert_eq!(named(&heavy), (9, 1, Some(1)));
    let error = placed(&heavy, Route::Dense, 1).unwrap_err();
    assert_eq!(error.camera(), None);
}

#[test]
fn refused_rounds() {
    // right sides so small that products vanish
    let vanishing = |strong: f64, weight: f64, ray: f64| {
        network(
            3,
            &[(0, 0, Z, strong, 1.0)],
            &[(1, 2, [ray, 0.0, 0.0], weight, 1.0)],
            &[FIVE],
        )
    };
    let curvature = vanishing(
        9.338372753875757e300,
        1.1672965942344696e300,
        -6.8710075957e-313,
    );
    assert_eq!(refused(&curvature, Route::Iterative, 2), (11, 0));
    // sums that stay finite name no camera
    assert_eq!(named(&curvature).2, None);
    let product = vanishing(
        1.5216196064818478e301,
        1.9020245081023097e300,
        -1.101660789756e-312,
    );
    assert_eq!(refused(&product, Route::Iterative, 2), (12, 0));
    assert_eq!(named(&product).2, None);
    // a right side whose square sum overflows
    let overflow = network(2, &[], &[(0, 1, [1e200, 0.0, 0.0], 1.0, 1.0)], &[]);
    assert_eq!(refused(&overflow, Route::Iterative, 2), (13, 0));
    assert_eq!(named(&overflow).2, Some(1));
    let overflow = network(2, &[], &[(0, 1, [0.0, 0.0, 1e200], 1.0, 1.0)], &[]);
    assert_eq!(refused(&overflow, Route::Iterative, 2), (13, 2));
    // and one that is itself infinite
    let infinite = network(3, &[], &[(0, 2, [1e300, -1e300, 1.0], 1e300, 1.0)], &[]);
    assert_eq!(refused(&infinite, Route::Dense, 2), (17, 1));
    assert_eq!(refused(&infinite, Route::IterativeThenDense, 2), (17, 1));
}

#[test]
fn dense_limit() {
    let line = network(3, &[], &[(0, 1, X, 1.0, 1.0), (1, 2, X, 1.0, 1.0)], &[]);
    assert_eq!(refused(&line, Route::Dense, 1), (14, 2));
    let placement = placed(&line, Route::Dense, 2).unwrap();
    assert_eq!((placement.route, placement.rounds), (Route::Dense, 0));
    assert_eq!(placement.anchor, 1);
    assert_eq!(placement.cameras[1], [0.0; 3]);
    assert!(placement.cameras[0][0] < -0.99 && placement.cameras[2][0] > 0.99);
    for route in ROUTES {
        assert_eq!(refused(&line, route, 257), (8, 0));
        assert_eq!(refused(&line, route, usize::MAX), (8, 0));
        assert!(placed(&line, route, 256).is_ok());
    }
    let iterative = placed(&line, Route::IterativeThenDense, 2).unwrap();
    assert_eq!(iterative.route, Route::Iterative);
    assert!((1..=64).contains(&iterative.rounds));
}

#[test]
fn dense_after_iterative() {
    // the right side's square sum overflows, which dense has no need of
    let strong = pair(1e300, 1.0);
    assert_eq!(refused(&strong, Route::Iterative, 1), (13, 0));
    assert_eq!(refused(&strong, Route::IterativeThenDense, 0), (13, 0));
    let placement = placed(&strong, Route::IterativeThenDense, 1).unwrap();
    assert_eq!(placement.route, Route::IterativeThenDense);
    assert_eq!((placement.anchor, placement.rounds), (0, 0));
    assert_eq!(placement.cameras, [[0.0; 3], X]);
}

#[test]
fn scales_at_the_edges() {
    let pair = pair(1.0, 0.75);
    let scale = |x: f64| scales(&pair, &mut Workspace::new(), &[[0.0; 3], [x, 0.0, 0.0]]).unwrap();
    assert_eq!(scale(2.0), [0.5]);
    assert_eq!(scale(-2.0), [1e-5]);
    assert_eq!(scale(2f64.powi(-20)), [0.75]);
    assert_eq!(scale(2f64.powi(-19)), [524288.0]);
    let dot = |x: f64| dots(&pair, &mut Workspace::new(), &[[0.0; 3], [x, 0.0, 0.0]]).unwrap();
    assert_eq!(dot(2.0), [2.0]);
    assert_eq!(dot(-2.0), [-2.0]);
}

#[test]
fn dots_and_scales_of_the_whole_case() {
    let mut network = sight(1.0, 0.5);
    let placement = placed(&network, Route::Iterative, 0).unwrap();
    network.set_points(&placement.points).unwrap();
    let workspace = &mut Workspace::new();
    let cameras = &placement.cameras[..];
    assert_eq!(dots(&network, workspace, cameras).unwrap(), [2.0]);
    assert_eq!(scales(&network, workspace, cameras).unwrap(), [0.5]);
    // buffers of the caller's: too long, just right
    let mut out = [7.0; 2];
    for call in [dots_into, scales_into] {
        let error = call(&network, workspace, cameras, &mut out).unwrap_err();
        assert_eq!((error, out), (length("out", 1, 2), [7.0; 2]));
        assert_eq!(error.to_string(), "out: length 2, expected 1");
        call(&network, workspace, cameras, &mut out[..1]).unwrap();
        assert_ne!(out[0], 7.0);
        out[0] = 7.0;
        let error = call(&network, workspace, &[], &mut out[..1]).unwrap_err();
        assert_eq!((error, out), (length("cameras", 1, 0), [7.0; 2]));
        let nowhere = [[0.0, f64::NAN, 0.0]];
        let error = call(&network, workspace, &nowhere, &mut out[..1]).unwrap_err();
        let row = Row::Camera(0);
        assert_eq!(error, Error::OutsideDomain { row, place: 2 });
        assert_eq!(error.to_string(), "camera 0: position outside the domain");
        assert_eq!(out, [7.0; 2]);
    }
}

#[test]
fn connected_and_parts() {
    let mut workspace = Workspace::new();
    let directions = [(0, 1, X, 1.0, 1.0), (1, 2, X, 0.0, 1.0)];
    let apart = network(3, &[], &directions, &[]);
    assert_eq!(is_connected(&apart, &mut workspace), Ok(false));
    let listing = parts(&apart, &mut workspace).unwrap();
    assert_eq!((listing.labels, listing.count), (&[0, 0, 2][..], 2));
    // joined by a point; the workspace is longer than needed by then
    let mut larger = network(5, &[(4, 0, Z, 1.0, 1.0)], &directions, &[FIVE]);
    let listing = parts(&larger, &mut workspace).unwrap();
    assert_eq!((listing.labels, listing.count), (&[0, 0, 2, 3, 4][..], 4));
    let joined = network(
        3,
        &[(0, 0, Z, 1.0, 1.0), (2, 0, Z, 1.0, 1.0)],
        &directions,
        &[FIVE],
    );
    assert_eq!(is_connected(&joined, &mut workspace), Ok(true));
    let listing = parts(&joined, &mut workspace).unwrap();
    assert_eq!((listing.labels, listing.count), (&[0, 0, 0][..], 1));
    // a weight outside the domain
    larger.set_weights(&[1.0, -1.0, 0.0]).unwrap();
    let error = is_connected(&larger, &mut workspace).unwrap_err();
    assert_eq!(parts(&larger, &mut workspace), Err(error));
    let words = "direction 0: weight, scale or direction outside the domain";
    assert_eq!((error.place(), error.to_string().as_str()), (1, words));
    // a single camera hangs together with itself
    assert_eq!(is_connected(&sight(0.0, 1.0), &mut workspace), Ok(true));
}

#[test]
fn work_lengths() {
    let counts = |cameras| Counts {
        cameras,
        points: 5,
        bearings: 7,
        directions: 11,
    };
    let base = |n: usize| 24 * n + 20 + 18;
    assert_eq!(work_length(counts(4), Route::Iterative, 3), Ok(base(4)));
    assert_eq!(work_length(counts(4), Route::Dense, 3), Ok(base(4) + 18));
    assert_eq!(work_length(counts(4), Route::Dense, 2), Ok(base(4)));
    let both = Route::IterativeThenDense;
    assert_eq!(work_length(counts(4), both, 3), Ok(base(4) + 18));
    assert_eq!(work_length(counts(4), both, 257), Ok(base(4)));
    assert_eq!(work_length(counts(0), both, 3), Err(Error::CameraCount));
    assert_eq!(work_length(counts(4097), both, 3), Err(Error::CameraCount));
    let crowded = Counts {
        points: 65537,
        ..counts(4)
    };
    assert_eq!(work_length(crowded, both, 3), Err(Error::RowCount));
}

#[test]
fn roots() {
    assert_eq!(sqrt(f64::from_bits(1)), 2f64.powi(-537));
    assert_eq!(sqrt(2.0).to_bits(), 0x3ff6_a09e_667f_3bcd);
    assert!(sqrt(-1.0).is_nan());
    for number in [3.0, 1e-300, 7.5e200, f64::MAX, 0.1] {
        assert_eq!(sqrt(number).to_bits(), number.sqrt().to_bits());
    }
}

#[test]
fn into_the_callers_buffers() {
    let network = sight(1.0, 0.5);
    let mut workspace = Workspace::for_network(&network, Route::IterativeThenDense, 48).unwrap();
    let route = Route::IterativeThenDense;
    let mut run = |cameras: &mut [[f64; 3]], points: &mut [[f64; 3]]| {
        solve_into(&network, &mut workspace, route, 48, cameras, points)
    };
    let (mut cameras, mut points) = ([[7.0; 3]; 2], [[7.0; 3]; 2]);
    let wrong = |slice, actual| Err(length(slice, 1, actual));
    assert_eq!(run(&mut cameras, &mut points[..1]), wrong("cameras", 2));
    assert_eq!(run(&mut cameras[..1], &mut points), wrong("points", 2));
    assert_eq!(run(&mut [], &mut []), wrong("cameras", 0));
    assert_eq!((cameras, points), ([[7.0; 3]; 2], [[7.0; 3]; 2]));
    let report = run(&mut cameras[..1], &mut points[..1]).unwrap();
    assert_eq!(
        (report.anchor, report.route, report.rounds, report.few),
        (0, Route::Iterative, 0, 1)
    );
    assert_eq!(cameras, [[0.0; 3], [7.0; 3]]);
    assert_eq!(points, [[0.0, 0.0, 2.0], [7.0; 3]]);
}

/// A refused solve, and solves of other sizes before it, leave no trace in a workspace.
#[test]
fn one_workspace() {
    let mut workspace = Workspace::new();
    let line = network(3, &[], &[(0, 1, X, 1.0, 1.0), (1, 2, X, 1.0, 1.0)], &[]);
    for limit in [2, 0] {
        for route in ROUTES {
            for network in [&sight(1.0, 0.5), &line, &pair(1e300, 1e10), &line] {
                let reused = solve(network, &mut workspace, route, limit);
                assert_eq!(reused, placed(network, route, limit));
            }
        }
    }
}
