//! Point lists that were set: any order under a point, and what 6 refuses.

mod common;

use common::{FIVE, X, Z, all_bits, length, network};
use vobzeile::{
    Error, Network, Route, Workspace, dots, dots_into, is_connected, parts, read_image, scales,
    scales_into, solve, solve_into, write_image,
};

const ROUTES: [Route; 3] = [Route::Dense, Route::Iterative, Route::IterativeThenDense];

const CAMERAS: [[f64; 3]; 4] = [
    [0.0, 0.0, 0.0],
    [2.0, 0.0, 0.5],
    [0.5, 2.0, 0.0],
    [2.0, 2.0, -0.5],
];
const POINTS: [[f64; 3]; 3] = [[1.0, 0.5, -4.0], [0.5, 1.5, -5.0], [1.5, 1.0, -3.0]];

/// Points 0 and 2 are seen by all four cameras, point 1 by three of them. Rows go camera by camera; row 11 is a direction.
fn survey() -> Network<'static> {
    let mut bearings = Vec::new();
    for (camera, from) in CAMERAS.iter().enumerate() {
        for (point, to) in POINTS.iter().enumerate() {
            if (camera, point) != (2, 1) {
                let way = [to[0] - from[0], to[1] - from[1], to[2] - from[2]];
                let distance = way.iter().map(|x| x * x).sum::<f64>().sqrt();
                let ray = way.map(|x| x / distance);
                bearings.push((camera, point, ray, 1.0, 1.0 / distance));
            }
        }
    }
    network(4, &bearings, &[(0, 1, X, 0.0, 1.0)], &[FIVE; 3])
}

const OFFSETS: [usize; 4] = [0, 4, 7, 11];
const ASCENDING: [usize; 11] = [0, 3, 6, 8, 1, 4, 9, 2, 5, 7, 10];

/// The survey with these lists.
fn listed(offsets: &[usize], rows: &[usize]) -> Network<'static> {
    let mut network = survey();
    network.set_lists(offsets, rows).unwrap();
    network
}

fn near(a: &[[f64; 3]], b: &[[f64; 3]]) -> bool {
    let numbers = a.as_flattened().iter().zip(b.as_flattened());
    a.len() == b.len() && numbers.into_iter().all(|(a, b)| (a - b).abs() < 1e-6)
}

#[test]
fn any_order_under_a_point() {
    let built = survey();
    assert_eq!(listed(&OFFSETS, &ASCENDING), built);
    let orders = [
        // reversed
        [8, 6, 3, 0, 9, 4, 1, 10, 7, 5, 2],
        // turned
        [3, 6, 8, 0, 4, 9, 1, 5, 7, 10, 2],
        // the middle out
        [6, 0, 8, 3, 4, 1, 9, 7, 2, 10, 5],
    ];
    let mut workspace = Workspace::new();
    for order in orders {
        let network = listed(&OFFSETS, &order);
        assert_ne!(network, built);
        assert_eq!(network.point_bearings(1), &order[4..7]);
        for route in ROUTES {
            let placed = solve(&network, &mut workspace, route, 48).unwrap();
            let wanted = solve(&built, &mut workspace, route, 48).unwrap();
            assert_eq!((placed.anchor, placed.few), (wanted.anchor, wanted.few));
            assert!(near(&placed.cameras, &wanted.cameras), "{placed:?}");
            assert!(near(&placed.points, &wanted.points), "{placed:?}");
        }
        for call in [dots, scales] {
            let numbers = call(&network, &mut workspace, &CAMERAS).unwrap();
            let wanted = call(&built, &mut workspace, &CAMERAS).unwrap();
            assert_eq!(all_bits(&numbers), all_bits(&wanted));
        }
        // an image has no lists
        let image = write_image(&network).unwrap();
        assert_eq!(read_image(&image).unwrap(), built);
    }
}

/// Three sights of one point whose weights sum to just 1e-12, or to the double below it where the two small ones come after the great one.
#[test]
fn sums_in_list_order() {
    let great = f64::from_bits(1e-12f64.to_bits() - 1);
    let small = (1e-12 - great) / 2.0;
    let rows = [great, small, small].map(|weight| (0, 0, Z, weight, 1.0));
    let mut network = network(1, &rows, &[], &[FIVE]);
    let mut workspace = Workspace::new();
    for (order, faint) in [
        ([0, 1, 2], true),
        ([0, 2, 1], true),
        ([1, 0, 2], true),
        ([2, 0, 1], true),
        ([1, 2, 0], false),
        ([2, 1, 0], false),
    ] {
        network.set_points(&[FIVE]).unwrap();
        network.set_lists(&[0, 3], &order).unwrap();
        for route in ROUTES {
            let placement = solve(&network, &mut workspace, route, 48).unwrap();
            let point = if faint { FIVE } else { Z };
            assert_eq!(
                (placement.points, placement.few),
                (vec![point], faint as usize)
            );
        }
        network.set_points(&[[0.0, 0.0, 2.0]]).unwrap();
        let scale = if faint { 1.0 } else { 0.5 };
        let renewed = scales(&network, &mut workspace, &[[0.0; 3]]).unwrap();
        assert_eq!(renewed, [scale; 3]);
    }
}

/// Refused by 6 by every call that uses the lists, which leaves the caller's buffers; other calls do not look at them.
#[track_caller]
fn refused(offsets: &[usize], rows: &[usize]) {
    let network = listed(offsets, rows);
    let mut workspace = Workspace::new();
    let (mut cameras, mut points, mut out) = ([FIVE; 4], [FIVE; 3], [7.0; 12]);
    let error = Error::PointLists;
    for route in ROUTES {
        let outcome = solve_into(
            &network,
            &mut workspace,
            route,
            48,
            &mut cameras,
            &mut points,
        );
        assert_eq!(outcome, Err(error));
        assert_eq!((cameras, points), ([FIVE; 4], [FIVE; 3]));
    }
    for call in [dots_into, scales_into] {
        let outcome = call(&network, &mut workspace, &CAMERAS, &mut out);
        assert_eq!((outcome, out), (Err(error), [7.0; 12]));
    }
    assert_eq!((error.number(), error.place()), (6, 0));
    let words = "the point lists do not name every bearing once, under its own point";
    assert_eq!(error.to_string(), words);
    assert_eq!(is_connected(&network, &mut workspace), Ok(true));
    assert_eq!(parts(&network, &mut workspace).unwrap().count, 1);
    assert_eq!(write_image(&network), write_image(&survey()));
    // nothing stays behind in the workspace
    let fine = solve(&survey(), &mut workspace, Route::Dense, 48);
    assert_eq!(
        fine,
        solve(&survey(), &mut Workspace::new(), Route::Dense, 48)
    );
}

#[test]
fn refused_rows() {
    let with = |place: usize, row: usize| {
        let mut rows = ASCENDING;
        rows[place] = row;
        refused(&OFFSETS, &rows);
    };
    // named twice, side by side and apart, so that another is missing
    with(1, 0);
    with(2, 0);
    with(3, 0);
    with(0, 8);
    with(10, 2);
    // a bearing of another point
    with(3, 1);
    with(4, 10);
    // a direction, and no row at all
    with(6, 11);
    with(6, 12);
    with(0, usize::MAX);
    let exchanged = |a: usize, b: usize| {
        let mut rows = ASCENDING;
        rows.swap(a, b);
        refused(&OFFSETS, &rows);
    };
    // each bearing once, but two under each other's point
    exchanged(3, 4);
    exchanged(0, 10);
}

#[test]
fn refused_offsets() {
    for offsets in [
        [1, 4, 7, 11],
        [0, 4, 7, 10],
        [0, 4, 7, 12],
        [0, 7, 4, 11],
        [0, 3, 7, 11],
        [0, 4, 8, 11],
        [0, 12, 12, 11],
        [0, usize::MAX, 7, 11],
        [0, 4, 7, usize::MAX],
        [11, 7, 4, 0],
    ] {
        refused(&offsets, &ASCENDING);
    }
}

#[test]
fn lengths() {
    let mut network = survey();
    let set = |network: &mut Network, offsets: usize, rows: usize| {
        network.set_lists(&vec![0; offsets], &vec![0; rows])
    };
    for short_or_long in [0, 3, 5] {
        let wrong = length("offsets", 4, short_or_long);
        assert_eq!(set(&mut network, short_or_long, 11), Err(wrong));
    }
    for short_or_long in [0, 10, 12] {
        let wrong = length("rows", 11, short_or_long);
        assert_eq!(set(&mut network, 4, short_or_long), Err(wrong));
    }
    assert_eq!(network, survey());
}
