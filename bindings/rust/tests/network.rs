//! Making networks: the builder, lent rows, refusals by 1 to 5 and 7, and setting numbers anew.

mod common;

use common::{FIVE, X, Z, length, network};
use vobzeile::{
    Bearing, Counts, Direction, Error, MAX_BEARINGS, MAX_CAMERAS, MAX_DENSE_LIMIT, MAX_DIRECTIONS,
    MAX_POINTS, Network, NetworkBuilder, Route, Row, Workspace, dots, solve, work_length,
};

fn bearing(camera: usize, point: usize) -> Bearing {
    Bearing {
        camera,
        point,
        ray: Z,
        weight: 1.0,
        scale: 1.0,
    }
}

fn direction(source: usize, target: usize) -> Direction {
    Direction {
        source,
        target,
        direction: X,
        weight: 2.0,
        scale: 0.5,
    }
}

/// Three cameras, two points, rows pushed in a mixed order.
fn mixed() -> NetworkBuilder {
    let mut builder = Network::builder(3);
    builder
        .push_bearing(bearing(0, 1))
        .push_direction(direction(0, 1))
        .push_bearing(bearing(1, 0))
        .push_point(FIVE)
        .push_bearing(bearing(2, 1))
        .push_direction(direction(2, 1))
        .push_point(Z);
    builder
}

#[test]
fn rows_in_order() {
    let network = mixed().build().unwrap();
    let counts = Counts {
        cameras: 3,
        points: 2,
        bearings: 3,
        directions: 2,
    };
    assert_eq!((network.counts(), counts.rows()), (counts, 5));
    assert_eq!(network.ends(), [[0, 1], [1, 0], [2, 1], [0, 1], [2, 1]]);
    assert_eq!(network.rays(), [Z, Z, Z, X, X]);
    assert_eq!(network.weights(), [1.0, 1.0, 1.0, 2.0, 2.0]);
    assert_eq!(network.scales(), [1.0, 1.0, 1.0, 0.5, 0.5]);
    assert_eq!(network.points(), [FIVE, Z]);
    assert_eq!(network.point_bearings(0), [1]);
    assert_eq!(network.point_bearings(1), [0, 2]);
    let bearings: Vec<Bearing> = network.bearings().collect();
    assert_eq!(bearings, [bearing(0, 1), bearing(1, 0), bearing(2, 1)]);
    let directions: Vec<Direction> = network.directions().collect();
    assert_eq!(directions, [direction(0, 1), direction(2, 1)]);
}

#[test]
fn lent_and_owned() {
    let built = mixed().build().unwrap();
    let (ends, rays) = (built.ends().to_vec(), built.rays().to_vec());
    let (weights, scales) = (built.weights().to_vec(), built.scales().to_vec());
    let points = built.points().to_vec();
    let mut lent = Network::new(3, 3, &ends, &rays, &weights, &scales, &points).unwrap();
    assert_eq!(lent, built);
    // the lender's numbers stay when others are set
    lent.set_scales(&[4.0; 5]).unwrap();
    assert_eq!((lent.scales(), scales[0]), (&[4.0; 5][..], 1.0));
    let mut workspace = Workspace::new();
    assert!(solve(&lent, &mut workspace, Route::Dense, 2).is_ok());
    let owned = {
        let short_lived = ends.clone();
        let lent = Network::new(3, 3, &short_lived, rays, weights, scales, points).unwrap();
        lent.into_owned()
    };
    assert_eq!(owned, built);
}

#[test]
fn empty_but_for_a_camera() {
    let network = Network::builder(1).build().unwrap();
    let placement = solve(&network, &mut Workspace::new(), Route::Dense, 0).unwrap();
    assert_eq!(
        (placement.cameras, placement.points),
        (vec![[0.0; 3]], vec![])
    );
    let mut workspace = Workspace::new();
    assert_eq!(dots(&network, &mut workspace, &[[1.0; 3]]).unwrap(), []);
}

#[track_caller]
fn refused(builder: &NetworkBuilder, error: Error, words: &str) {
    assert_eq!(builder.build(), Err(error));
    assert_eq!(error.to_string(), words);
}

#[test]
fn camera_count() {
    let words = "no camera, or over 4096 cameras";
    for cameras in [0, 4097, usize::MAX] {
        refused(&Network::builder(cameras), Error::CameraCount, words);
    }
    assert!(Network::builder(4096).build().is_ok());
}

#[test]
fn row_count() {
    let words = "over 65536 points, 262144 bearings or 65536 directions";
    let mut builder = Network::builder(2);
    for _ in 0..65536 {
        builder.push_point(FIVE);
        builder.push_direction(direction(0, 1));
    }
    assert!(builder.build().is_ok());
    refused(builder.clone().push_point(FIVE), Error::RowCount, words);
    let more = direction(0, 1);
    refused(builder.clone().push_direction(more), Error::RowCount, words);
    for _ in 0..262144 {
        builder.push_bearing(bearing(1, 65535));
    }
    assert!(builder.build().is_ok());
    refused(builder.push_bearing(bearing(0, 0)), Error::RowCount, words);
}

/// The constants are the library's own limits.
#[test]
fn limits() {
    let counts = Counts {
        cameras: MAX_CAMERAS,
        points: MAX_POINTS,
        bearings: MAX_BEARINGS,
        directions: MAX_DIRECTIONS,
    };
    let length = |counts| work_length(counts, Route::Iterative, MAX_DENSE_LIMIT);
    let rows = MAX_BEARINGS + MAX_DIRECTIONS;
    assert_eq!(length(counts), Ok(24 * MAX_CAMERAS + 4 * MAX_POINTS + rows));
    let mut more = [counts; 4];
    more[0].cameras += 1;
    more[1].points += 1;
    more[2].bearings += 1;
    more[3].directions += 1;
    let refused = more.map(|counts| length(counts).unwrap_err().number());
    assert_eq!(refused, [1, 2, 2, 2]);
    let network = mixed().build().unwrap();
    let run = |limit| solve(&network, &mut Workspace::new(), Route::Dense, limit).map(|_| ());
    assert_eq!(run(MAX_DENSE_LIMIT), Ok(()));
    assert_eq!(run(MAX_DENSE_LIMIT + 1), Err(Error::Route));
}

#[test]
fn lengths() {
    let new = |bearings: usize, ends: usize, rays: usize, weights: usize, scales: usize| {
        Network::new(
            2,
            bearings,
            vec![[0, 1]; ends],
            vec![X; rays],
            vec![1.0; weights],
            vec![1.0; scales],
            vec![FIVE, FIVE],
        )
        .map(|network| network.counts())
    };
    let counts = Counts {
        cameras: 2,
        points: 2,
        bearings: 1,
        directions: 2,
    };
    assert_eq!(new(1, 3, 3, 3, 3), Ok(counts));
    assert_eq!(new(1, 3, 2, 3, 3), Err(length("rays", 3, 2)));
    assert_eq!(new(1, 3, 3, 4, 3), Err(length("weights", 3, 4)));
    assert_eq!(new(1, 3, 3, 3, 0), Err(length("scales", 3, 0)));
    // more bearings than rows
    assert_eq!(new(4, 3, 3, 3, 3), Err(length("ends", 4, 3)));
    assert_eq!(new(262144, 3, 3, 3, 3), Err(length("ends", 262144, 3)));
    assert_eq!(new(usize::MAX, 3, 3, 3, 3), Err(Error::RowCount));
    assert_eq!(new(1, 0, 0, 0, 0), Err(length("ends", 1, 0)));
}

#[test]
fn out_of_range() {
    let words = "bearing 3: camera or point out of range";
    let row = Row::Bearing(3);
    let error = Error::OutOfRange { row, place: 3 };
    for (camera, point) in [(3, 0), (0, 2), (usize::MAX, 0), (0, usize::MAX)] {
        refused(mixed().push_bearing(bearing(camera, point)), error, words);
    }
    let words = "direction 2: source or target out of range";
    let row = Row::Direction(2);
    let error = Error::OutOfRange { row, place: 5 };
    for (source, target) in [(3, 0), (0, 3)] {
        refused(
            mixed().push_direction(direction(source, target)),
            error,
            words,
        );
    }
}

#[test]
fn self_loop() {
    let error = Error::SelfLoop {
        direction: 2,
        place: 5,
    };
    let words = "direction 2: source = target";
    refused(mixed().push_direction(direction(2, 2)), error, words);
}

#[test]
fn outside_the_domain() {
    let bad = [f64::NAN, f64::INFINITY, f64::NEG_INFINITY];
    let row = Row::Bearing(3);
    let error = Error::OutsideDomain { row, place: 3 };
    let words = "bearing 3: weight, scale or ray outside the domain";
    let fine = bearing(0, 0);
    for number in bad.into_iter().chain([-1.0]) {
        let row = Bearing {
            weight: number,
            ..fine
        };
        refused(mixed().push_bearing(row), error, words);
    }
    for number in bad.into_iter().chain([0.0, -0.0, -1.0]) {
        let row = Bearing {
            scale: number,
            ..fine
        };
        refused(mixed().push_bearing(row), error, words);
    }
    for number in bad {
        for component in 0..3 {
            let mut row = fine;
            row.ray[component] = number;
            refused(mixed().push_bearing(row), error, words);
        }
        let row = Direction {
            direction: [0.0, number, 0.0],
            ..direction(0, 1)
        };
        let error = Error::OutsideDomain {
            row: Row::Direction(2),
            place: 5,
        };
        let words = "direction 2: weight, scale or direction outside the domain";
        refused(mixed().push_direction(row), error, words);
        let error = Error::OutsideDomain {
            row: Row::Point(2),
            place: 7,
        };
        let words = "point 2: position outside the domain";
        refused(mixed().push_point([0.0, 0.0, number]), error, words);
    }
}

/// What is set anew is tested by the next call.
#[test]
fn set_anew() {
    let mut network = network(2, &[(1, 0, Z, 1.0, 1.0)], &[(0, 1, X, 1.0, 1.0)], &[FIVE]);
    assert_eq!(network.set_weights(&[1.0]), Err(length("weights", 2, 1)));
    assert_eq!(network.set_scales(&[]), Err(length("scales", 2, 0)));
    let wrong = length("points", 1, 2);
    assert_eq!(network.set_points(&[FIVE, FIVE]), Err(wrong));
    assert_eq!(wrong.to_string(), "points: length 2, expected 1");
    let before = network.clone();
    let refusal = |network: &Network| {
        let mut workspace = Workspace::new();
        let refused = solve(network, &mut workspace, Route::Dense, 1).unwrap_err();
        let at = [[0.0; 3]; 2];
        assert_eq!(dots(network, &mut workspace, &at), Err(refused));
        assert_eq!(vobzeile::write_image(network), Err(refused));
        refused.to_string()
    };
    network.set_weights(&[1.0, f64::NAN]).unwrap();
    let words = "direction 0: weight, scale or direction outside the domain";
    assert_eq!(refusal(&network), words);
    network.set_scales(&[0.0, 1.0]).unwrap();
    let words = "bearing 0: weight, scale or ray outside the domain";
    assert_eq!(refusal(&network), words);
    network.set_weights(before.weights()).unwrap();
    network.set_scales(before.scales()).unwrap();
    network.set_points(&[[f64::INFINITY; 3]]).unwrap();
    assert_eq!(refusal(&network), "point 0: position outside the domain");
    network.set_points(before.points()).unwrap();
    assert_eq!(network, before);
}
