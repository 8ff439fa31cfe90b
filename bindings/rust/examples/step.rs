//! Whole steps of the kernel's alternation, as its `solve_into` has them: solve, dots, gauge, scales, and again with the new scales until
//! the cameras settle. The route is the kernel's own choice, and so is what counts in the gauge. Weights stay the base weights, 1; the
//! robust rule and the polish are the caller's.

use vobzeile::{
    Bearing, Direction, Error, MAX_DENSE_LIMIT, Network, Route, Workspace, dots_into, is_connected,
    scales_into, solve_into,
};

/// The kernel's `DENSE_DIRECT_MAX_CAMERAS`.
const DENSE_DIRECT_MAX_CAMERAS: usize = 256;

/// The route that stands for the kernel's `solve_reduced`: dense up to 256 cameras, else iterative with a dense fallback.
fn kernel_route(cameras: usize) -> Route {
    if cameras <= DENSE_DIRECT_MAX_CAMERAS {
        Route::Dense
    } else {
        Route::IterativeThenDense
    }
}

type Vector = [f64; 3];

fn minus(a: Vector, b: Vector) -> Vector {
    [a[0] - b[0], a[1] - b[1], a[2] - b[2]]
}

fn norm(v: Vector) -> f64 {
    (v[0] * v[0] + v[1] * v[1] + v[2] * v[2]).sqrt()
}

fn scaled(v: Vector, by: f64) -> Vector {
    v.map(|number| number * by)
}

fn unit(v: Vector) -> Vector {
    scaled(v, 1.0 / norm(v))
}

/// A small generator of numbers from -1 to 1.
struct Random(u64);

impl Random {
    fn next(&mut self) -> f64 {
        self.0 = self
            .0
            .wrapping_mul(6364136223846793005)
            .wrapping_add(1442695040888963407);
        (self.0 >> 11) as f64 / (1u64 << 52) as f64 - 1.0
    }

    fn vector(&mut self) -> Vector {
        [self.next(), self.next(), self.next()]
    }
}

/// A strip of photographs: cameras in two rows above a quarry, each seeing the points below it, and directions between neighbours.
fn strip(random: &mut Random) -> Result<(Network<'static>, Vec<Vector>), Error> {
    let camera = |i: usize| [(i / 2) as f64, 1.5 * (i % 2) as f64, 4.0];
    let cameras: Vec<Vector> = (0..24).map(camera).collect();
    let mut builder = Network::builder(cameras.len());
    for point in 0..160 {
        let along = 11.0 * (point as f64 + 0.5) / 160.0;
        let [x, y, z] = random.vector();
        let position = [along + 0.5 * x, 0.75 + 1.5 * y, 0.8 * z];
        // the step starts from nowhere
        builder.push_point(random.vector());
        for (number, &camera) in cameras.iter().enumerate() {
            if (camera[0] - along).abs() < 1.6 {
                builder.push_bearing(Bearing {
                    camera: number,
                    point,
                    ray: unit(minus(position, camera)),
                    weight: 1.0,
                    scale: 1.0,
                });
            }
        }
    }
    for source in 0..cameras.len() - 2 {
        for target in [source + 1, source + 2] {
            builder.push_direction(Direction {
                source,
                target,
                direction: unit(minus(cameras[target], cameras[source])),
                weight: 1.0,
                scale: 1.0,
            });
        }
    }
    Ok((builder.build()?, cameras))
}

/// `normalize_trial_gauge`: the median depth becomes 1, over the bearings that keep more than half their base weight and whose point lies
/// in front; where there are none, over such directions.
fn normalize_gauge(
    network: &Network,
    base_weights: &[f64],
    dots: &[f64],
    cameras: &mut [Vector],
    points: &mut [Vector],
) -> f64 {
    let weights = network.weights();
    let counts_in = |row: usize| weights[row] > 0.5 * base_weights[row] && dots[row] > 0.0;
    let bearings = network.bearings().enumerate();
    let mut depths: Vec<f64> = bearings
        .filter(|(row, _)| counts_in(*row))
        .map(|(_, sight)| norm(minus(points[sight.point], cameras[sight.camera])))
        .collect();
    if depths.is_empty() {
        let first = network.counts().bearings;
        let directions = network.directions().enumerate();
        depths = directions
            .filter(|(row, _)| counts_in(first + row))
            .map(|(_, edge)| norm(minus(cameras[edge.target], cameras[edge.source])))
            .collect();
    }
    depths.sort_unstable_by(f64::total_cmp);
    let depth = depths.get(depths.len() / 2).copied().unwrap_or(1.0);
    if depth > 1e-12 {
        for position in cameras.iter_mut().chain(points) {
            *position = scaled(*position, 1.0 / depth);
        }
    }
    depth
}

fn centred(positions: &[Vector]) -> Vec<Vector> {
    let mut sum = [0.0; 3];
    for position in positions {
        sum = minus(sum, scaled(*position, -1.0));
    }
    let centroid = scaled(sum, 1.0 / positions.len() as f64);
    positions
        .iter()
        .map(|position| minus(*position, centroid))
        .collect()
}

/// `gauge_aligned_displacement`: the largest way of a camera, the centroids apart.
fn displacement(current: &[Vector], trial: &[Vector]) -> f64 {
    let ways = centred(current).into_iter().zip(centred(trial));
    ways.map(|(a, b)| norm(minus(b, a))).fold(0.0, f64::max)
}

/// How far the cameras are from the true ones, once both have their centroid at 0 and the same size.
fn error(cameras: &[Vector], truth: &[Vector]) -> f64 {
    let of_unit_size = |positions: &[Vector]| -> Vec<Vector> {
        let positions = centred(positions);
        let squares = positions.iter().flatten().map(|number| number * number);
        let size = squares.sum::<f64>().sqrt();
        positions
            .into_iter()
            .map(|p| scaled(p, 1.0 / size))
            .collect()
    };
    displacement(&of_unit_size(cameras), &of_unit_size(truth))
}

fn main() -> Result<(), Error> {
    let (mut network, truth) = strip(&mut Random(42))?;
    let counts = network.counts();
    let base_weights = network.weights().to_vec();
    let route = kernel_route(counts.cameras);
    let limit = MAX_DENSE_LIMIT;
    let mut workspace = Workspace::for_network(&network, route, limit)?;
    assert!(is_connected(&network, &mut workspace)?);

    let mut current = vec![[0.0; 3]; counts.cameras];
    let mut cameras = vec![[0.0; 3]; counts.cameras];
    let mut points = vec![[0.0; 3]; counts.points];
    let mut numbers = vec![0.0; counts.rows()];
    println!(
        "{} cameras, {} points, {} bearings, {} directions",
        counts.cameras, counts.points, counts.bearings, counts.directions
    );
    for step in 1..=100 {
        let report = solve_into(
            &network,
            &mut workspace,
            route,
            limit,
            &mut cameras,
            &mut points,
        )?;
        network.set_points(&points)?;
        dots_into(&network, &mut workspace, &cameras, &mut numbers)?;
        let depth = normalize_gauge(&network, &base_weights, &numbers, &mut cameras, &mut points);
        network.set_points(&points)?;
        scales_into(&network, &mut workspace, &cameras, &mut numbers)?;
        network.set_scales(&numbers)?;
        let way = displacement(&current, &cameras);
        current.copy_from_slice(&cameras);
        if step <= 5 || step % 20 == 0 || way < 1e-4 {
            println!(
                "step {step}: anchor {}, route {}, rounds {}, depth {depth:.6}, moved {way:.2e}, off {:.2e}",
                report.anchor,
                report.route.number(),
                report.rounds,
                error(&cameras, &truth)
            );
        }
        if way < 1e-4 {
            break;
        }
    }
    Ok(())
}
