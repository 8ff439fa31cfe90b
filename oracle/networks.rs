//! Networks of every kind, each from a seed and a number, the same on every run. (Powers of ten are the platform's `pow`: another
//! library may draw other last bits, and so meet a rare class at another number.)

use std::collections::BTreeSet;

/// A network that owns its slices, in the port's layout.
#[derive(Clone, Debug, Default)]
pub struct Network {
    pub n: usize,
    pub m: usize,
    pub b: usize,
    pub e: usize,
    pub ends: Vec<usize>,
    pub rays: Vec<f64>,
    pub weights: Vec<f64>,
    pub scales: Vec<f64>,
    pub points: Vec<f64>,
    pub offsets: Vec<usize>,
    pub rows: Vec<usize>,
}

impl Network {
    pub fn view(&self) -> oracle::Network<'_> {
        oracle::Network {
            n: self.n,
            m: self.m,
            b: self.b,
            e: self.e,
            ends: &self.ends,
            rays: &self.rays,
            weights: &self.weights,
            scales: &self.scales,
            points: &self.points,
            offsets: &self.offsets,
            rows: &self.rows,
        }
    }

    /// The same network, each point's list in an order drawn at random.
    pub fn shuffled(mut self, random: &mut Random) -> Self {
        for ends in self.offsets.windows(2) {
            random.shuffle(&mut self.rows[ends[0]..ends[1]]);
        }
        self
    }
}

/// A network with the route and dense limit to solve it by, and camera positions to form dots and scales from.
#[derive(Clone, Debug)]
pub struct Case {
    pub kind: &'static str,
    pub net: Network,
    pub route: usize,
    pub limit: usize,
    /// 3n.
    pub cameras: Vec<f64>,
}

/// xorshift64*, its state mixed from a seed and a number.
pub struct Random(u64);

impl Random {
    pub fn new(seed: u64, number: u64) -> Self {
        let mix = |mut x: u64| {
            x = (x ^ (x >> 30)).wrapping_mul(0xbf58476d1ce4e5b9);
            x = (x ^ (x >> 27)).wrapping_mul(0x94d049bb133111eb);
            x ^ (x >> 31)
        };
        let state = mix(mix(seed.wrapping_add(0x9e3779b97f4a7c15)).wrapping_add(number.wrapping_mul(0x9e3779b97f4a7c15)));
        Self(if state == 0 { 1 } else { state })
    }

    pub fn next(&mut self) -> u64 {
        self.0 ^= self.0 >> 12;
        self.0 ^= self.0 << 25;
        self.0 ^= self.0 >> 27;
        self.0.wrapping_mul(0x2545f4914f6cdd1d)
    }

    /// 0 to n-1.
    pub fn below(&mut self, n: usize) -> usize {
        ((self.next() >> 32) * n as u64 >> 32) as usize
    }

    /// From low to high, both included.
    pub fn among(&mut self, low: usize, high: usize) -> usize {
        low + self.below(high - low + 1)
    }

    pub fn chance(&mut self, percent: usize) -> bool {
        self.below(100) < percent
    }

    /// In [0, 1).
    pub fn unit(&mut self) -> f64 {
        (self.next() >> 11) as f64 / (1u64 << 53) as f64
    }

    pub fn within(&mut self, low: f64, high: f64) -> f64 {
        low + (high - low) * self.unit()
    }

    /// A power of ten, its exponent spread evenly.
    pub fn decade(&mut self, low: f64, high: f64) -> f64 {
        10f64.powf(self.within(low, high))
    }

    pub fn pick<T: Copy>(&mut self, choices: &[T]) -> T {
        choices[self.below(choices.len())]
    }

    pub fn vector(&mut self, size: f64) -> [f64; 3] {
        [self.within(-size, size), self.within(-size, size), self.within(-size, size)]
    }

    pub fn shuffle<T>(&mut self, items: &mut [T]) {
        for index in (1..items.len()).rev() {
            items.swap(index, self.below(index + 1));
        }
    }
}

/// Rows before they are laid out.
#[derive(Clone, Copy, Debug)]
pub struct Row {
    pub first: usize,
    pub second: usize,
    pub ray: [f64; 3],
    pub weight: f64,
    pub scale: f64,
}

/// Lays out bearings, directions and old points, and lists each point's bearings, ascending.
pub fn lay_out(n: usize, bearings: &[Row], directions: &[Row], points: &[[f64; 3]]) -> Network {
    let rows: Vec<Row> = bearings.iter().chain(directions).copied().collect();
    let (m, b) = (points.len(), bearings.len());
    let mut offsets = vec![0; m + 1];
    for row in bearings {
        offsets[row.second + 1] += 1;
    }
    for point in 0..m {
        offsets[point + 1] += offsets[point];
    }
    let mut next = offsets.clone();
    let mut listed = vec![0; b];
    for (index, row) in bearings.iter().enumerate() {
        listed[next[row.second]] = index;
        next[row.second] += 1;
    }
    Network {
        n,
        m,
        b,
        e: directions.len(),
        ends: rows.iter().flat_map(|r| [r.first, r.second]).collect(),
        rays: rows.iter().flat_map(|r| r.ray).collect(),
        weights: rows.iter().map(|r| r.weight).collect(),
        scales: rows.iter().map(|r| r.scale).collect(),
        points: points.iter().flatten().copied().collect(),
        offsets,
        rows: listed,
    }
}

fn up(x: f64) -> f64 {
    f64::from_bits(x.to_bits() + 1)
}

fn down(x: f64) -> f64 {
    f64::from_bits(x.to_bits() - 1)
}

fn minus(a: [f64; 3], b: [f64; 3]) -> [f64; 3] {
    [a[0] - b[0], a[1] - b[1], a[2] - b[2]]
}

fn length(v: [f64; 3]) -> f64 {
    (v[0] * v[0] + v[1] * v[1] + v[2] * v[2]).sqrt()
}

/// How rows see each other.
#[derive(Clone, Copy, PartialEq)]
enum Sight {
    /// Unit rays between true positions, a little off, and scales near one over the distance.
    True,
    /// Unit rays along an axis: two components are zero all through.
    Axis,
    /// Small whole numbers, for ties and exact sums.
    Whole,
    /// Any length from 1e-300 to 1e300, each row its own.
    Wild,
    /// Long rays of one length.
    Long(f64),
}

#[derive(Clone, Copy)]
enum Weighing {
    One,
    Ordinary,
    Whole,
    /// Around the 1e-12 of document 01.
    Tiny,
    /// 10 to the plus or minus k.
    Spread(f64),
    /// Some power of ten times about 1.
    Around(f64),
}

#[derive(Clone, Copy)]
enum Scaling {
    /// One over the distance.
    Depth,
    One,
    Spread(f64),
    /// So that the effective weight is ordinary.
    Matched,
}

/// What a random network is made by.
struct Style {
    sight: Sight,
    weighing: Weighing,
    scaling: Scaling,
    /// Percent of rows with weight 0 (or -0).
    zeros: usize,
}

struct Maker<'r> {
    random: &'r mut Random,
    style: Style,
    cameras: Vec<[f64; 3]>,
    points: Vec<[f64; 3]>,
    bearings: Vec<Row>,
    directions: Vec<Row>,
}

impl<'r> Maker<'r> {
    fn new(random: &'r mut Random, style: Style, cameras: Vec<[f64; 3]>, points: Vec<[f64; 3]>) -> Self {
        Self { random, style, cameras, points, bearings: Vec::new(), directions: Vec::new() }
    }

    fn row(&mut self, first: usize, second: usize, from: [f64; 3], to: [f64; 3]) -> Row {
        let r = &mut *self.random;
        let between = minus(to, from);
        let distance = length(between).max(1e-3);
        let ray = match self.style.sight {
            Sight::True => {
                let off = if r.chance(20) { [0.0; 3] } else { r.vector(0.02) };
                [0, 1, 2].map(|k| between[k] / distance + off[k])
            }
            Sight::Axis => r.pick(&[[0.0, 0.0, 1.0], [1.0, 0.0, 0.0], [0.0, -1.0, 0.0], [0.0, 0.0, -0.0]]),
            Sight::Whole => [0; 3].map(|_| r.among(0, 6) as f64 - 3.0),
            Sight::Wild => {
                let size = r.decade(-300.0, 300.0);
                r.vector(size)
            }
            Sight::Long(size) => r.vector(size),
        };
        let mut weight = match self.style.weighing {
            Weighing::One => 1.0,
            Weighing::Ordinary => r.within(0.1, 10.0),
            Weighing::Whole => r.among(0, 4) as f64,
            Weighing::Tiny => {
                let t = 1e-12;
                r.pick(&[t, up(t), down(t), t / 2.0, t / 3.0, t / 4.0, up(t / 2.0), down(t / 2.0), 2.0 * t, 0.9 * t, 1e-14, 1.0, 0.0])
            }
            Weighing::Spread(k) => r.decade(-k, k),
            Weighing::Around(k) => r.decade(k - 1.0, k + 1.0),
        };
        let scale = match self.style.scaling {
            Scaling::Depth => r.within(0.9, 1.1) / distance,
            Scaling::One => 1.0,
            Scaling::Spread(k) => r.decade(-k, k),
            Scaling::Matched => {
                let s = (r.within(0.5, 2.0) / weight).sqrt();
                if s.is_finite() && s > 0.0 { s } else { 1.0 }
            }
        };
        if r.chance(self.style.zeros) {
            weight = if r.chance(10) { -0.0 } else { 0.0 };
        }
        Row { first, second, ray, weight, scale }
    }

    fn bearing(&mut self, camera: usize, point: usize) {
        let row = self.row(camera, point, self.cameras[camera], self.points[point]);
        self.bearings.push(row);
    }

    fn direction(&mut self, source: usize, target: usize) {
        let row = self.row(source, target, self.cameras[source], self.cameras[target]);
        self.directions.push(row);
    }

    /// Point p of m is seen by some of the cameras low..high.
    fn sights(&mut self, low: usize, high: usize, points: std::ops::Range<usize>, most: usize, twice: usize) {
        for point in points {
            let count = self.random.among(1, most.min(high - low).max(1));
            let mut seen: Vec<usize> = Vec::new();
            for _ in 0..count {
                let camera = self.random.among(low, high - 1);
                if !seen.contains(&camera) || self.random.chance(twice) {
                    seen.push(camera);
                    self.bearing(camera, point);
                }
            }
        }
    }

    /// Points along a strip, each seen by cameras that follow one another.
    fn strip_sights(&mut self, points: usize, reach: usize) {
        let n = self.cameras.len();
        for point in 0..points {
            let start = point * n / points.max(1);
            let end = (start + self.random.among(2, reach)).min(n);
            for camera in start..end {
                self.bearing(camera, point);
            }
        }
    }

    fn ties(&mut self, low: usize, high: usize, count: usize) {
        if high - low < 2 {
            return;
        }
        for _ in 0..count {
            let source = self.random.among(low, high - 1);
            let target = low + (source - low + self.random.among(1, high - low - 1)) % (high - low);
            self.direction(source, target);
        }
    }

    fn chain(&mut self, low: usize, high: usize) {
        for camera in low + 1..high {
            if self.random.chance(50) { self.direction(camera - 1, camera) } else { self.direction(camera, camera - 1) }
        }
    }

    /// The rows as they are, or out of order and some of them twice.
    fn finish(mut self, shuffled: bool, twice: usize) -> Network {
        for rows in [&mut self.bearings, &mut self.directions] {
            for index in 0..rows.len() {
                if self.random.chance(twice) {
                    let row = rows[index];
                    rows.push(row);
                }
            }
            if shuffled {
                self.random.shuffle(rows);
            }
        }
        let old: Vec<[f64; 3]> = (0..self.points.len())
            .map(|p| if self.random.chance(80) { self.points[p] } else { self.random.vector(10.0) })
            .collect();
        lay_out(self.cameras.len(), &self.bearings, &self.directions, &old)
    }
}

fn size(r: &mut Random) -> usize {
    match r.below(100) {
        0..4 => 1,
        4..16 => 2,
        16..28 => 3,
        28..50 => r.among(4, 6),
        50..80 => r.among(7, 16),
        80..95 => r.among(17, 40),
        _ => r.among(41, 64),
    }
}

fn cloud(r: &mut Random, count: usize, size: f64) -> Vec<[f64; 3]> {
    (0..count).map(|_| r.vector(size)).collect()
}

fn line(r: &mut Random, count: usize) -> Vec<[f64; 3]> {
    (0..count).map(|i| [i as f64 + r.within(-0.1, 0.1), r.within(-0.1, 0.1), r.within(-0.1, 0.1)]).collect()
}

fn style(r: &mut Random) -> Style {
    let sight = match r.below(10) {
        0..5 => Sight::True,
        5 => Sight::Axis,
        6 => Sight::Whole,
        7 => Sight::Wild,
        8 => Sight::Long(r.decade(-20.0, 20.0)),
        _ => Sight::Long(r.decade(-160.0, 160.0)),
    };
    let weighing = match r.below(12) {
        0 => Weighing::One,
        1..4 => Weighing::Ordinary,
        4 => Weighing::Whole,
        5..7 => Weighing::Tiny,
        7 => Weighing::Spread(3.0),
        8 => Weighing::Spread(10.0),
        9 => Weighing::Spread(300.0),
        10 => Weighing::Around(r.within(-20.0, 20.0)),
        _ => Weighing::Around(r.within(-299.0, 299.0)),
    };
    let scaling = match r.below(6) {
        0 => Scaling::Depth,
        1..3 => Scaling::One,
        3 => Scaling::Spread(r.pick(&[1.0, 5.0, 150.0, 300.0])),
        _ => Scaling::Matched,
    };
    let zeros = r.pick(&[0, 0, 0, 5, 30, 100]);
    Style { sight, weighing, scaling, zeros }
}

fn healthy(r: &mut Random) -> Style {
    Style {
        sight: Sight::True,
        weighing: if r.chance(50) { Weighing::One } else { Weighing::Ordinary },
        scaling: if r.chance(70) { Scaling::Depth } else { Scaling::One },
        zeros: 0,
    }
}

/// An ordinary block: points around cameras, sometimes directions.
fn block(r: &mut Random) -> Network {
    let n = size(r);
    let m = r.among(1, 3 * n);
    let cameras = cloud(r, n, 5.0);
    let points = cloud(r, m, 8.0);
    let style = healthy(r);
    let ties = if r.chance(50) { r.among(0, 2 * n) } else { 0 };
    let shuffled = r.chance(50);
    let mut maker = Maker::new(r, style, cameras, points);
    maker.sights(0, n, 0..m, 5, 0);
    maker.ties(0, n, ties);
    maker.finish(shuffled, 0)
}

/// An ordinary strip.
fn strip(r: &mut Random) -> Network {
    let n = size(r).max(2);
    let m = r.among(n, 3 * n);
    let cameras = line(r, n);
    let points: Vec<[f64; 3]> = (0..m).map(|p| [p as f64 * n as f64 / m as f64, r.within(-1.0, 1.0), r.within(2.0, 4.0)]).collect();
    let style = healthy(r);
    let chained = r.chance(50);
    let mut maker = Maker::new(r, style, cameras, points);
    maker.strip_sights(m, 4);
    if chained {
        maker.chain(0, n);
    }
    maker.finish(false, 0)
}

/// Any rows, any numbers: duplicates, a camera twice under a point, empty families.
fn anything(r: &mut Random) -> Network {
    let n = size(r);
    let m = if r.chance(10) { 0 } else { r.among(1, 2 * n) };
    let cameras = cloud(r, n, 5.0);
    let points = cloud(r, m, 5.0);
    let style = style(r);
    let (ties, shuffled) = (if r.chance(60) { r.among(0, 2 * n) } else { 0 }, r.chance(50));
    let (under, twice, most) = (r.pick(&[0, 0, 50, 100]), r.pick(&[0, 0, 20]), r.among(1, 6));
    let bare = r.chance(15);
    let mut maker = Maker::new(r, style, cameras, points);
    if !bare {
        maker.sights(0, n, 0..m, most, under);
    }
    maker.ties(0, n, ties);
    maker.finish(shuffled, twice)
}

/// Two to four parts without a tie, or with one of weight 0.
fn parted(r: &mut Random) -> Network {
    let n = size(r).max(2);
    let m = r.among(0, 2 * n);
    let cameras = cloud(r, n, 5.0);
    let points = cloud(r, m, 5.0);
    let style = if r.chance(50) { healthy(r) } else { style(r) };
    let parts = r.among(2, 4).min(n);
    let strong = if r.chance(40) { r.decade(6.0, 14.0) } else { 1.0 };
    let mut maker = Maker::new(r, style, cameras, points);
    for part in 0..parts {
        let (low, high) = (part * n / parts, (part + 1) * n / parts);
        maker.sights(low, high, part * m / parts..(part + 1) * m / parts, 4, 5);
        let ties = maker.random.among(0, high - low);
        maker.ties(low, high, ties);
        if maker.random.chance(50) {
            maker.chain(low, high);
        }
    }
    maker.ties(0, n, 2);
    let count = maker.directions.len();
    for row in maker.directions[count.saturating_sub(2)..].iter_mut() {
        row.weight = 0.0;
    }
    for row in maker.bearings.iter_mut().chain(&mut maker.directions) {
        if row.weight * strong < 1e308 {
            row.weight *= strong;
        }
    }
    maker.finish(false, 0)
}

/// A chain whose ties differ by many powers of ten, and rays that make up for it: a ray goes with the weight to the power -lean.
fn chain(r: &mut Random, n: usize, low: f64, high: f64, lean: f64) -> Network {
    let shuffled = r.chance(30);
    let directions: Vec<Row> = (1..n)
        .map(|camera| {
            let weight = r.decade(low, high);
            let pull = weight.powf(-lean);
            let ray = r.vector(1.0).map(|x| x * pull);
            let (first, second) = if shuffled && r.chance(50) { (camera, camera - 1) } else { (camera - 1, camera) };
            tie(first, second, ray, weight, 1.0)
        })
        .collect();
    lay_out(n, &[], &directions, &[])
}

/// A long strip whose ties differ by many powers of ten: the iterative route takes long, or gives up.
fn loose_strip(r: &mut Random) -> Network {
    let n = r.pick(&[3, 5, 8, 9, 10, 12, 16, 24, 40, 64]);
    let cameras = line(r, n);
    let m = if r.chance(50) { 0 } else { n };
    let points: Vec<[f64; 3]> = (0..m).map(|p| [p as f64, r.within(-1.0, 1.0), r.within(2.0, 4.0)]).collect();
    let k = r.within(2.0, 9.0);
    let sight = if r.chance(60) { Sight::True } else { Sight::Whole };
    let scaling = if r.chance(50) { Scaling::One } else { Scaling::Spread(k / 2.0) };
    let style = Style { sight, weighing: Weighing::Spread(k), scaling, zeros: 0 };
    let lean = r.pick(&[0.0, 0.5, 1.0]);
    let mut maker = Maker::new(r, style, cameras, points);
    maker.chain(0, n);
    if m > 0 {
        maker.strip_sights(m, 3);
    }
    for row in maker.bearings.iter_mut().chain(&mut maker.directions) {
        let pull = (row.weight * row.scale).powf(-lean);
        row.ray = row.ray.map(|x| x * pull);
    }
    maker.finish(false, 0)
}

/// Rays scaled so that `measure` of the assembled system comes near `aim` in some component; it goes with the square of the rays.
fn scaled(mut net: Network, aim: f64, measure: fn(&[f64; 5], usize) -> f64) -> Network {
    let system = oracle::system(&net.view());
    let greatest = (0..3)
        .map(|component| {
            let others = system.terms.iter().enumerate().filter(|(camera, _)| *camera != system.anchor);
            others.map(|(_, term)| measure(term, component)).sum::<f64>()
        })
        .fold(0.0, f64::max);
    let factor = aim.sqrt() / greatest.sqrt();
    if factor.is_finite() {
        for number in &mut net.rays {
            let next = *number * factor;
            *number = if next.is_finite() { next } else { 1.0 };
        }
    }
    net
}

/// A chain whose first product is near the greatest double, so that the next one may pass it: 12 by overflow, 11 by infinity.
fn swelling(r: &mut Random) -> Network {
    let n = r.among(3, 9);
    let net = chain(r, n, -8.0, 2.0, 1.0);
    let aim = r.decade(306.5, 308.2);
    scaled(net, aim, |term, component| term[1 + component] * (term[1 + component] / (term[0] + 1e-6)))
}

/// A long chain whose right side is so small that the last test allows a few times what ends the rounds: accepted at the most rounds.
fn stalling(r: &mut Random) -> Network {
    let n = r.among(56, 64);
    let k = r.within(6.5, 7.5);
    let net = chain(r, n, -k, k, 0.5);
    let aim = r.decade(-5.0, -3.0);
    scaled(net, aim, |term, component| term[1 + component] * term[1 + component])
}

/// Rays so long that squares overflow on the way: 11 and 13 by overflow.
fn overflowing(r: &mut Random) -> Network {
    let n = r.among(2, 12);
    let cameras = line(r, n);
    let m = if r.chance(40) { 0 } else { n };
    let points = cloud(r, m, 3.0);
    let size = r.decade(140.0, 156.0);
    let k = r.within(1.0, 8.0);
    let style = Style {
        sight: Sight::Long(size),
        weighing: Weighing::Spread(k),
        scaling: Scaling::Spread(k / 2.0),
        zeros: 0,
    };
    let mut maker = Maker::new(r, style, cameras, points);
    maker.chain(0, n);
    if m > 0 {
        maker.strip_sights(m, 3);
    }
    maker.finish(false, 0)
}

fn tie(first: usize, second: usize, ray: [f64; 3], weight: f64, scale: f64) -> Row {
    Row { first, second, ray, weight, scale }
}

/// Strong ties whose right side is so small that products vanish: 12 by an old product of 0, and 11 by a curvature of 0.
fn vanishing(r: &mut Random) -> Network {
    let n = r.among(3, 6);
    let strong = r.decade(298.5, 301.0);
    // the right side is just above 1e-12, where a component still starts active
    let pull = r.within(0.5, 3.0) * 1e-12 / strong;
    let mut directions: Vec<Row> = Vec::new();
    for camera in 2..n {
        let turn = if r.chance(50) { pull } else { -pull };
        directions.push(tie(camera - 1, camera, [turn, if r.chance(50) { 0.0 } else { turn }, 0.0], strong, 1.0));
    }
    // camera 0 stands apart and is the anchor
    let bearings = [tie(0, 0, [0.0, 0.0, 1.0], strong * 8.0, 1.0)];
    lay_out(n, &bearings, &directions, &[[1.0, 2.0, 3.0]])
}

/// The right side overflows though the system does not: 13 by NaN or infinity, 17.
fn heavy_right_side(r: &mut Random) -> Network {
    let n = r.among(2, 8);
    let cameras = line(r, n);
    let m = if r.chance(50) { 0 } else { n };
    let points = cloud(r, m, 3.0);
    let size = r.decade(140.0, 300.0);
    let style = Style { sight: Sight::Long(size), weighing: Weighing::Around(r.within(0.0, 200.0)), scaling: Scaling::Matched, zeros: 0 };
    let mut maker = Maker::new(r, style, cameras, points);
    maker.chain(0, n);
    if m > 0 {
        maker.strip_sights(m, 3);
    }
    let mut net = maker.finish(false, 0);
    // some components only
    for component in 0..3 {
        if r.chance(30) {
            for row in 0..net.b + net.e {
                net.rays[3 * row + component] = 0.0;
            }
        }
    }
    net
}

/// Effective weights at the upper end: 9, 15 and 16.
fn overweight(r: &mut Random) -> Network {
    let n = r.among(2, 8);
    let m = r.among(1, n);
    let top = r.within(100.0, 308.0);
    let mut bearings = Vec::new();
    let mut directions = Vec::new();
    for point in 0..m {
        for _ in 0..r.among(1, 3) {
            bearings.push(tie(r.below(n), point, r.vector(1.0), r.decade(top - 10.0, top), 1.0));
        }
    }
    if r.chance(40) {
        for camera in 1..n {
            let scale = if r.chance(30) { 1e10 } else { 1.0 };
            directions.push(tie(camera - 1, camera, r.vector(1.0), r.decade(top - 10.0, top), scale));
        }
    }
    let points = cloud(r, m, 2.0);
    lay_out(n, &bearings, &directions, &points)
}

/// Cameras that are tied strongly to one another and weakly, or not at all, to the anchor: 11, 13 and 15.
fn adrift(r: &mut Random) -> Network {
    let n = r.among(3, 6);
    let strong = r.decade(4.0, 16.0);
    let mut directions = Vec::new();
    for camera in 2..n {
        directions.push(tie(camera - 1, camera, r.vector(1.0), strong * r.within(0.5, 2.0), 1.0));
    }
    if r.chance(50) {
        directions.push(tie(0, 1, r.vector(1.0), r.decade(-12.0, 2.0), 1.0));
    }
    let bearings = [tie(0, 0, [0.0, 0.0, 1.0], strong * 16.0, 1.0), tie(1, 0, r.vector(1.0), r.decade(-13.0, 0.0), 1.0)];
    let seen = if r.chance(50) { 1 } else { 2 };
    lay_out(n, &bearings[..seen], &directions, &[[1.0, 2.0, 3.0]])
}

/// A strongly tied ring that is pulled the same way at each camera: the search vector is one that the ties don't see, so the
/// curvature is small beside the old product (11).
fn pulled_ring(r: &mut Random) -> Network {
    let n = r.among(3, 6);
    let strong = if r.chance(50) { r.decade(8.0, 14.0) } else { 2f64.powi(r.among(28, 48) as i32) };
    let weak = if r.chance(50) { r.decade(-9.0, 0.0) } else { 2f64.powi(-(r.among(0, 20) as i32)) };
    let ray = r.vector(1.0);
    let mut directions = Vec::new();
    for camera in 1..n {
        directions.push(tie(0, camera, ray, weak, 1.0));
        let next = if camera + 1 < n { camera + 1 } else { 1 };
        if next != camera {
            directions.push(tie(camera, next, [0.0; 3], strong, 1.0));
        }
    }
    lay_out(n, &[tie(0, 0, [0.0, 0.0, 1.0], strong * 4.0, 1.0)], &directions, &[[1.0, 2.0, 3.0]])
}

/// Few cameras, one point: document 01's edges with their neighbours.
fn edge(r: &mut Random) -> Network {
    let t = 1e-12;
    let weights = [0.0, -0.0, t, up(t), down(t), 0.5 * t, 1.0, 1e-300, 5e-324, 1e300, 1e200, 1e201, f64::MAX, 2.0];
    let scales = [0.5, 1.0, 2.0, 1e10, 1e-10, 5e-324, 1e-300, 1e300, f64::MAX];
    let rays = [[0.0, 0.0, 1.0], [1.0, 0.0, 0.0], [0.6, 0.8, 0.0], [-0.0, 0.0, -0.0], [1e300, -1e300, 1.0], [5e-324, 1e-160, 1e-12]];
    let n = r.among(1, 3);
    let m = r.among(0, 2);
    let mut bearings = Vec::new();
    let mut directions = Vec::new();
    for _ in 0..if m == 0 { 0 } else { r.among(0, 4) } {
        bearings.push(tie(r.below(n), r.below(m), r.pick(&rays), r.pick(&weights), if r.chance(60) { 1.0 } else { r.pick(&scales) }));
    }
    for _ in 0..if n == 1 { 0 } else { r.among(0, 3) } {
        let source = r.below(n);
        let target = (source + r.among(1, n - 1)) % n;
        directions.push(tie(source, target, r.pick(&rays), r.pick(&weights), if r.chance(60) { 1.0 } else { r.pick(&scales) }));
    }
    let points: Vec<[f64; 3]> = (0..m).map(|_| r.pick(&[[5.0, 5.0, 5.0], [0.0, -0.0, 0.0], [1e300, -1e300, 1e-300]])).collect();
    lay_out(n, &bearings, &directions, &points)
}

/// Camera positions for dots and scales: near points, on them, far away.
fn positions(r: &mut Random, net: &Network) -> Vec<f64> {
    let kind = r.below(8);
    let mut cameras: Vec<f64> = (0..3 * net.n)
        .map(|_| match kind {
            0..4 => r.within(-5.0, 5.0),
            4 => r.pick(&[0.0, 2.0, -2.0, -0.0, 1.0]),
            5 => r.pick(&[0.0, 1.0 / 1048576.0, 1.0 / 524288.0, 1e-6, up(1e-6), down(1e-6), -1e-6]),
            6 => {
                let size = r.decade(-200.0, 300.0);
                r.within(-size, size)
            }
            _ => r.within(-1e-5, 1e-5),
        })
        .collect();
    for camera in 0..net.n {
        if net.m > 0 && r.chance(15) {
            let point = r.below(net.m);
            let off = r.pick(&[0.0, 1e-6, 5e-7, 1e-7, 1.0 / 1048576.0]);
            for component in 0..3 {
                cameras[3 * camera + component] = net.points[3 * point + component] + off;
            }
        }
    }
    cameras
}

fn route(r: &mut Random, n: usize) -> (usize, usize) {
    let route = r.pick(&[1, 1, 2, 2, 3, 3, 3]);
    let limit = match r.below(10) {
        0 => 0,
        1 => (n - 1).saturating_sub(1),
        2 => n - 1,
        3 => n,
        4..6 => 48,
        _ => 256,
    };
    (route, limit)
}

/// Cases built by hand: document 01's values at the edges, and numbers that stand exactly on a test.
pub fn specials() -> Vec<Case> {
    let z = [0.0, 0.0, 1.0];
    let x = [1.0, 0.0, 0.0];
    let t = 1e-12;
    let five = [[5.0, 5.0, 5.0]];
    let one = |weight, scale| lay_out(1, &[tie(0, 0, z, weight, scale)], &[], &five);
    let pair = |weight, scale| lay_out(2, &[], &[tie(0, 1, x, weight, scale)], &[]);
    let heavy = lay_out(3, &[tie(1, 0, z, 1e200, 1.0), tie(2, 0, z, 1e200, 1.0), tie(0, 1, z, 1e201, 1.0)], &[], &[five[0], five[0]]);
    let apart = lay_out(3, &[], &[tie(0, 1, x, 1.0, 1.0), tie(1, 2, x, 0.0, 1.0)], &[]);
    let line = lay_out(3, &[], &[tie(0, 1, x, 1.0, 1.0), tie(1, 2, x, 1.0, 1.0)], &[]);
    // camera 1 twice under a point: dense and the operator differ
    let twice = lay_out(2, &[tie(1, 0, x, 1.0, 1.0), tie(1, 0, z, 1.0, 1.0), tie(0, 0, x, 4.0, 1.0)], &[], &five);
    // W is exactly 1e-12, with a coupling between two cameras that are not the anchor
    let tiny = lay_out(3, &[tie(1, 0, z, t / 2.0, 1.0), tie(2, 0, x, t / 2.0, 1.0), tie(0, 1, z, 1.0, 1.0)], &[], &[five[0], five[0]]);
    let tiny_pulled = lay_out(
        3,
        &[tie(1, 0, z, t / 2.0, 1.0), tie(2, 0, x, t / 2.0, 1.0), tie(0, 1, z, 1.0, 1.0)],
        &[tie(0, 1, x, 1e-6, 1.0)],
        &[five[0], five[0]],
    );
    // a direction of weight 1e-12 without bearings, and with one
    let tiny_tie = lay_out(2, &[], &[tie(0, 1, x, t, 1.0), tie(1, 0, x, down(t), 1.0)], &[]);
    let tiny_tie_seen = lay_out(2, &[tie(0, 0, z, down(t), 0.5)], &[tie(0, 1, x, t, 1.0), tie(1, 0, x, down(t), 1.0)], &five);
    // the curvature is exactly 2^-52 times the old product
    let strong = 4503599627370496.0;
    let weak = 0.9999990000000002;
    let balanced = lay_out(
        3,
        &[tie(0, 0, z, 4.0 * strong, 1.0)],
        &[tie(0, 1, x, weak, 1.0), tie(0, 2, x, weak, 1.0), tie(1, 2, [0.0; 3], strong, 1.0)],
        &five,
    );
    // right-side square sums exactly at, and just above, 1e-24
    let still = lay_out(2, &[tie(0, 0, z, 4.0, 1.0)], &[tie(0, 1, [t, up(t), -t], 1.0, 1.0)], &five);
    // after one round the residual's square sum is exactly the bound that ends the rounds
    let at_bound = lay_out(
        3,
        &[tie(0, 0, z, 64.0, 1.0)],
        &[tie(0, 1, [0.14070434286056774, 0.0, 0.0], 5.66396684157978, 1.0), tie(1, 2, [0.0; 3], 5.663967842146177e-10, 1.0)],
        &five,
    );
    // no row at all: every degree is 0
    let nothing = lay_out(3, &[], &[], &[]);
    let places = |n: usize, target: f64| (0..3 * n).map(|i| if i == 3 { target } else { 0.0 }).collect::<Vec<f64>>();
    let case = |net: &Network, route: usize, limit: usize, target: f64| Case {
        kind: "special",
        net: net.clone(),
        route,
        limit,
        cameras: places(net.n, target),
    };
    let mut cases = vec![
        case(&one(1.0, 0.5), 3, 48, 0.0),
        case(&one(0.0, 0.5), 3, 48, 0.0),
        case(&one(-0.0, 0.5), 3, 48, 0.0),
        case(&one(t, 1.0), 3, 48, 0.0),
        case(&one(down(t), 1.0), 3, 48, 0.0),
        case(&one(up(t), 1.0), 3, 48, 0.0),
        case(&pair(1e300, 1e10), 2, 0, 2.0),
        case(&pair(1e300, 1e10), 1, 1, -2.0),
        case(&pair(1.0, 1.0), 1, 1, 1.0 / 1048576.0),
        case(&pair(1.0, 1.0), 2, 1, 1.0 / 524288.0),
        case(&pair(1.0, 1.0), 3, 1, 1e-6),
        case(&pair(1.0, 1.0), 3, 0, down(1e-6)),
        case(&heavy, 1, 2, 1.0),
        case(&heavy, 3, 2, 1.0),
        case(&apart, 3, 2, 1.0),
        case(&line, 1, 1, 1.0),
        case(&line, 1, 2, 1.0),
        case(&twice, 1, 1, 1.0),
        case(&twice, 2, 1, 1.0),
        case(&tiny, 1, 2, 1.0),
        case(&tiny, 2, 2, 1.0),
        case(&tiny_pulled, 2, 2, 1.0),
        case(&tiny_tie, 1, 2, 1.0),
        case(&tiny_tie_seen, 2, 2, 1.0),
        case(&balanced, 2, 2, 1.0),
        case(&balanced, 3, 2, 1.0),
        case(&still, 2, 2, 1.0),
        case(&at_bound, 2, 2, 1.0),
        case(&nothing, 1, 2, 1.0),
        case(&nothing, 2, 2, 1.0),
    ];
    cases.extend(RARE.iter().map(|&(seed, number)| drawn(seed, number)));
    cases
}

/// Drawn cases that are rare: accepted at the most rounds.
const RARE: [(u64, u64); 1] = [(1, 28198)];

/// Point lists are shuffled by random streams of their own: this with the number of a case, or with that of a full-size network.
const LISTS: u64 = 1 << 43;

/// Case `number` of a seed: first the special ones, then drawn ones, half of them with shuffled point lists.
pub fn generate(seed: u64, number: u64) -> Case {
    if number < 64 {
        if let Some(case) = specials().get(number as usize) {
            return case.clone();
        }
    }
    let mut case = drawn(seed, number);
    let random = &mut Random::new(seed, LISTS | number);
    if random.chance(50) {
        case.net = case.net.shuffled(random);
    }
    case
}

/// A case drawn from a seed and a number, its point lists ascending.
pub fn drawn(seed: u64, number: u64) -> Case {
    let r = &mut Random::new(seed, number);
    let (kind, net) = match r.below(100) {
        0..14 => ("block", block(r)),
        14..28 => ("strip", strip(r)),
        28..48 => ("anything", anything(r)),
        48..55 => ("parted", parted(r)),
        55..61 => ("loose strip", loose_strip(r)),
        61..65 => ("swelling", swelling(r)),
        65..69 => ("stalling", stalling(r)),
        69..73 => ("overflowing", overflowing(r)),
        73..77 => ("vanishing", vanishing(r)),
        77..82 => ("heavy right side", heavy_right_side(r)),
        82..87 => ("overweight", overweight(r)),
        87..90 => ("adrift", adrift(r)),
        90..92 => ("pulled ring", pulled_ring(r)),
        _ => ("edge", edge(r)),
    };
    let (mut route, limit) = route(r, net.n);
    if ["loose strip", "swelling", "stalling", "overflowing", "vanishing", "adrift", "pulled ring"].contains(&kind) && r.chance(50) {
        route = 2;
    }
    let cameras = positions(r, &net);
    Case { kind, net, route, limit, cameras }
}

/// A block of n cameras, each point seen by four of them, with as many directions as asked, no pair twice.
pub fn block_of(seed: u64, n: usize, m: usize, e: usize) -> Network {
    let r = &mut Random::new(seed, (1 << 42) + n as u64);
    let cameras = cloud(r, n, 50.0);
    let points = cloud(r, m, 60.0);
    let style = Style { sight: Sight::True, weighing: Weighing::Ordinary, scaling: Scaling::Depth, zeros: 0 };
    let mut maker = Maker::new(r, style, cameras, points);
    for point in 0..m {
        let mut seen = Vec::new();
        while seen.len() < 4 {
            let camera = maker.random.below(n);
            if !seen.contains(&camera) {
                seen.push(camera);
                maker.bearing(camera, point);
            }
        }
    }
    let mut tied = BTreeSet::new();
    while tied.len() < e {
        let (source, target) = (maker.random.below(n), maker.random.below(n));
        if source != target && tied.insert((source.min(target), source.max(target))) {
            maker.direction(source, target);
        }
    }
    maker.finish(false, 0)
}

/// Number of kinds of full-size cases.
pub const FULL_KINDS: usize = 11;

/// A case at the limits. Kinds 5 and 8 to 10 have shuffled point lists, as their names say; the last three are otherwise the networks of
/// kinds 0, 2 and 7.
pub fn full(seed: u64, kind: usize) -> Case {
    let (name, like) = match kind {
        5 => ("full anything, lists shuffled", 5),
        8 => ("full block, E=0, lists shuffled", 0),
        9 => ("full strip, E=0, lists shuffled", 2),
        10 => ("full star, E=65536, lists shuffled", 7),
        _ => return full_ascending(seed, kind),
    };
    let case = full_ascending(seed, like);
    let net = case.net.shuffled(&mut Random::new(seed, LISTS | 1 << 40 | kind as u64));
    Case { kind: name, net, ..case }
}

/// Kinds 0 to 7, point lists ascending: n=4096, m=65,536, B=262,144; E=0 or 65,536; a block, a long strip, directions only, or a star.
/// In the blocks and at the end of the strip some points have a camera twice, and pairs of cameras have several directions (the strip's
/// each 16), but in kind 6. In the star every row joins a camera to camera 0, the anchor, so that the system is diagonal and one round
/// solves it; its points are seen by two cameras each.
fn full_ascending(seed: u64, kind: usize) -> Case {
    let r = &mut Random::new(seed, 1 << 40 | kind as u64);
    let n = 4096;
    let (name, long, m, e) = [
        ("full block, E=0", false, 65536, 0),
        ("full block, E=65536", false, 65536, 65536),
        ("full strip, E=0", true, 65536, 0),
        ("full strip, E=65536", true, 65536, 65536),
        ("full directions", false, 0, 65536),
        ("full anything", false, 65536, 65536),
        ("full strip, E=65536, no pair twice", true, 65536, 65536),
        ("full star, E=65536", false, 65536, 65536),
    ][kind];
    let cameras = if long { line(r, n) } else { cloud(r, n, 50.0) };
    let points: Vec<[f64; 3]> = (0..m)
        .map(|p| if long { [p as f64 / 16.0, r.within(-1.0, 1.0), r.within(2.0, 4.0)] } else { r.vector(60.0) })
        .collect();
    let style = if kind == 5 {
        Style { sight: Sight::True, weighing: Weighing::Spread(2.0), scaling: Scaling::Spread(1.0), zeros: 10 }
    } else {
        Style { sight: Sight::True, weighing: Weighing::Ordinary, scaling: Scaling::Depth, zeros: 0 }
    };
    let mut maker = Maker::new(r, style, cameras, points);
    for point in 0..m {
        for sight in 0..if kind == 7 { 2 } else { 4 } {
            let camera = match kind {
                6 => (point / 16).min(n - 4) + sight,
                7 => sight * (1 + point % (n - 1)),
                _ if long => (point / 16 + sight).min(n - 1),
                _ => maker.random.below(n),
            };
            maker.bearing(camera, point);
        }
    }
    for index in 0..e {
        if kind == 6 {
            let source = index % (n - 17);
            maker.direction(source, source + 1 + index / (n - 17));
        } else if kind == 7 {
            maker.direction(0, 1 + index % (n - 1));
        } else if long {
            let source = index % (n - 1);
            maker.direction(source, source + 1);
        } else {
            maker.ties(0, n, 1);
        }
    }
    let net = maker.finish(kind == 5, 0);
    let cameras = cloud(r, n, 50.0).iter().flatten().copied().collect();
    Case { kind: name, net, route: 2, limit: 256, cameras }
}
