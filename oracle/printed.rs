//! What the solve program must print for an image, by the oracle: the image read as document 01 describes it, in Rust of its own, the
//! refusals in number order, and the kernel's answer.
//!
//!   printed FILE ..                              prints the text for each image file
//!   printed --fuzz PROGRAM [COUNT] [SEED]        feeds PROGRAM (the solve program) random and damaged images and compares what it prints

use networks::{Network, Random, Row, generate, lay_out};
use std::collections::BTreeMap;
use std::io::Write;
use std::process::{Command, Stdio, exit};

type Refusal = (usize, usize);

const MOST_BYTES: usize = 16_384;
const MOST_CAMERAS: usize = 64;
const ROUTE: usize = 3;
const LIMIT: usize = 48;

fn u16_at(bytes: &[u8], p: usize) -> u64 {
    u64::from(u16::from_le_bytes([bytes[p], bytes[p + 1]]))
}

fn u32_at(bytes: &[u8], p: usize) -> u64 {
    u64::from(u32::from_le_bytes(bytes[p..p + 4].try_into().unwrap()))
}

fn double_at(bytes: &[u8], p: usize) -> f64 {
    f64::from_bits(u64::from_le_bytes(bytes[p..p + 8].try_into().unwrap()))
}

/// 20 to 22. Offsets and lengths are exact numbers.
fn check_head(bytes: &[u8]) -> Option<Refusal> {
    if bytes.len() < 36 || u16_at(bytes, 0) != 1 || u16_at(bytes, 2) != 4 {
        return Some((20, 0));
    }
    let pair = |i: usize| (u32_at(bytes, 4 + 8 * i), u32_at(bytes, 8 + 8 * i));
    let mut end = 36;
    for i in 0..4 {
        let (offset, length) = pair(i);
        if offset != end {
            return Some((21, i));
        }
        end = offset + length;
    }
    if end != bytes.len() as u64 {
        return Some((21, 3));
    }
    if pair(0).1 != 16 {
        return Some((22, 0));
    }
    let count = |i: usize| u32_at(bytes, 36 + 4 * i);
    let wanted = [16, 48 * count(2), 48 * count(3), 24 * count(1)];
    (0..4).find(|&i| pair(i).1 != wanted[i]).map(|i| (22, i))
}

fn row_at(bytes: &[u8], p: usize) -> Row {
    Row {
        first: u32_at(bytes, p) as usize,
        second: u32_at(bytes, p + 4) as usize,
        ray: [double_at(bytes, p + 8), double_at(bytes, p + 16), double_at(bytes, p + 24)],
        weight: double_at(bytes, p + 32),
        scale: double_at(bytes, p + 40),
    }
}

/// 4, 5 and 7 over the rows in their running number, then the points.
fn check_rows(n: usize, m: usize, bearings: &[Row], directions: &[Row], points: &[[f64; 3]]) -> Option<Refusal> {
    let rows = || bearings.iter().map(|r| (r, m, false)).chain(directions.iter().map(|r| (r, n, true)));
    if let Some(i) = rows().position(|(r, most, _)| r.first >= n || r.second >= most) {
        return Some((4, i));
    }
    if let Some(i) = rows().position(|(r, _, direction)| direction && r.first == r.second) {
        return Some((5, i));
    }
    let good_row = |r: &Row| {
        r.weight.is_finite() && r.weight >= 0.0 && r.scale.is_finite() && r.scale > 0.0 && r.ray.iter().all(|x| x.is_finite())
    };
    let good = rows().map(|(r, _, _)| good_row(r)).chain(points.iter().map(|v| v.iter().all(|x| x.is_finite())));
    good.enumerate().find(|(_, good)| !good).map(|(i, _)| (7, i))
}

fn read(bytes: &[u8]) -> Result<Network, Refusal> {
    if bytes.len() > MOST_BYTES {
        return Err((2, 0));
    }
    if let Some(refusal) = check_head(bytes) {
        return Err(refusal);
    }
    let count = |i: usize| u32_at(bytes, 36 + 4 * i) as usize;
    let (n, m, b, e) = (count(0), count(1), count(2), count(3));
    if n == 0 || n > MOST_CAMERAS {
        return Err((1, 0));
    }
    if m > 65_536 || b > 262_144 || e > 65_536 {
        return Err((2, 0));
    }
    let bearings: Vec<Row> = (0..b).map(|i| row_at(bytes, 52 + 48 * i)).collect();
    let directions: Vec<Row> = (0..e).map(|i| row_at(bytes, 52 + 48 * (b + i))).collect();
    let place = |i: usize, k: usize| double_at(bytes, 52 + 48 * (b + e) + 24 * i + 8 * k);
    let points: Vec<[f64; 3]> = (0..m).map(|i| [place(i, 0), place(i, 1), place(i, 2)]).collect();
    if let Some(refusal) = check_rows(n, m, &bearings, &directions, &points) {
        return Err(refusal);
    }
    Ok(lay_out(n, &bearings, &directions, &points))
}

fn bits(x: f64) -> String {
    if x.is_nan() { "7ff8000000000000".to_string() } else { format!("{:016x}", x.to_bits()) }
}

fn lines(tag: &str, numbers: &[f64]) -> String {
    let line = |(i, v): (usize, &[f64])| format!("{tag} {i} {} {} {}\n", bits(v[0]), bits(v[1]), bits(v[2]));
    numbers.chunks_exact(3).enumerate().map(line).collect()
}

fn printed(bytes: &[u8]) -> String {
    let net = match read(bytes) {
        Ok(net) => net,
        Err((number, place)) => return format!("refused {number} place {place}\n"),
    };
    let (_, parts) = oracle::labels(&net.view());
    match oracle::solve(&net.view(), ROUTE, LIMIT) {
        Err(tag) => {
            let camera = tag.camera.map_or(String::new(), |camera| format!(" camera {camera}"));
            format!("refused {} place {}{camera}\n", tag.number, tag.place)
        }
        Ok(p) => format!(
            "cameras {} points {} bearings {} directions {}\nparts {parts}\nanchor {} route {} rounds {}\nfew {}\n{}{}",
            net.n, net.m, net.b, net.e, p.anchor, p.route, p.rounds, p.few, lines("c", &p.cameras), lines("p", &p.points)
        ),
    }
}

fn written(net: &Network) -> Vec<u8> {
    let mut out = vec![1, 0, 4, 0];
    let mut at = 36;
    for length in [16, 48 * net.b, 48 * net.e, 24 * net.m] {
        out.extend((at as u32).to_le_bytes());
        out.extend((length as u32).to_le_bytes());
        at += length;
    }
    for count in [net.n, net.m, net.b, net.e] {
        out.extend((count as u32).to_le_bytes());
    }
    for row in 0..net.b + net.e {
        out.extend((net.ends[2 * row] as u32).to_le_bytes());
        out.extend((net.ends[2 * row + 1] as u32).to_le_bytes());
        for x in net.rays[3 * row..3 * row + 3].iter().chain([&net.weights[row], &net.scales[row]]) {
            out.extend(x.to_bits().to_le_bytes());
        }
    }
    net.points.iter().for_each(|x| out.extend(x.to_bits().to_le_bytes()));
    out
}

fn store(image: &mut [u8], p: usize, x: u32) {
    if let Some(part) = image.get_mut(p..p + 4) {
        part.copy_from_slice(&x.to_le_bytes());
    }
}

/// One of the ways in which an image goes wrong.
fn damage(random: &mut Random, image: &mut Vec<u8>) {
    let size = image.len().max(1);
    match random.below(9) {
        0 => image.truncate(random.below(size)),
        1 => {
            for _ in 0..random.among(1, 4) {
                let bit = 1 << random.below(8);
                if let Some(byte) = image.get_mut(random.below(size)) {
                    *byte ^= bit;
                }
            }
        }
        // an offset, a length or a count off by one, or a large one
        2 | 3 => {
            let p = 4 + 4 * random.below(12);
            let old = image.get(p..p + 4).map_or(0, |b| u32::from_le_bytes(b.try_into().unwrap()));
            let new = if random.chance(50) { old.wrapping_add(1) } else { old.wrapping_sub(1) };
            store(image, p, new);
        }
        // counts that multiply past 2^32, with lengths that fit them when they wrap
        4 => {
            let (p, count, length) = random.pick(&[(44, 1u32 << 28, 16), (48, 1 << 28, 24), (40, 1 << 29, 32)]);
            store(image, p, count);
            store(image, length, 0);
        }
        5 => image.extend((0..random.among(1, 40)).map(|_| 0)),
        6 => image.extend(std::iter::repeat_n(7, MOST_BYTES)),
        // a double that is a NaN, an infinity or below zero, at a place where one may stand
        7 => {
            let p = 60 + 8 * random.below(size / 8);
            let x = random.pick(&[f64::NAN.to_bits(), f64::INFINITY.to_bits(), (-1.0f64).to_bits(), 0xfff4_0000_0000_0001, 1]);
            if let Some(part) = image.get_mut(p..p + 8) {
                part.copy_from_slice(&x.to_le_bytes());
            }
        }
        _ => *image = (0..random.below(200)).map(|_| random.next() as u8).collect(),
    }
}

fn run(program: &str, image: &[u8]) -> String {
    let mut child = Command::new(program).stdin(Stdio::piped()).stdout(Stdio::piped()).spawn().expect("the program starts");
    // a program that has read enough may close its end
    let _ = child.stdin.take().unwrap().write_all(image);
    let out = child.wait_with_output().expect("the program ends");
    if !out.status.success() {
        return format!("ended with {}", out.status);
    }
    String::from_utf8_lossy(&out.stdout).into_owned()
}

fn fuzz(program: &str, count: u64, seed: u64) {
    let mut met: BTreeMap<String, usize> = BTreeMap::new();
    let mut wrong = 0;
    for number in 0..count {
        let mut random = Random::new(seed ^ 0x5eed, number);
        let mut image = written(&generate(seed, number).net);
        if random.chance(60) {
            for _ in 0..random.among(1, 2) {
                damage(&mut random, &mut image);
            }
        }
        let (said, wanted) = (run(program, &image), printed(&image));
        let class = match wanted.strip_prefix("refused ") {
            Some(rest) => format!("refused {}", rest.split(' ').next().unwrap()),
            None => format!("placed, route {}", wanted.lines().nth(2).unwrap().split(' ').nth(3).unwrap()),
        };
        *met.entry(class).or_default() += 1;
        if said != wanted {
            wrong += 1;
            println!("image {number}, {} bytes:\n{said}wanted:\n{wanted}", image.len());
        }
        if wrong == 10 {
            break;
        }
    }
    met.iter().for_each(|(class, times)| println!("{times:10}  {class}"));
    println!("{count} images, seed {seed}: {wrong} disagreements");
    exit(i32::from(wrong > 0));
}

fn main() {
    let arguments: Vec<String> = std::env::args().skip(1).collect();
    if arguments.first().is_some_and(|a| a == "--fuzz") {
        let number = |i: usize, other: u64| arguments.get(i).map_or(other, |a| a.parse().expect("a number"));
        fuzz(arguments.get(1).expect("the solve program"), number(2, 100_000), number(3, 1));
    }
    for name in &arguments {
        print!("{}", printed(&std::fs::read(name).unwrap_or_else(|error| panic!("{name}: {error}"))));
    }
}
