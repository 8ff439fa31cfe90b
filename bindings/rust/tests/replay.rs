//! The recorded answers of the Rust kernel, oracle/answers.txt of the repository, by the safe interface: connectivity, parts, point
//! lists, solve, dots and scales, bit for bit (one NaN counts as another). The format is told at the head of oracle/replay.rs.

mod common;

use common::{all_bits, repository, told};
use std::collections::BTreeMap;
use std::fs;
use vobzeile::{
    Network, Route, Workspace, dots, is_connected, parts, read_image, scales, solve, write_image,
};

/// The lines of a case, by their keyword.
struct Case<'t>(BTreeMap<&'t str, Vec<&'t str>>);

impl Case<'_> {
    fn wholes(&self, name: &str) -> Vec<usize> {
        let words = self.0[name].iter();
        words.map(|word| word.parse().unwrap()).collect()
    }

    fn doubles(&self, name: &str) -> Vec<f64> {
        let words = self.0[name].iter();
        let bits = words.map(|word| u64::from_str_radix(word, 16).unwrap());
        bits.map(f64::from_bits).collect()
    }

    fn vectors(&self, name: &str) -> Vec<[f64; 3]> {
        let numbers = self.doubles(name);
        let triples = numbers.chunks_exact(3);
        triples.map(|v| [v[0], v[1], v[2]]).collect()
    }
}

fn cases(text: &str) -> Vec<Case<'_>> {
    let mut cases: Vec<Case> = Vec::new();
    for line in text.lines().filter(|line| !line.starts_with('#')) {
        let mut words = line.split(' ');
        let name = words.next().unwrap();
        if name == "case" {
            cases.push(Case(BTreeMap::new()));
        }
        cases.last_mut().unwrap().0.insert(name, words.collect());
    }
    cases
}

/// The number of the answer: 0, or the refusal's.
fn replay(case: &Case, workspace: &mut Workspace) -> usize {
    let [n, m, b, e] = case.wholes("counts")[..] else {
        panic!("four counts");
    };
    let ends = case.wholes("ends");
    let ends: Vec<[usize; 2]> = ends.chunks_exact(2).map(|v| [v[0], v[1]]).collect();
    let (rays, points) = (case.vectors("rays"), case.vectors("points"));
    let (weights, old_scales) = (case.doubles("weights"), case.doubles("scales"));
    let built = Network::new(n, b, ends, rays, weights, old_scales, points).unwrap();
    assert_eq!(built.counts().directions, e);
    let mut network = built.clone();
    let (offsets, rows) = (case.wholes("offsets"), case.wholes("rows"));
    network.set_lists(&offsets, &rows).unwrap();
    // the recorded lists may have any order, those that were built are ascending
    for point in 0..m {
        let mut listed = network.point_bearings(point).to_vec();
        listed.sort_unstable();
        assert_eq!(built.point_bearings(point), listed);
    }

    let connected = is_connected(&network, workspace).unwrap();
    assert_eq!(case.wholes("connected"), [connected as usize]);
    let listing = parts(&network, workspace).unwrap();
    let wanted = case.wholes("parts");
    assert_eq!((listing.count, listing.labels), (wanted[0], &wanted[1..]));

    let [route, limit] = case.wholes("solve")[..] else {
        panic!("route and limit");
    };
    let route = [Route::Dense, Route::Iterative, Route::IterativeThenDense][route - 1];
    let answer = case.wholes("answer");
    match solve(&network, workspace, route, limit) {
        Ok(placement) => {
            let report = [
                0,
                placement.anchor,
                placement.route.number(),
                placement.rounds,
                placement.few,
            ];
            assert_eq!(answer, report);
            for (name, positions) in [("cameras", placement.cameras), ("placed", placement.points)]
            {
                let wanted = all_bits(&case.doubles(name));
                assert_eq!(all_bits(positions.as_flattened()), wanted, "{name}");
            }
        }
        Err(error) => assert_eq!(answer, told(&error, n)),
    }

    let positions = case.vectors("positions");
    for (name, numbers) in [
        ("dots", dots(&network, workspace, &positions)),
        ("renewed", scales(&network, workspace, &positions)),
    ] {
        let wanted = all_bits(&case.doubles(name));
        assert_eq!(all_bits(&numbers.unwrap()), wanted, "{name}");
    }

    let image = write_image(&network).unwrap();
    assert_eq!(read_image(&image).unwrap(), built);
    answer[0]
}

#[test]
fn answers() {
    let Some(root) = repository() else {
        return;
    };
    let text = fs::read_to_string(root.join("oracle/answers.txt")).unwrap();
    let mut workspace = Workspace::new();
    let mut met = BTreeMap::new();
    let cases = cases(&text);
    for case in &cases {
        println!("case {}", case.0["case"].join(" "));
        *met.entry(replay(case, &mut workspace)).or_insert(0) += 1;
    }
    println!("{} cases: {met:?}", cases.len());
    assert!(
        [0, 9, 11, 12, 13, 14, 15, 16, 17]
            .iter()
            .all(|number| met.contains_key(number))
    );
}
