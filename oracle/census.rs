//! How often each answer and each refusal is met: census [COUNT] [SEED]. The oracle runs alone, each network by its own route.

mod classes;

use networks::{Case, generate};
use oracle::{connected, labels, solve};
use std::collections::BTreeMap;

fn main() {
    let mut arguments = std::env::args().skip(1).map(|a| a.parse::<u64>().expect("a number"));
    let count = arguments.next().unwrap_or(200_000);
    let seed = arguments.next().unwrap_or(1);
    let mut met = classes::Met::default();
    let mut kinds: BTreeMap<&str, u64> = BTreeMap::new();
    for number in 0..count {
        let Case { kind, net, route, limit, .. } = generate(seed, number);
        *kinds.entry(kind).or_default() += 1;
        let net = net.view();
        let whole = connected(&net);
        assert_eq!(whole, labels(&net).1 == 1, "case {number}");
        met.meet(if whole { "connected" } else { "disconnected" }, number);
        met.meet(classes::of_lists(&net), number);
        let answer = solve(&net, route, limit);
        for class in classes::of_solve(net.n, route, &answer) {
            met.meet(class, number);
        }
        for class in classes::of_few(&net, &answer) {
            met.meet(class, number);
        }
        for class in classes::of_camera(net.n, &answer) {
            met.meet(class, number);
        }
    }
    println!("{count} networks, seed {seed}");
    for (kind, count) in kinds {
        println!("  {count:>8}  {kind}");
    }
    if !(met.report(&[]) & classes::no_tens()) {
        std::process::exit(1);
    }
}
