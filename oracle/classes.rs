//! The classes that answers are counted by.

use oracle::{Network, Placement, Tag};
use std::collections::BTreeMap;

/// Every class but 12 by a NaN (a finite curvature means finite applied numbers, so a residual can overflow but not become NaN in one round).
/// 10 is no class: no diagonal meets it (the theorem of crates/system/specs/Diagonals.antt), and `no_tens` counts it in the Rust's own text.
pub const WANTED: [&str; 30] = [
    "accepted, route 1",
    "accepted, route 2",
    "accepted, route 2, at the most rounds",
    "accepted, route 2, no round",
    "accepted, a point not finite",
    "accepted, route 3",
    "refused 9, NaN",
    "refused 9, infinite",
    "refused 11, NaN",
    "refused 11, infinite",
    "refused 11, at or below 0",
    "refused 11, small beside the old product",
    "refused 12, new product infinite",
    "refused 12, old product 0",
    "refused 13, NaN",
    "refused 13, infinite",
    "refused 13, excess",
    "refused 14",
    "refused 15, NaN",
    "refused 15, infinite",
    "refused 15, below 0",
    "refused 15, 0",
    "refused 16, NaN",
    "refused 16, infinite",
    "refused 17, NaN",
    "refused 17, infinite",
    "route 3, over the limit after an iterative refusal",
    "route 3, dense refused too",
    "connected",
    "disconnected",
];

/// The classes of `of_few`, `of_lists` and `of_camera`, wanted too. The recorded sample is not chosen by them.
pub const FEW: [&str; 3] = ["accepted, few 0", "accepted, few above 0", "accepted, few by a point below 1e-12"];
pub const LISTS: [&str; 2] = ["lists ascending", "lists in another order"];
pub const CAMERA: [&str; 9] = [
    "refused 11, camera amid others",
    "refused 11, camera below n",
    "refused 11, camera n",
    "refused 12, camera amid others",
    "refused 12, camera below n",
    "refused 12, camera n",
    "refused 13, camera amid others",
    "refused 13, camera below n",
    "refused 13, camera n",
];

fn sort(value: f64) -> &'static str {
    if value.is_nan() {
        "NaN"
    } else if value.is_infinite() {
        "infinite"
    } else if value == 0.0 {
        "0"
    } else if value < 0.0 {
        "below 0"
    } else {
        "finite"
    }
}

fn refused(tag: &Tag) -> String {
    let cause = match tag.number {
        11 if tag.value <= 0.0 => ", at or below 0".to_string(),
        11 if tag.value.is_finite() => ", small beside the old product".to_string(),
        12 if !tag.value.is_finite() => format!(", new product {}", sort(tag.value)),
        12 => format!(", old product {}", sort(tag.beside)),
        13 if tag.value.is_finite() => ", excess".to_string(),
        14 => String::new(),
        _ => format!(", {}", sort(tag.value)),
    };
    format!("refused {}{}", tag.number, cause)
}

pub fn most_rounds(n: usize) -> usize {
    (8 * (n - 1)).clamp(64, 4000)
}

/// The classes of a solve that passed 1 to 8.
pub fn of_solve(n: usize, route: usize, answer: &Result<Placement, Tag>) -> Vec<String> {
    let mut classes = Vec::new();
    match answer {
        Ok(placed) => {
            classes.push(format!("accepted, route {}", placed.route));
            if placed.route == 2 && placed.rounds == 0 {
                classes.push("accepted, route 2, no round".to_string());
            }
            if placed.route == 2 && placed.rounds == most_rounds(n) {
                classes.push("accepted, route 2, at the most rounds".to_string());
            }
            if !placed.points.iter().all(|x| x.is_finite()) {
                classes.push("accepted, a point not finite".to_string());
            }
        }
        Err(tag) => {
            classes.push(refused(tag));
            if route == 3 && tag.number <= 13 {
                classes.push("route 3, over the limit after an iterative refusal".to_string());
            }
            if route == 3 && tag.number >= 15 {
                classes.push("route 3, dense refused too".to_string());
            }
        }
    }
    classes
}

/// The classes of an accepted solve by its cameras of few rows; the last where a camera of two rows or more is among them.
pub fn of_few(net: &Network, answer: &Result<Placement, Tag>) -> Vec<&'static str> {
    let Ok(placed) = answer else {
        return Vec::new();
    };
    let mut rows = vec![0; net.n];
    for row in 0..net.b + net.e {
        rows[net.ends[2 * row]] += 1;
        if row >= net.b {
            rows[net.ends[2 * row + 1]] += 1;
        }
    }
    let mut classes = vec![FEW[(placed.few > 0) as usize]];
    if placed.few > rows.iter().filter(|count| **count < 2).count() {
        classes.push(FEW[2]);
    }
    classes
}

/// The class of a network by its point lists: ascending under each point, or not.
pub fn of_lists(net: &Network) -> &'static str {
    let ascending = net.offsets.windows(2).all(|ends| net.rows[ends[0]..ends[1]].is_sorted());
    LISTS[!ascending as usize]
}

/// The classes of a refusal of 11 to 13 by its camera. Amid others: two cameras or more are before it and two or more after it, so whichever is
/// the anchor, it is neither the first nor the last that could be named.
pub fn of_camera(n: usize, answer: &Result<Placement, Tag>) -> Vec<String> {
    let Some((number, camera)) = answer.as_ref().err().and_then(|tag| Some((tag.number, tag.camera?))) else {
        return Vec::new();
    };
    let mut classes = vec![format!("refused {number}, camera {}", if camera < n { "below n" } else { "n" })];
    if camera >= 2 && camera + 2 < n {
        classes.push(format!("refused {number}, camera amid others"));
    }
    classes
}

/// Prints how often the Rust's own text met 10; whether it never did.
pub fn no_tens() -> bool {
    println!("10, which the Rust's own text tests and no diagonal can meet: met {} times", oracle::tens());
    oracle::tens() == 0
}

/// How often each class was met, and the case that met it first.
#[derive(Default)]
pub struct Met(BTreeMap<String, (u64, u64)>);

impl Met {
    pub fn meet(&mut self, class: impl Into<String>, number: u64) {
        self.0.entry(class.into()).or_insert((0, number)).0 += 1;
    }

    /// Prints the counts; whether every wanted class was met, these included.
    pub fn report(&self, more: &[String]) -> bool {
        println!("met, and the first case that meets it:");
        for (class, (count, first)) in &self.0 {
            println!("  {count:>8}  {class}  (case {first})");
        }
        let wanted = || WANTED.iter().chain(&FEW).chain(&LISTS).chain(&CAMERA).copied().chain(more.iter().map(String::as_str));
        let holes: Vec<_> = wanted().filter(|class| !self.0.contains_key(*class)).collect();
        if holes.is_empty() {
            println!("every wanted class was met ({} of them)", wanted().count());
        } else {
            println!("never met: {holes:?}");
        }
        holes.is_empty()
    }
}
