//! Hashes and links that a search may be slow on.

use super::drawn::Drawn;
use super::scenes::{bones, handles, skeleton};
use crate::rng::Rng;

/// How the hashes of the targets go along the rows.
const ORDERS: [&str; 7] = [
    "ascending",
    "descending",
    "equal",
    "random",
    "up and down",
    "in pairs",
    "low bits equal",
];

fn hash(rng: &mut Rng, order: &str, number: u64, count: u64) -> u64 {
    match order {
        "ascending" => number,
        "descending" => count - number,
        "equal" => 7,
        "up and down" => number.min(count - number) * 2 + u64::from(number > count / 2),
        "in pairs" => number ^ 1,
        "low bits equal" => (count - number) << 32,
        _ => rng.next_u64(),
    }
}

/// Draws a Skeleton of bones, with handles after or before them.
pub fn drawn(rng: &mut Rng) -> Drawn {
    let order = *rng.pick(&ORDERS);
    let nodes = *rng.pick(&[4, 20, 100, 400, 1_021]);
    let links = *rng.pick(&[0, 1, 2, 10, 100, 300]).min(&(nodes / 2));
    let count = nodes - links;
    let hashes: Vec<u64> = (0..count as u64)
        .map(|number| hash(rng, order, number, count as u64))
        .collect();
    let from = match rng.below(3) {
        0 => &hashes[..1],
        1 => &hashes[count - 1..],
        _ => &hashes[..],
    };
    let mut parts = bones(hashes.iter().copied());
    let linked = handles(rng, links, from);
    let late = rng.chance(50);
    match late {
        true => parts.extend(linked),
        false => drop(parts.splice(0..0, linked)),
    }
    Drawn {
        about: format!(
            "{count} bones with hashes {order}, {links} handles {} that link to {} of them",
            if late { "after them" } else { "before them" },
            from.len()
        ),
        bytes: skeleton(parts).bytes(),
    }
}
