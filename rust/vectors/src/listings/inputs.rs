//! Whole listings.

use super::{Listings, LONGEST};
use crate::frame::Case;
use crate::function::LIST;
use crate::keep::ALL;
use corpus::format::{MAX_INPUT, MAX_NODES, ROOT};
use corpus::mutate::{self, Damage};
use corpus::tree::{File, Node};
use corpus::valid::{file, mixed, Profile};
use corpus::worked::WAGON;
use corpus::{large, samples};
use reference::listing;

/// Longer files are left out.
const MOST: usize = 350;

pub fn add(listings: &mut Listings) {
    listings.cases.sweep("listings inputs: samples", 6);
    for (_, input) in samples::all() {
        let length = listing(&input).len();
        for room in [length, length - 1, length + 1, 0, LONGEST] {
            add_with(listings, &input, room);
        }
    }
    add_valid(listings, 170, &Profile::TINY, MOST);
    add_valid(listings, 8, &Profile::SMALL, 3_000);
    for &kind in mutate::ALL {
        let (count, most) = match kind {
            Damage::ManyNodes => (0, 0),
            Damage::ManyProperties => (2, 2_000),
            Damage::TwoFaults | Damage::ManyFaults => (25, MOST),
            _ => (8, MOST),
        };
        add_damaged(listings, kind, count, most);
    }
    add_long(listings);
}

/// An input, with an output of this length.
fn add_with(listings: &mut Listings, input: &[u8], room: usize) {
    let case = Case {
        function: LIST,
        first: input,
        ..Case::default()
    };
    listings.add(case, &listing(input), room);
}

fn add_input(listings: &mut Listings, input: &[u8]) {
    let room = listings.room(listing(input).len());
    add_with(listings, input, room);
}

fn add_valid(listings: &mut Listings, count: usize, profile: &Profile, most: usize) {
    listings.cases.sweep("listings inputs: valid", 6);
    let mut left = listings.cases.draws(count);
    while left > 0 {
        let input = file(&mut listings.rng, profile).bytes();
        if input.len() <= most {
            assert!(listing(&input).starts_with(b"cast 1 "), "{input:02X?}");
            add_input(listings, &input);
            left -= 1;
        }
    }
}

/// Files with damage of this kind, of at most `most` bytes.
fn add_damaged(listings: &mut Listings, kind: Damage, count: usize, most: usize) {
    listings.cases.sweep("listings inputs: damaged", 12);
    let mut left = listings.cases.draws(count);
    while left > 0 {
        let file = match listings.rng.chance(90) {
            true => file(&mut listings.rng, &Profile::TINY),
            false => mixed(&mut listings.rng),
        };
        let damaged = mutate::damage(&mut listings.rng, &file, kind);
        let Some(damaged) = damaged.filter(|damaged| damaged.bytes.len() <= most) else {
            continue;
        };
        if let Some((number, place)) = damaged.answer {
            let told = format!("refused {number} at {place}\n");
            assert_eq!(listing(&damaged.bytes), told.as_bytes(), "{}", kind.name());
        }
        add_input(listings, &damaged.bytes);
        left -= 1;
    }
}

/// As many rows as there may be, as many bytes, and a byte more.
fn add_long(listings: &mut Listings) {
    listings.cases.leave_out();
    let pair = Node::with(ROOT, Vec::new(), vec![Node::new(WAGON)]);
    let rows = File::new(u32::MAX, vec![pair; MAX_NODES / 2]).bytes();
    let length = listing(&rows).len();
    add_with(listings, &rows, length);
    add_with(listings, &rows, length - 1);
    let mut input = large::many_notes(&mut listings.rng, MAX_INPUT).bytes();
    assert!(listing(&input).starts_with(b"cast 1 "));
    listings.cases.sweep("listings inputs: long", ALL);
    add_with(listings, &input, LONGEST);
    input.push(0);
    assert_eq!(listing(&input), b"too long\n");
    add_with(listings, &input, 9);
    listings.cases.leave_out();
    add_with(listings, &input, 8);
}
