//! Generated files are accepted, with the answers that their trees give.

mod common;

use common::{accepted, accepted_as, read};
use corpus::format::{B, MAX_FILE, MAX_NODES, ROOT};
use corpus::rng::Rng;
use corpus::valid::{file, Profile};
use corpus::worked::{self, mesh, triangle};
use corpus::{large, mutate};

fn all_accepted(seed: u64, count: usize, profile: &Profile) -> usize {
    let mut rng = Rng::new(seed);
    let mut total = 0;
    for _ in 0..count {
        let file = file(&mut rng, profile);
        let (bytes, _) = accepted_as(&file);
        assert!(bytes.len() <= profile.bytes);
        total += bytes.len();
    }
    total / count
}

#[test]
fn tiny_files_are_accepted() {
    let mean = all_accepted(1, 60_000, &Profile::TINY);
    println!("tiny: {mean} bytes on average");
}

#[test]
fn small_files_are_accepted() {
    let mean = all_accepted(2, 15_000, &Profile::SMALL);
    println!("small: {mean} bytes on average");
    assert!((1_000..10_000).contains(&mean));
}

#[test]
fn medium_files_are_accepted() {
    let mean = all_accepted(3, 250, &Profile::MEDIUM);
    println!("medium: {mean} bytes on average");
    assert!((50_000..400_000).contains(&mean));
}

#[test]
fn files_of_1024_nodes_are_accepted() {
    let mut rng = Rng::new(4);
    for _ in 0..30 {
        let file = file(&mut rng, &Profile::MOST_NODES);
        assert_eq!(file.nodes().len(), MAX_NODES);
        accepted_as(&file);
    }
}

#[test]
fn large_files_are_accepted() {
    for (name, make) in large::ALL {
        let file = make(&mut Rng::new(5));
        let (bytes, rows) = accepted_as(&file);
        let (reading, _) = accepted(&bytes);
        println!(
            "{name}: {} bytes, {} nodes, {} faces, {} links",
            bytes.len(),
            rows.len() / 8,
            reading.faces,
            reading.links
        );
        assert!(bytes.len() <= MAX_FILE);
    }
    let (reading, _) = read(&mutate::too_long(&mut Rng::new(5)));
    assert_eq!((reading.number, reading.place), (2, 0));
}

#[test]
fn one_seed_gives_one_file() {
    let draw = |seed| corpus::valid::mixed(&mut Rng::new(seed)).bytes();
    for seed in 0..200 {
        assert_eq!(draw(seed), draw(seed));
    }
}

/// Number, place and node count.
fn answer(bytes: &[u8]) -> (u32, u32, u32) {
    let (reading, _) = read(bytes);
    (reading.number, reading.place, reading.nodes)
}

#[test]
fn worked_examples() {
    assert_eq!(answer(&worked::e1().bytes()), (0, 0, 0), "E1");
    assert_eq!(answer(&[]), (3, 0, 0), "E2");
    let (bare, rows) = accepted_as(&worked::e3());
    assert_eq!(rows, [ROOT, 0, 0, u32::MAX, 40, 40, 0, 0], "E3");
    assert_eq!(answer(&worked::e4()), (5, 16, 0), "E4");
    assert_eq!(answer(&worked::e5().bytes()), (12, 40, 0), "E5");
    assert_eq!(answer(&worked::e6().bytes()), (12, 40, 0), "E6");
    assert_eq!(answer(&worked::e7().bytes()), (5, 16, 0), "E7");
    assert_eq!(answer(&worked::e8().bytes()), (6, 16, 0), "E8");
    assert_eq!(answer(&worked::e9().bytes()), (4, 4, 0), "E9");
    let (bytes, _) = accepted_as(&worked::e10());
    assert_eq!(bytes.len(), 67, "E10");
    let listing = "cast 1 flags 0 nodes 2 bytes 67\n\
        row 0 kind 746F6F72 parent - own 24\n\
        row 1 kind 6E676177 parent 0 own 27\n\
        header 16\nfaces 0 degenerate 0\ntotal 67\n";
    assert_eq!(reference::listing(&bytes), listing.as_bytes(), "E10");
    let mut trimmed = vec![0; 40];
    let written = reference::trim(&bytes, 1, &mut common::table(), &mut trimmed);
    assert_eq!((written.number, written.length), (0, 40), "E10");
    assert_eq!(trimmed, bare, "E10");
}

#[test]
fn worked_faces() {
    let (bytes, _) = accepted_as(&worked::e11());
    assert_eq!(bytes.len(), 146, "E11");
    let (reading, _) = accepted(&bytes);
    assert_eq!((reading.faces, reading.degenerate), (1, 0), "E11");
    let (reading, _) = accepted(&triangle([0, 1, 1]).bytes());
    assert_eq!((reading.faces, reading.degenerate), (1, 1), "E11");
    assert_eq!(answer(&triangle([0, 1, 3]).bytes()), (15, 134, 0), "E12");
    accepted_as(&mesh(B, 0, &[]));
    assert_eq!(answer(&mesh(B, 3, &[0, 1]).bytes()).0, 15);
}
