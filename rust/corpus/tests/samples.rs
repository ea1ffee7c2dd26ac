//! The wagons among the samples are taken or refused as their makers tell.

mod common;

use common::{accepted_as, read};
use corpus::format::{is_known, KINDS, MESH};
use corpus::samples::{flat_wagon, lost_material, noted_wagon, rolling_wagon, torn_face};
use corpus::tree::File;
use std::collections::BTreeSet;

#[test]
fn whole_wagons() {
    let mut kinds = BTreeSet::new();
    for (name, file) in [
        ("flat", flat_wagon()),
        ("noted", noted_wagon()),
        ("rolling", rolling_wagon()),
    ] {
        let (bytes, rows) = accepted_as(&file);
        let nodes = rows.len() / 8;
        println!("{name}: {} bytes, {nodes} nodes", bytes.len());
        assert!((500..5_000).contains(&bytes.len()));
        kinds.extend(file.nodes().iter().map(|node| node.kind));
    }
    for (kind, name) in KINDS {
        assert!(kinds.contains(&kind), "no {name}");
    }
}

#[test]
fn notes_at_every_depth() {
    let file = noted_wagon();
    assert_ne!(file.flags, 0);
    let nodes = file.nodes();
    let places = file.encode().nodes;
    let depths: BTreeSet<usize> = (0..nodes.len())
        .filter(|&row| !is_known(nodes[row].kind))
        .map(|row| places[row].depth)
        .collect();
    assert_eq!(depths, BTreeSet::from([2, 3, 4, 5]));
}

/// Refused with this number at a property of the mesh.
fn assert_refused(file: &File, number: u32, name: &str) {
    let row = file.rows_of(MESH)[0];
    let index = file.node(row).position(name).expect("the property");
    let encoded = file.encode();
    let place = encoded.nodes[row].properties[index].offset;
    let (reading, _) = read(&encoded.bytes);
    assert_eq!((reading.number, reading.place), (number, place as u32));
}

#[test]
fn refused_wagons() {
    assert_refused(&lost_material(), 16, "m");
    assert_refused(&torn_face(), 15, "f");
}
