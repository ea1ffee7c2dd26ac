//! The worked files of the rules, file headers, and tables that are too short for any file.

use super::placed::{elements, minimal, placed, put};
use super::{Reads, LONGEST};
use crate::keep::ALL;
use corpus::format::{B, H, I, METADATA, TABLE};
use corpus::tree::File;
use corpus::worked::{changed, e1, e10, e11, e3, e4, e5, e6, e7, e8, e9, mesh, triangle};
use reference::Reading;

/// Lengths of tables without room for 1,024 rows.
const SHORT: [usize; 9] = [0, 1, 7, 8, 16, 4_096, 8_184, 8_190, 8_191];

pub fn add(reads: &mut Reads) {
    add_small(reads);
    add_meshes(reads);
    add_headers(reads);
    add_tables(reads);
}

fn add_small(reads: &mut Reads) {
    reads.cases.sweep("reads worked: small", ALL);
    reads.accepted(&e1());
    reads.refused(&[], 3, 0);
    reads.accepted(&e3());
    reads.refused(&e4(), 5, 16);
    reads.refused(&e5().bytes(), 12, 40);
    reads.refused(&e6().bytes(), 12, 40);
    reads.refused(&e7().bytes(), 5, 16);
    reads.refused(&e8().bytes(), 6, 16);
    reads.refused(&e9().bytes(), 4, 4);
    let sums = reads.accepted(&e10());
    assert_eq!((sums.own_known, sums.own_unknown), (24, 27));
}

/// E11, E12, and their like in wider numbers.
fn add_meshes(reads: &mut Reads) {
    reads.cases.sweep("reads worked: meshes", 8);
    assert_eq!(e11().bytes().len(), 146);
    let told = Reading {
        nodes: 3,
        own_known: 130,
        faces: 1,
        ..Reading::default()
    };
    assert_eq!(reads.accepted(&e11()), told);
    for code in [B, H, I] {
        let sums = reads.accepted(&mesh(code, 3, &[0, 1, 2]));
        assert_eq!((sums.faces, sums.degenerate), (1, 0));
        let sums = reads.accepted(&mesh(code, 3, &[0, 1, 1]));
        assert_eq!((sums.faces, sums.degenerate), (1, 1));
        reads.refused(&mesh(code, 3, &[0, 1, 3]).bytes(), 15, 134);
        reads.accepted(&mesh(code, 0, &[]));
        reads.refused(&mesh(code, 0, &[0, 0]).bytes(), 15, 98);
        reads.refused(&mesh(code, 3, &[0, 1]).bytes(), 15, 134);
        reads.refused(&mesh(code, 0, &[0, 0, 0]).bytes(), 15, 98);
    }
}

/// First four bytes that differ in one bit, versions, flags, and cuts.
fn add_headers(reads: &mut Reads) {
    reads.cases.sweep("reads worked: headers", 6);
    for bit in 0..32 {
        let magic = |file: &mut File| file.magic[bit / 8] ^= 1 << (bit % 8);
        reads.refused(&changed(magic).bytes(), 3, 0);
    }
    for version in [0, 2, 0x101, 0x1_0000, 0x1_0001, 0x0100_0000, u32::MAX] {
        reads.refused(&changed(|file| file.version = version).bytes(), 4, 4);
    }
    for flags in [0, 1, 0x0102_0304, 0x8000_0000, u32::MAX] {
        reads.accepted(&changed(|file| file.flags = flags));
        reads.accepted(&File::new(flags, Vec::new()));
    }
    let whole = e11().bytes();
    for end in 0..whole.len() {
        let (number, place) = if end < 16 { (3, 0) } else { (5, 16) };
        reads.refused(&whole[..end], number, place);
    }
}

/// Refusal 1 comes before all others, and leaves the table; numbers past 8,192 stay.
fn add_tables(reads: &mut Reads) {
    reads.cases.sweep("reads worked: tables", 6);
    let mut double = minimal(METADATA);
    put(&mut double, elements(B, "x", 0));
    let double_name = double.properties[0].clone();
    double.properties.push(double_name);
    let files = [
        e3().bytes(),
        e10().bytes(),
        Vec::new(),
        b"cost\x02".repeat(4),
        e11().bytes(),
        triangle([0, 1, 3]).bytes(),
        placed(double).file.bytes(),
        e11().bytes()[..100].to_vec(),
    ];
    for file in &files {
        for length in SHORT {
            let told = Reading {
                number: 1,
                ..Reading::default()
            };
            assert_eq!(reads.add_with(file, length), told);
        }
        for length in [TABLE, TABLE + 1, TABLE + 7, TABLE + 8, LONGEST] {
            assert_ne!(reads.add_with(file, length).number, 1);
        }
    }
}
