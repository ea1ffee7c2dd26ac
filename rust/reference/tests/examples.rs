//! The worked files.

mod common;

use common::*;
use reference::{listing, read, trim, Reading, Written};

const ROOT: u32 = 0x746F_6F72;
const MODEL: u32 = 0x6C64_6F6D;
const MESH: u32 = 0x6873_656D;

fn e1() -> Vec<u8> {
    b"cast\x01\0\0\0\0\0\0\0\0\0\0\0".to_vec()
}

fn e3() -> Vec<u8> {
    b"cast\x01\0\0\0\x01\0\0\0\0\0\0\0root\x18\0\0\0\0\0\0\0\0\0\0\0\0\0\0\0\0\0\0\0".to_vec()
}

fn e10() -> Vec<u8> {
    let mut file = e3();
    put(&mut file, 20, 51);
    put(&mut file, 36, 1);
    file.extend([0x77, 0x61, 0x67, 0x6E]);
    file.extend(b"\x1B\0\0\0\0\0\0\0\0\0\0\0\0\0\0\0\0\0\0\0abc");
    file
}

fn e11(face: &[u8; 3]) -> Vec<u8> {
    let mut file = e3();
    put(&mut file, 20, 130);
    put(&mut file, 36, 1);
    file.extend(b"modl\x6A\0\0\0\0\0\0\0\0\0\0\0\0\0\0\0\x01\0\0\0");
    file.extend(b"mesh\x52\0\0\0\0\0\0\0\0\0\0\0\x02\0\0\0\0\0\0\0");
    file.extend(b"\x33\x76\x02\0\x03\0\0\0vp");
    file.extend([0; 36]);
    file.extend(b"\x62\0\x01\0\x03\0\0\0f");
    file.extend(face);
    file
}

fn mesh(vertices: u32, face: &[u64]) -> Vec<u8> {
    let props = vec![zeros("v3", "vp", vertices), ints("b", "f", face)];
    modelled(vec![node(b"mesh", 0, props, vec![])])
}

#[test]
fn e1_no_roots() {
    assert_eq!(accepted(&e1()), (Reading::default(), vec![]));
}

#[test]
fn e2_empty_input() {
    assert_refused(&[], 3, 0);
}

#[test]
fn e3_one_bare_root() {
    let file = e3();
    assert_eq!(file.len(), 40);
    let reading = Reading {
        nodes: 1,
        own_known: 24,
        ..Reading::default()
    };
    let rows = vec![[ROOT, 0, 0, NONE, 40, 40, 0, 0]];
    assert_eq!(accepted(&file), (reading, rows));
}

#[test]
fn e4_to_e9() {
    assert_refused(&e3()[..39], 5, 16);
    let mut longer = e3();
    longer.push(0);
    assert_refused(&longer, 12, 40);
    put(&mut longer, 20, 25);
    assert_refused(&longer, 12, 40);
    let mut short = e3();
    put(&mut short, 20, 23);
    assert_refused(&short, 5, 16);
    let mut mesh = e3();
    put(&mut mesh, 16, MESH);
    assert_refused(&mesh, 6, 16);
    let mut version = e3();
    put(&mut version, 4, 2);
    assert_refused(&version, 4, 4);
}

#[test]
fn e10_trimmed_is_e3() {
    let file = e10();
    assert_eq!(file.len(), 67);
    let reading = Reading {
        nodes: 2,
        own_known: 24,
        own_unknown: 27,
        ..Reading::default()
    };
    let rows = vec![
        [ROOT, 0, 0, NONE, 40, 40, 0, 1],
        [0x6E67_6177, 0, 0, 0, 64, 67, 0, 0],
    ];
    assert_eq!(accepted(&file), (reading, rows));

    let mut table = table();
    let mut out = [0xEE; 50];
    let written = trim(&file, 1, &mut table, &mut out);
    let expected = Written {
        number: 0,
        place: 0,
        length: 40,
    };
    assert_eq!(written, expected);
    assert_eq!(out[..40], e3());
    assert_eq!(out[40..], [0xEE; 10]);
    assert_eq!(rows_of(&table, 1), [[ROOT, 0, 0, NONE, 40, 40, 0, 0]]);
}

#[test]
fn e10_listing() {
    let expected = "cast 1 flags 0 nodes 2 bytes 67\n\
                    row 0 kind 746F6F72 parent - own 24\n\
                    row 1 kind 6E676177 parent 0 own 27\n\
                    header 16\n\
                    faces 0 degenerate 0\n\
                    total 67\n";
    assert_eq!(listing(&e10()), expected.as_bytes());
}

#[test]
fn e11_one_face() {
    let file = e11(&[0, 1, 2]);
    assert_eq!(file.len(), 146);
    let mut reading = Reading {
        nodes: 3,
        own_known: 130,
        faces: 1,
        ..Reading::default()
    };
    let rows = vec![
        [ROOT, 0, 0, NONE, 40, 40, 0, 1],
        [MODEL, 0, 0, 0, 64, 64, 0, 1],
        [MESH, 0, 0, 1, 88, 146, 2, 0],
    ];
    assert_eq!(accepted(&file), (reading, rows.clone()));
    assert_eq!(file, mesh(3, &[0, 1, 2]));

    reading.degenerate = 1;
    assert_eq!(accepted(&e11(&[0, 1, 1])), (reading, rows));
}

#[test]
fn e12_no_such_vertex() {
    assert_refused(&e11(&[0, 1, 3]), 15, 134);
}

#[test]
fn no_vertices_and_no_faces() {
    let (reading, rows) = accepted(&mesh(0, &[]));
    assert_eq!(
        (reading.nodes, reading.faces, reading.degenerate),
        (3, 0, 0)
    );
    assert_eq!(rows[2], [MESH, 0, 0, 1, 88, 107, 2, 0]);
}

#[test]
fn f_of_length_two() {
    assert_refused(&mesh(3, &[0, 1]), 15, 134);
}

#[test]
fn tables_of_three_lengths() {
    let file = e10();
    let mut short = vec![OLD; 8191];
    assert_eq!(read(&file, &mut short), refusal(1, 0));
    assert!(short.iter().all(|&n| n == OLD));
    assert_eq!(read(&[], &mut short), refusal(1, 0));
    assert!(short.iter().all(|&n| n == OLD));

    let mut exact = vec![OLD; 8192];
    assert_eq!(read(&file, &mut exact).nodes, 2);
    assert_eq!(exact[8..12], [0x6E67_6177, 0, 0, 0]);
    assert!(exact[16..].iter().all(|&n| n == 0));

    let mut longer = vec![OLD; 8200];
    assert_eq!(read(&file, &mut longer).nodes, 2);
    assert!(longer[16..8192].iter().all(|&n| n == 0));
    assert_eq!(longer[8192..], [OLD; 8]);
}
