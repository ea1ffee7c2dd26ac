//! Refusals 1 to 12.

mod common;

use common::*;
use reference::{read, walk};

/// A root whose body is these bytes, said to be `count` properties.
fn root_with(count: u32, body: &[u8]) -> Vec<u8> {
    let mut root = root(vec![]);
    root.rest = body.to_vec();
    let mut file = file(&[root]);
    put(&mut file, 32, count);
    file
}

#[test]
fn two_file_too_long() {
    let longest = rooted(vec![unknown(0, &vec![7; 16_777_216 - 64])]);
    assert_eq!(longest.len(), 16_777_216);
    assert_eq!(accepted(&longest).0.own_unknown, 16_777_216 - 40);
    assert_refused(&vec![0; 16_777_217], 2, 0);
    // The walk alone does not mind.
    let longer = rooted(vec![unknown(0, &vec![7; 16_777_217 - 64])]);
    assert_eq!(walk(&longer, &mut table()), (0, 0, 2));
    assert_refused(&longer, 2, 0);
}

#[test]
fn three_header() {
    let whole = file(&[]);
    assert_refused(&whole[..15], 3, 0);
    for i in 0..4 {
        let mut wrong = whole.clone();
        wrong[i] ^= 0x20;
        assert_refused(&wrong, 3, 0);
    }
}

#[test]
fn four_version() {
    for version in [0, 2, 0x0100_0000, u32::MAX] {
        let mut file = file(&[]);
        put(&mut file, 4, version);
        assert_refused(&file, 4, 4);
    }
}

#[test]
fn five_node_does_not_fit() {
    // Counts are believed.
    let mut file = file(&[]);
    put(&mut file, 8, u32::MAX);
    assert_refused(&file, 5, 16);
    let mut two = rooted(vec![]);
    put(&mut two, 8, 2);
    assert_refused(&two, 5, 40);
    let mut childless = rooted(vec![]);
    put(&mut childless, 36, 1);
    assert_refused(&childless, 5, 40);
    // Past the enclosing node, though not past the file.
    let mut inner = rooted(vec![unknown(0, &[]), unknown(0, &[])]);
    put(&mut inner, 44, 49);
    assert_refused(&inner, 5, 40);
    put(&mut inner, 44, 48);
    assert_refused(&inner, 5, 88);
    put(&mut inner, 44, u32::MAX);
    assert_refused(&inner, 5, 40);
    // Past the file.
    let mut outer = rooted(vec![]);
    put(&mut outer, 20, 25);
    assert_refused(&outer, 5, 16);
    // Data eats what was meant for a child.
    let mut eaten = rooted(vec![unknown(0, b"0123456789")]);
    put(&mut eaten, 32, 1);
    eaten[40..49].copy_from_slice(b"b\0\x01\0\x10\0\0\0x");
    assert_refused(&eaten, 5, 65);
}

#[test]
fn six_kind_not_allowed() {
    let kinds = [
        b"root", b"modl", b"mesh", b"blsh", b"skel", b"bone", b"ikhd", b"cnst", b"anim", b"curv",
        b"CMOV", b"ntif", b"matl", b"file", b"inst", b"meta",
    ];
    let parents: [(&[u8; 4], &[&[u8; 4]]); 5] = [
        (b"root", &[b"modl", b"anim", b"inst", b"meta"]),
        (b"modl", &[b"mesh", b"blsh", b"skel", b"matl"]),
        (b"skel", &[b"bone", b"ikhd", b"cnst"]),
        (b"anim", &[b"curv", b"CMOV", b"ntif"]),
        (b"matl", &[b"file"]),
    ];
    let nest = |path: &[&[u8; 4]]| {
        let mut nodes = path.iter().rev();
        let mut inner = node(nodes.next().unwrap(), 0, vec![], vec![]);
        for kind in nodes {
            inner = node(kind, 0, vec![], vec![inner]);
        }
        file(&[inner])
    };
    // At the top only a root, not even an unknown node.
    for kind in kinds {
        let number = walk(&nest(&[kind]), &mut table()).0;
        assert_eq!(number, if kind == b"root" { 0 } else { 6 });
    }
    assert_refused(&file(&[unknown(0, &[])]), 6, 16);
    // Each kind below each.
    for parent in kinds {
        let path: Vec<&[u8; 4]> = match parent {
            b"root" => vec![b"root"],
            b"modl" | b"anim" | b"inst" | b"meta" => vec![b"root", parent],
            b"mesh" | b"blsh" | b"skel" | b"matl" => vec![b"root", b"modl", parent],
            b"bone" | b"ikhd" | b"cnst" => vec![b"root", b"modl", b"skel", parent],
            b"file" => vec![b"root", b"inst", parent],
            _ => vec![b"root", b"anim", parent],
        };
        for child in kinds {
            let listed = parents
                .iter()
                .any(|(p, children)| *p == parent && children.contains(&child));
            let allowed = listed || (parent == b"inst" && child == b"file");
            let place = 16 + 24 * path.len() as u32;
            let expected = match allowed {
                true => (0, 0, path.len() as u32 + 1),
                false => (6, place, 0),
            };
            let inner = [path.clone(), vec![child]].concat();
            assert_eq!(walk(&nest(&inner), &mut table()), expected);
        }
        let inner = [path.clone(), vec![b"?!?!"]].concat();
        let nodes = path.len() as u32 + 1;
        assert_eq!(walk(&nest(&inner), &mut table()), (0, 0, nodes));
    }
}

#[test]
fn seven_too_many_nodes() {
    let full = rooted(vec![unknown(9, &[]); 1023]);
    let (reading, rows) = accepted(&full);
    assert_eq!(reading.nodes, 1024);
    let start = 16 + 24 * 1024;
    assert_eq!(rows[1023], [kind(b"wagn"), 9, 0, 0, start, start, 0, 0]);
    let over = rooted(vec![unknown(9, &[]); 1024]);
    assert_refused(&over, 7, start);
}

#[test]
fn nine_too_many_properties() {
    let props: Vec<Prop> = (0..65).map(|i| zeros("d", &format!("x{i}"), 0)).collect();
    let full = file(&[node(b"root", 0, props[..64].to_vec(), vec![])]);
    assert_eq!(accepted(&full).1[0][6], 64);
    let over = file(&[node(b"root", 0, props, vec![])]);
    assert_refused(&over, 9, 16);
    // An unknown node's counts may be anything.
    let mut file = rooted(vec![unknown(0, b"abc")]);
    put(&mut file, 56, u32::MAX);
    put(&mut file, 60, u32::MAX);
    let row = [kind(b"wagn"), 0, 0, 0, 64, 67, u32::MAX, u32::MAX];
    assert_eq!(accepted(&file).1[1], row);
}

#[test]
fn ten_property_does_not_fit() {
    let whole = raw(0x69, b"xyz", 2, &[0; 8]);
    for cut in 0..whole.len() {
        assert_refused(&root_with(1, &whole[..cut]), 10, 40);
    }
    assert_eq!(accepted(&root_with(1, &whole)).1[0][5], 59);
    // The second of two, and one that is only counted.
    let two = [whole.clone(), raw(0x69, b"x", 1, &[0; 3])].concat();
    assert_refused(&root_with(2, &two), 10, 59);
    assert_refused(&root_with(2, &whole), 10, 59);
    // A string without an end, and a length that would wrap.
    assert_refused(&root_with(1, &raw(0x73, b"s", 1, b"abc")), 10, 40);
    assert_refused(&root_with(1, &raw(0x73, b"s", 1, &[7; 300])), 10, 40);
    for length in [0x1000_0000, 0x2000_0001, u32::MAX] {
        assert_refused(&root_with(1, &raw(0x7634, b"v", length, &[0; 16])), 10, 40);
        assert_refused(&root_with(1, &raw(0x6C, b"v", length, &[0; 8])), 10, 40);
    }
    // The node's end counts, not the file's.
    let mut file = rooted(vec![
        node(b"meta", 0, vec![text("a", "me")], vec![]),
        unknown(0, &[0; 40]),
    ]);
    file[64] = 0x6C;
    file[65] = 0;
    assert_refused(&file, 10, 64);
}

#[test]
fn eleven_type_name_or_string_length() {
    let refused = |bytes: &[u8]| assert_refused(&root_with(1, bytes), 11, 40);
    for type_code in [0, 0x61, 0x162, 0x7631, 0x7635, 0x3376, 0xFFFF] {
        refused(&raw(type_code, b"x", 0, &[]));
    }
    refused(&raw(0x62, b"", 0, &[]));
    refused(&raw(0x62, &[b'x'; 33], 0, &[]));
    assert_eq!(
        accepted(&root_with(1, &raw(0x62, &[b'x'; 32], 0, &[]))).1[0][5],
        80
    );
    refused(&raw(0x62, b"x\0y", 0, &[]));
    for letter in b'A'..=b'Z' {
        refused(&raw(0x62, &[b'x', letter], 0, &[]));
    }
    for byte in (1..=255u8).filter(|b| !b.is_ascii_uppercase()) {
        accepted(&root_with(1, &raw(0x62, &[byte], 0, &[])));
    }
    for length in [0, 2, u32::MAX] {
        refused(&raw(0x73, b"s", length, b"abc\0def\0"));
    }
}

#[test]
fn order_within_a_property() {
    let check = |bytes: &[u8], number| assert_refused(&root_with(1, bytes), number, 40);
    // Type before name size; name size before the name's fit.
    check(b"\x61\0\xFF\xFF\0\0\0\0", 11);
    check(b"\x62\0\x21\0\0\0\0\0", 11);
    check(b"\x62\0\x20\0\0\0\0\0", 10);
    // The name's fit before its bytes; its bytes before the string's length and the data's fit.
    check(b"\x62\0\x03\0\0\0\0\0A\0", 10);
    check(b"\x62\0\x02\0\x09\0\0\0A\0", 11);
    check(b"\x73\0\x01\0\x01\0\0\0A", 11);
    // A string's length before its data's fit.
    check(b"\x73\0\x01\0\x02\0\0\0a", 11);
    check(b"\x73\0\x01\0\x01\0\0\0a", 10);
}

#[test]
fn twelve_bytes_left() {
    let mut none = file(&[]);
    none.push(0);
    assert_refused(&none, 12, 16);
    // After the properties of a childless node, after the last child, after the last root.
    let mut leaf = node(b"meta", 0, vec![text("a", "me")], vec![]);
    leaf.rest = vec![0];
    assert_refused(&rooted(vec![leaf]), 12, 76);
    let mut file = rooted(vec![unknown(0, &[]), unknown(0, &[])]);
    put(&mut file, 36, 1);
    assert_refused(&file, 12, 64);
    let mut roots = rooted(vec![]);
    roots.extend([0; 30]);
    assert_refused(&roots, 12, 40);
}

#[test]
fn walk_answers_and_tables() {
    let file = rooted(vec![unknown(3, b"abc")]);
    let mut short = vec![OLD; 8191];
    assert_eq!(walk(&file, &mut short), (1, 0, 0));
    assert!(short.iter().all(|&n| n == OLD));
    let mut rows = table();
    assert_eq!(walk(&file, &mut rows), (0, 0, 2));
    assert_eq!(rows_of(&rows, 2), accepted(&file).1);
    assert_eq!(walk(&file[..50], &mut rows), (5, 16, 0));
    assert_cleared(&rows);
    // A mesh without its vertices passes the walk alone.
    let mesh = modelled(vec![node(b"mesh", 0, vec![], vec![])]);
    assert_eq!(walk(&mesh, &mut rows), (0, 0, 3));
    assert_refused(&mesh, 14, 64);
}

#[test]
fn hashes_flags_and_counts_are_kept() {
    let inner = node(b"meta", 0x0123_4567_89AB_CDEF, vec![text("a", "")], vec![]);
    let roots = [root(vec![]), node(b"root", u64::MAX, vec![], vec![inner])];
    let file = file_with_flags(0xDEAD_BEEF, &roots);
    let mut table = table();
    let reading = read(&file, &mut table);
    assert_eq!((reading.nodes, reading.flags), (3, 0xDEAD_BEEF));
    let expected = [
        [0x746F_6F72, 0, 0, NONE, 40, 40, 0, 0],
        [0x746F_6F72, NONE, NONE, NONE, 64, 64, 0, 1],
        [0x6174_656D, 0x89AB_CDEF, 0x0123_4567, 1, 88, 98, 1, 0],
    ];
    assert_eq!(rows_of(&table, 3), expected);
}
