//! Refusals 13 to 15: every line of the property rules.

mod common;

use common::*;

/// Kind, name in the full file, types, array, required.
type Line = (&'static [u8; 4], &'static str, &'static str, bool, bool);

const LINES: [Line; 81] = [
    (b"modl", "n", "s", false, false),
    (b"mesh", "n", "s", false, false),
    (b"mesh", "vp", "v3", true, true),
    (b"mesh", "vn", "v3", true, false),
    (b"mesh", "vt", "v3", true, false),
    (b"mesh", "c0", "i", true, false),
    (b"mesh", "u10", "v2", true, false),
    (b"mesh", "wb", "b h i", true, false),
    (b"mesh", "wv", "f", true, false),
    (b"mesh", "f", "b h i", true, true),
    (b"mesh", "cl", "b h i", false, false),
    (b"mesh", "ul", "b h i", false, false),
    (b"mesh", "mi", "b h i", false, false),
    (b"mesh", "sm", "s", false, false),
    (b"mesh", "m", "l", false, false),
    (b"blsh", "n", "s", false, true),
    (b"blsh", "b", "l", false, true),
    (b"blsh", "vi", "b h i", true, true),
    (b"blsh", "vp", "v3", true, true),
    (b"blsh", "ts", "f", true, false),
    (b"bone", "n", "s", false, true),
    (b"bone", "p", "i", false, false),
    (b"bone", "ssc", "b", false, false),
    (b"bone", "lp", "v3", false, false),
    (b"bone", "wp", "v3", false, false),
    (b"bone", "s", "v3", false, false),
    (b"bone", "lr", "v4", false, false),
    (b"bone", "wr", "v4", false, false),
    (b"ikhd", "n", "s", false, false),
    (b"ikhd", "sb", "l", false, true),
    (b"ikhd", "eb", "l", false, true),
    (b"ikhd", "tb", "l", false, false),
    (b"ikhd", "pv", "l", false, false),
    (b"ikhd", "pb", "l", false, false),
    (b"ikhd", "tr", "b", false, false),
    (b"cnst", "n", "s", false, false),
    (b"cnst", "ct", "s", false, true),
    (b"cnst", "cb", "l", false, true),
    (b"cnst", "tb", "l", false, true),
    (b"cnst", "mo", "b", false, false),
    (b"cnst", "sx", "b", false, false),
    (b"cnst", "sy", "b", false, false),
    (b"cnst", "sz", "b", false, false),
    (b"matl", "n", "s", false, true),
    (b"matl", "t", "s", false, true),
    (b"matl", "albedo", "l", false, false),
    (b"matl", "diffuse", "l", false, false),
    (b"matl", "normal", "l", false, false),
    (b"matl", "specular", "l", false, false),
    (b"matl", "emissive", "l", false, false),
    (b"matl", "gloss", "l", false, false),
    (b"matl", "roughness", "l", false, false),
    (b"matl", "ao", "l", false, false),
    (b"matl", "cavity", "l", false, false),
    (b"matl", "aniso", "l", false, false),
    (b"matl", "extra999", "l", false, false),
    (b"file", "p", "s", false, true),
    (b"anim", "n", "s", false, false),
    (b"anim", "fr", "f", false, true),
    (b"anim", "lo", "b", false, false),
    (b"curv", "nn", "s", false, true),
    (b"curv", "kp", "s", false, true),
    (b"curv", "kb", "b h i", true, true),
    (b"curv", "kv", "b h i f v4", true, true),
    (b"curv", "m", "s", false, true),
    (b"curv", "ab", "f", false, false),
    (b"CMOV", "nn", "s", false, true),
    (b"CMOV", "m", "s", false, true),
    (b"CMOV", "ot", "b", false, false),
    (b"CMOV", "or", "b", false, false),
    (b"CMOV", "os", "b", false, false),
    (b"ntif", "n", "s", false, true),
    (b"ntif", "kb", "b h i", true, true),
    (b"inst", "n", "s", false, false),
    (b"inst", "rf", "l", false, true),
    (b"inst", "p", "v3", false, true),
    (b"inst", "r", "v4", false, true),
    (b"inst", "s", "v3", false, true),
    (b"meta", "a", "s", false, false),
    (b"meta", "s", "s", false, false),
    (b"meta", "up", "s", false, false),
];

fn length_of(prop: &Prop) -> u32 {
    u32::from_le_bytes(prop.bytes[4..8].try_into().unwrap())
}

/// The bytes of a file, and where its first node of the kind and that node's property stand.
fn places(tree: &Node, kind: &[u8; 4], name: &str) -> (Vec<u8>, u32, u32) {
    let bytes = file(std::slice::from_ref(tree));
    let node = tree.clone().find(kind).clone();
    let header = place(&bytes, &node.bytes());
    let before = node.props.iter().take_while(|p| p.name != name);
    let before: usize = before.map(|p| p.bytes.len()).sum();
    (bytes, header, header + 24 + before as u32)
}

fn assert_fault(tree: &Node, kind: &[u8; 4], name: &str, number: u32) {
    let (bytes, header, prop) = places(tree, kind, name);
    let place = if number == 14 { header } else { prop };
    assert_refused(&bytes, number, place);
}

#[test]
fn the_full_file_has_every_line_once_and_nothing_else() {
    let mut tree = everything();
    accepted(&file(&[tree.clone()]));
    for (kind, name, types, _, _) in LINES {
        let prop = tree.find(kind).prop(name);
        let code = u16::from_le_bytes([prop.bytes[0], prop.bytes[1]]);
        let used = TYPES.iter().find(|line| line.1 == code).unwrap().0;
        assert!(types.split(' ').any(|t| t == used));
    }
    let kinds = [
        b"modl", b"mesh", b"blsh", b"bone", b"ikhd", b"cnst", b"matl", b"file", b"anim", b"curv",
        b"CMOV", b"ntif", b"inst", b"meta",
    ];
    let all = kinds.map(|kind| tree.find(kind).props.len());
    assert_eq!(all.iter().sum::<usize>(), LINES.len());
}

#[test]
fn thirteen_another_type() {
    for (kind, name, types, _, _) in LINES {
        for (other, _, _) in TYPES {
            if types.split(' ').any(|t| t == other) {
                continue;
            }
            let mut tree = everything();
            let prop = tree.find(kind).prop(name);
            *prop = zeros(other, name, length_of(prop));
            assert_fault(&tree, kind, name, 13);
        }
    }
}

#[test]
fn every_width_of_n_is_taken() {
    let values: [(&[u8; 4], &str, &[u64]); 8] = [
        (b"mesh", "wb", &[0, 1, 2, 3, 4, 255]),
        (b"mesh", "f", &[2, 1, 0]),
        (b"mesh", "cl", &[200]),
        (b"mesh", "ul", &[200]),
        (b"mesh", "mi", &[2]),
        (b"blsh", "vi", &[255, 9]),
        (b"curv", "kb", &[9, 3]),
        (b"ntif", "kb", &[1, 2, 3]),
    ];
    let listed = LINES.iter().filter(|line| line.2 == "b h i").count();
    assert_eq!(listed, values.len());
    for (kind, name, values) in values {
        for width in ["b", "h", "i"] {
            let mut tree = everything();
            *tree.find(kind).prop(name) = ints(width, name, values);
            accepted(&file(&[tree]));
        }
    }
}

#[test]
fn thirteen_single_with_another_length() {
    for (kind, name, types, array, _) in LINES {
        if array || types == "s" {
            continue;
        }
        for length in [0, 2, 3] {
            for width in types.split(' ') {
                let mut tree = everything();
                *tree.find(kind).prop(name) = zeros(width, name, length);
                assert_fault(&tree, kind, name, 13);
            }
        }
    }
}

#[test]
fn arrays_of_another_length_are_not_thirteen() {
    // The property that is then wrong, if any.
    let expected: [(&[u8; 4], &str, Option<&str>); 13] = [
        (b"mesh", "vp", Some("vn")),
        (b"mesh", "vn", Some("vn")),
        (b"mesh", "vt", Some("vt")),
        (b"mesh", "c0", Some("c0")),
        (b"mesh", "u10", Some("u10")),
        (b"mesh", "wb", Some("wb")),
        (b"mesh", "wv", Some("wv")),
        (b"mesh", "f", Some("f")),
        (b"blsh", "vi", Some("vp")),
        (b"blsh", "vp", Some("vp")),
        (b"blsh", "ts", None),
        (b"curv", "kb", Some("kv")),
        (b"curv", "kv", Some("kv")),
    ];
    let arrays = LINES.iter().filter(|line| line.3).count();
    assert_eq!(arrays, expected.len() + 1);
    for (kind, name, wrong) in expected {
        for more in [1, 2, 1000] {
            let mut tree = everything();
            let prop = tree.find(kind).prop(name);
            let line = LINES.iter().find(|l| l.0 == kind && l.1 == name).unwrap();
            let width = line.2.split(' ').next().unwrap();
            *prop = zeros(width, name, length_of(prop) + more);
            match wrong {
                Some(wrong) => assert_fault(&tree, kind, wrong, 15),
                None => assert_eq!(accepted(&file(&[tree])).0.nodes, 17),
            }
        }
    }
    let mut tree = everything();
    *tree.find(b"ntif").prop("kb") = zeros("i", "kb", 0);
    accepted(&file(&[tree]));
}

#[test]
fn fourteen_missing() {
    for (kind, name, _, _, required) in LINES {
        let mut tree = everything();
        tree.find(kind).props.retain(|p| p.name != name);
        let partner = kind == b"mesh" && ["wb", "wv", "mi"].contains(&name);
        if required || partner {
            assert_fault(&tree, kind, name, 14);
        } else {
            accepted(&file(&[tree]));
        }
    }
}

#[test]
fn fourteen_weights_come_together() {
    for (mask, number) in [
        (0, 0),
        (1, 14),
        (2, 14),
        (3, 14),
        (4, 0),
        (5, 14),
        (6, 14),
        (7, 0),
    ] {
        let mut tree = everything();
        let props = &mut tree.find(b"mesh").props;
        for (bit, name) in ["wb", "wv", "mi"].iter().enumerate() {
            props.retain(|p| p.name != *name || mask >> bit & 1 == 1);
        }
        match number {
            0 => assert_eq!(accepted(&file(&[tree])).0.faces, 2),
            _ => assert_fault(&tree, b"mesh", "", 14),
        }
    }
}

#[test]
fn thirteen_a_name_twice() {
    for (kind, name, _, _, _) in LINES {
        let mut tree = everything();
        let node = tree.find(kind);
        let again = node.prop(name).clone();
        let mut props = vec![zeros("d", "free", 2)];
        props.append(&mut node.props);
        props.push(again.clone());
        props.push(again);
        node.props = props;
        let node = node.clone();
        let bytes = file(&[tree]);
        let header = place(&bytes, &node.bytes()) as usize;
        let end = header + 24 + node.props.iter().map(|p| p.bytes.len()).sum::<usize>();
        let size = node.props.last().unwrap().bytes.len();
        assert_refused(&bytes, 13, (end - 2 * size) as u32);
    }
    // Free names, on nodes that list none; long names that differ late.
    for kind in [b"root", b"skel"] {
        let mut tree = everything();
        let long = "a".repeat(31);
        let names = [
            "x",
            "y",
            &(long.clone() + "b"),
            &(long.clone() + "c"),
            &long,
        ];
        tree.find(kind).props = names.map(|name| zeros("b", name, 1)).to_vec();
        accepted(&file(&[tree.clone()]));
        let again = zeros("d", &(long + "b"), 1);
        tree.find(kind).props.push(again.clone());
        let bytes = file(&[tree]);
        assert_refused(&bytes, 13, place(&bytes, &again.bytes));
    }
}

#[test]
fn thirteen_the_first_name_again_at_the_last_property() {
    let names: Vec<String> = (0..63).map(|n| format!("free{n}")).collect();
    let mut props: Vec<Prop> = names.iter().map(|name| zeros("b", name, 1)).collect();
    let again = zeros("h", "free0", 1);
    props.push(again.clone());
    let bytes = file(&[node(b"root", 0, props, vec![])]);
    assert_refused(&bytes, 13, place(&bytes, &again.bytes));
}

#[test]
fn a_byte_that_differs_from_a_listed_name_in_its_high_bit_is_free() {
    for (kind, name, _, _, _) in LINES {
        let mut tree = everything();
        for at in 0..name.len() {
            let mut near = name.as_bytes().to_vec();
            near[at] |= 0x80;
            let bytes = raw(0x64, &near, 2, &[0; 16]);
            let name = format!("near {name}");
            tree.find(kind).props.push(Prop { name, bytes });
            accepted(&file(&[tree.clone()]));
            tree.find(kind).props.pop();
        }
    }
}
