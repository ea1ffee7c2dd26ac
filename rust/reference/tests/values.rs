//! Refusal 15: the values of properties.

mod common;

use common::*;

/// The full file with one property replaced.
fn with(kind: &[u8; 4], prop: &Prop) -> Vec<u8> {
    let mut tree = everything();
    *tree.find(kind).prop(&prop.name) = prop.clone();
    file(&[tree])
}

fn assert_wrong(kind: &[u8; 4], prop: &Prop) {
    let bytes = with(kind, prop);
    assert_refused(&bytes, 15, place(&bytes, &prop.bytes));
}

#[test]
fn flags_are_zero_or_one() {
    let flags: [(&[u8; 4], &str); 10] = [
        (b"bone", "ssc"),
        (b"ikhd", "tr"),
        (b"cnst", "mo"),
        (b"cnst", "sx"),
        (b"cnst", "sy"),
        (b"cnst", "sz"),
        (b"anim", "lo"),
        (b"CMOV", "ot"),
        (b"CMOV", "or"),
        (b"CMOV", "os"),
    ];
    for (kind, name) in flags {
        for value in 0..=255 {
            let prop = ints("b", name, &[value]);
            if value <= 1 {
                accepted(&with(kind, &prop));
            } else {
                assert_wrong(kind, &prop);
            }
        }
    }
}

#[test]
fn strings_in_brackets() {
    let modes = "additive absolute relative";
    let sets: [(&[u8; 4], &str, &str); 5] = [
        (b"mesh", "sm", "linear quaternion"),
        (b"cnst", "ct", "pt or sc"),
        (b"curv", "m", modes),
        (b"CMOV", "m", modes),
        (b"meta", "up", "x y z"),
    ];
    for (kind, name, set) in sets {
        for word in set.split(' ') {
            accepted(&with(kind, &text(name, word)));
            assert_wrong(kind, &text(name, &format!("{word} ")));
            assert_wrong(kind, &text(name, &word[1..]));
            assert_wrong(kind, &text(name, &word.to_uppercase()));
        }
        for word in ["", "rq", "none"] {
            assert_wrong(kind, &text(name, word));
        }
    }
}

#[test]
fn key_values_have_the_type_of_kp() {
    let zero = |t: &str| zeros(t, "kv", 2);
    let curve = |kp: &str, kv: &Prop| {
        let mut tree = everything();
        *tree.find(b"curv").prop("kp") = text("kp", kp);
        *tree.find(b"curv").prop("kv") = kv.clone();
        tree
    };
    for kp in ["rq", "tx", "ty", "tz", "sx", "sy", "sz", "bs", "vb"] {
        for kv in ["b", "h", "i", "f", "v4"] {
            let right = match kp {
                "rq" => kv == "v4",
                "vb" => ["b", "h", "i"].contains(&kv),
                _ => kv == "f",
            };
            let bytes = file(&[curve(kp, &zero(kv))]);
            match right {
                true => assert_eq!(accepted(&bytes).0.nodes, 17),
                false => assert_refused(&bytes, 15, place(&bytes, &zero(kv).bytes)),
            }
        }
    }
    // A kp that is not listed wants f; the earlier of the two speaks.
    for word in ["", "rx", "t", "rqq", "vbb"] {
        let kp = text("kp", word);
        for kv in ["b", "f", "v4"] {
            let mut tree = curve(word, &zero(kv));
            let bytes = file(&[tree.clone()]);
            assert_refused(&bytes, 15, place(&bytes, &kp.bytes));
            tree.find(b"curv").props.reverse();
            let bytes = file(&[tree]);
            let wrong = if kv == "f" { &kp } else { &zero(kv) };
            assert_refused(&bytes, 15, place(&bytes, &wrong.bytes));
        }
    }
}

#[test]
fn paired_lengths_lie_at_vp_and_kv() {
    for reverse in [false, true] {
        for (kind, prop, wrong) in [
            (b"blsh", zeros("i", "vi", 0), zeros("v3", "vp", 2)),
            (b"curv", zeros("h", "kb", 5), ints("b", "kv", &[1, 0])),
        ] {
            let mut tree = everything();
            *tree.find(kind).prop(&prop.name) = prop.clone();
            if reverse {
                tree.find(kind).props.reverse();
            }
            let bytes = file(&[tree]);
            assert_refused(&bytes, 15, place(&bytes, &wrong.bytes));
        }
    }
    let mut tree = everything();
    *tree.find(b"blsh").prop("vi") = zeros("i", "vi", 0);
    *tree.find(b"blsh").prop("vp") = zeros("v3", "vp", 0);
    accepted(&file(&[tree]));
}

/// A mesh of `vertices` vertices with these properties besides.
fn mesh(vertices: u32, props: Vec<Prop>) -> Vec<u8> {
    let mut all = props;
    all.push(zeros("v3", "vp", vertices));
    if all.iter().all(|p| p.name != "f") {
        all.push(zeros("i", "f", 0));
    }
    modelled(vec![node(b"mesh", 0, all, vec![])])
}

#[test]
fn weights_are_as_long_as_mi_times_vertices() {
    let weights = |mi: Prop, wb: u32, wv: u32| vec![zeros("f", "wv", wv), mi, zeros("b", "wb", wb)];
    for (width, mi) in [("b", 3), ("h", 3), ("i", 3), ("b", 255), ("h", 300)] {
        let mi_prop = ints(width, "mi", &[mi]);
        let n = mi as u32 * 2;
        accepted(&mesh(2, weights(mi_prop.clone(), n, n)));
        let bytes = mesh(2, weights(mi_prop.clone(), n + 1, n));
        assert_refused(&bytes, 15, place(&bytes, &zeros("b", "wb", n + 1).bytes));
        let bytes = mesh(2, weights(mi_prop, n - 1, n + 1));
        assert_refused(&bytes, 15, place(&bytes, &zeros("f", "wv", n + 1).bytes));
    }
    accepted(&mesh(0, weights(ints("i", "mi", &[u64::MAX]), 0, 0)));
    accepted(&mesh(2, weights(ints("h", "mi", &[0]), 0, 0)));
    // 2^31 times 2 is not 0, and 65,537 times 65,537 is not 131,073.
    let bytes = mesh(2, weights(ints("i", "mi", &[1 << 31]), 0, 0));
    assert_refused(&bytes, 15, place(&bytes, &zeros("f", "wv", 0).bytes));
    let bytes = mesh(
        65_537,
        weights(ints("i", "mi", &[65_537]), 131_073, 131_073),
    );
    assert_refused(&bytes, 15, 88);
    // mi alone is not judged.
    accepted(&mesh(2, vec![ints("i", "mi", &[1 << 31])]));
}

#[test]
fn layers_are_as_long_as_vp() {
    for (width, names) in [
        ("i", ["c0", "c7", "c10", "c999"]),
        ("v2", ["u0", "u7", "u10", "u999"]),
    ] {
        for name in names {
            accepted(&mesh(2, vec![zeros(width, name, 2)]));
            for length in [0, 1, 3] {
                assert_refused(&mesh(2, vec![zeros(width, name, length)]), 15, 88);
            }
            assert_refused(&mesh(2, vec![zeros("d", name, 2)]), 13, 88);
        }
    }
    for name in [
        "c", "c00", "c01", "c1000", "c1a", "ca", "c-1", "u", "u00", "u1000", "cc0", "vc",
    ] {
        accepted(&mesh(2, vec![zeros("d", name, 5)]));
    }
    // Each layer is a name of its own.
    accepted(&mesh(
        1,
        vec![
            zeros("i", "c0", 1),
            zeros("i", "c1", 1),
            zeros("d", "c00", 1),
        ],
    ));
    let twice = vec![zeros("i", "c5", 1), zeros("i", "c5", 1)];
    assert_refused(&mesh(1, twice), 13, 88 + 14);
}

#[test]
fn faces_are_counted() {
    for width in ["b", "h", "i"] {
        let faces = [0, 1, 2, 5, 5, 5, 3, 4, 3, 1, 1, 0, 0, 1, 1, 4, 2, 0];
        let (reading, _) = accepted(&mesh(6, vec![ints(width, "f", &faces)]));
        assert_eq!((reading.faces, reading.degenerate), (6, 4));
        assert_refused(&mesh(5, vec![ints(width, "f", &faces)]), 15, 88);
        for length in 0..18 {
            let bytes = mesh(6, vec![ints(width, "f", &faces[..length])]);
            match length % 3 {
                0 => assert_eq!(accepted(&bytes).0.faces as usize, length / 3),
                _ => assert_refused(&bytes, 15, 88),
            }
        }
        for wrong in 0..9 {
            let mut values = [0; 9];
            values[wrong] = 6;
            assert_refused(&mesh(6, vec![ints(width, "f", &values)]), 15, 88);
        }
    }
    // Unsigned: a high bit is a big index.
    assert_refused(&mesh(6, vec![ints("b", "f", &[0, 0, 0x80])]), 15, 88);
    accepted(&mesh(0x81, vec![ints("b", "f", &[0, 0, 0x80])]));
    accepted(&mesh(0x8001, vec![ints("h", "f", &[0, 0, 0x8000])]));
    assert_refused(&mesh(6, vec![ints("i", "f", &[0, 0, 0xFFFF_FFFF])]), 15, 88);
    assert_refused(&mesh(0, vec![ints("b", "f", &[0, 0, 0])]), 15, 88);
    // Faces of several meshes add up.
    let part = |faces: &[u64]| {
        let props = vec![ints("h", "f", faces), zeros("v3", "vp", 3)];
        node(b"mesh", 0, props, vec![])
    };
    let bytes = modelled(vec![part(&[0, 1, 2, 0, 0, 0]), part(&[1, 1, 1])]);
    let (reading, _) = accepted(&bytes);
    assert_eq!((reading.faces, reading.degenerate), (3, 2));
}

#[test]
fn bone_parents() {
    let bone = |p: u64| {
        node(
            b"bone",
            0,
            vec![text("n", ""), ints("i", "p", &[p])],
            vec![],
        )
    };
    let skeleton = |parents: &[u64]| {
        let mut children: Vec<Node> = parents.iter().map(|&p| bone(p)).collect();
        children.push(unknown(0, &bone(0).bytes()));
        children[0].children.push(unknown(0, &[]));
        node(b"skel", 0, vec![], children)
    };
    // -1, itself and later ones; only this skeleton's bones count, wherever they stand.
    accepted(&modelled(vec![skeleton(&[0xFFFF_FFFF, 0, 2, 1])]));
    accepted(&modelled(vec![skeleton(&[3, 2, 1, 0]), skeleton(&[0])]));
    accepted(&modelled(vec![skeleton(&[0]), skeleton(&[3, 2, 1, 0])]));
    for (first, second, wrong) in [
        (vec![4, 0, 0, 0], vec![0], 0),
        (vec![0], vec![0, 0, 0, 4], 1),
        (vec![0, 0, 0], vec![1], 1),
        (vec![1], vec![0, 0, 0], 0),
        (vec![0xFFFF_FFFE], vec![0], 0),
        (vec![0], vec![0x8000_0000], 1),
    ] {
        let bytes = modelled(vec![skeleton(&first), skeleton(&second)]);
        let value = [&first, &second][wrong].iter().max().unwrap();
        let prop = ints("i", "p", &[*value]);
        assert_refused(&bytes, 15, place(&bytes, &prop.bytes));
    }
    // A bone after an IKHandle counts too.
    let mut mixed = everything();
    let last = bone(1);
    mixed.find(b"skel").children.push(last);
    accepted(&file(&[mixed.clone()]));
    *mixed.find(b"skel").children[3].prop("p") = ints("i", "p", &[2]);
    let bytes = file(&[mixed]);
    assert_refused(&bytes, 15, place(&bytes, &ints("i", "p", &[2]).bytes));
}

#[test]
fn names_near_a_listed_one_are_free() {
    for name in [
        "speculas",
        "specula",
        "speculara",
        "emissiva",
        "roughnesz",
        "roughnass",
        "albed",
        "albedoo",
        "diffusf",
        "extra",
        "extra00",
        "extra1000",
        "extr0",
        "extrb0",
        "nn",
        "tt",
    ] {
        let mut tree = everything();
        tree.find(b"matl").props.push(zeros("d", name, 3));
        assert_eq!(accepted(&file(&[tree])).0.links, 21);
    }
}

#[test]
fn unknown_nodes_are_not_read() {
    let mut inside = node(
        b"mesh",
        0,
        vec![zeros("d", "x", 1), zeros("d", "x", 1)],
        vec![],
    )
    .bytes();
    inside.extend([0xFF; 50]);
    for parent in [
        b"root", b"modl", b"mesh", b"bone", b"file", b"curv", b"meta",
    ] {
        let mut tree = everything();
        tree.find(parent).children.push(unknown(3, &inside));
        let (reading, _) = accepted(&file(&[tree]));
        assert_eq!((reading.nodes, reading.links, reading.faces), (18, 21, 2));
        assert_eq!(reading.own_unknown as usize, 24 + inside.len());
    }
}
