//! Refusals 16 and 17.

mod common;

use common::*;

fn material(hash: u64) -> Node {
    node(b"matl", hash, vec![text("n", ""), text("t", "")], vec![])
}

fn mesh(hash: u64, m: u64) -> Node {
    let props = vec![
        zeros("v3", "vp", 0),
        zeros("b", "f", 0),
        ints("l", "m", &[m]),
    ];
    node(b"mesh", hash, props, vec![])
}

#[test]
fn all_links_of_the_full_file_are_counted() {
    // IKHandle 5, Constraint 2, Mesh 1, BlendShape 1, Material 11, Instance 1.
    let (reading, rows) = accepted(&file(&[everything()]));
    assert_eq!(reading.links, 21);
    assert_eq!((reading.faces, reading.degenerate), (2, 1));
    assert_eq!((reading.nodes as usize, rows.len()), (17, 17));
}

#[test]
fn each_link_reaches_its_own_kind_only() {
    let lines: [(&[u8; 4], &str, &[u8; 4]); 21] = [
        (b"mesh", "m", b"matl"),
        (b"blsh", "b", b"mesh"),
        (b"ikhd", "sb", b"bone"),
        (b"ikhd", "eb", b"bone"),
        (b"ikhd", "tb", b"bone"),
        (b"ikhd", "pv", b"bone"),
        (b"ikhd", "pb", b"bone"),
        (b"cnst", "cb", b"bone"),
        (b"cnst", "tb", b"bone"),
        (b"matl", "albedo", b"file"),
        (b"matl", "diffuse", b"file"),
        (b"matl", "normal", b"file"),
        (b"matl", "specular", b"file"),
        (b"matl", "emissive", b"file"),
        (b"matl", "gloss", b"file"),
        (b"matl", "roughness", b"file"),
        (b"matl", "ao", b"file"),
        (b"matl", "cavity", b"file"),
        (b"matl", "aniso", b"file"),
        (b"matl", "extra999", b"file"),
        (b"inst", "rf", b"file"),
    ];
    for (from, name, to) in lines {
        // No node has the hash but one of the wanted kind, moved to it last.
        let far = 0xFEED_0000_0000_0001;
        let mut tree = everything();
        let link = ints("l", name, &[far]);
        *tree.find(from).prop(name) = link.clone();
        let bytes = file(&[tree.clone()]);
        assert_refused(&bytes, 16, place(&bytes, &link.bytes));
        for other in [
            b"root", b"modl", b"mesh", b"blsh", b"skel", b"bone", b"ikhd", b"cnst", b"anim",
            b"curv", b"CMOV", b"ntif", b"matl", b"file", b"inst", b"meta",
        ] {
            let mut moved = tree.clone();
            let extra = match other {
                b"bone" | b"file" | b"matl" | b"mesh" => {
                    let mut copy = everything().find(other).clone();
                    copy.children.clear();
                    copy.props.retain(|p| p.bytes[0] != 0x6C);
                    copy.hash = far;
                    copy
                }
                _ => {
                    moved.find(other).hash = far;
                    let bytes = file(&[moved]);
                    assert_refused(&bytes, 16, place(&bytes, &link.bytes));
                    continue;
                }
            };
            let parent: &[u8; 4] = match other {
                b"bone" => b"skel",
                b"file" => b"inst",
                _ => b"modl",
            };
            moved.find(parent).children.push(extra.clone());
            let bytes = file(&[moved.clone()]);
            if other != to {
                assert_refused(&bytes, 16, place(&bytes, &link.bytes));
                continue;
            }
            assert_eq!(accepted(&bytes).0.links, 21);
            moved.find(parent).children.push(extra);
            let bytes = file(&[moved]);
            assert_refused(&bytes, 17, place(&bytes, &link.bytes));
        }
    }
}

#[test]
fn all_64_bits_count() {
    let target = 0x8000_0001_0000_0001;
    for bit in 0..64 {
        let link = ints("l", "m", &[target ^ 1 << bit]);
        let bytes = modelled(vec![mesh(0, target ^ 1 << bit), material(target)]);
        assert_refused(&bytes, 16, place(&bytes, &link.bytes));
    }
    let bytes = modelled(vec![mesh(0, target), material(target)]);
    assert_eq!(accepted(&bytes).0.links, 1);
}

#[test]
fn zero_is_a_hash() {
    let link = ints("l", "m", &[0]);
    let bytes = modelled(vec![mesh(0, 0)]);
    assert_refused(&bytes, 16, place(&bytes, &link.bytes));
    accepted(&modelled(vec![mesh(0, 0), material(0)]));
    let bytes = modelled(vec![mesh(0, 0), material(0), material(0)]);
    assert_refused(&bytes, 17, place(&bytes, &link.bytes));
    // Doubles that no link reaches are fine.
    accepted(&modelled(vec![
        mesh(0, 1),
        material(0),
        material(0),
        material(1),
    ]));
}

#[test]
fn targets_are_those_of_the_whole_file_outside_unknown_nodes() {
    let other = |children| root(vec![node(b"modl", 0, vec![], children)]);
    let roots = [other(vec![material(8)]), other(vec![mesh(0, 8)])];
    assert_eq!(accepted(&file(&roots)).0.links, 1);
    let roots = [other(vec![mesh(0, 8)]), other(vec![material(8)])];
    assert_eq!(accepted(&file(&roots)).0.links, 1);
    let roots = [
        other(vec![material(8), mesh(0, 8)]),
        other(vec![material(8)]),
    ];
    let bytes = file(&roots);
    assert_refused(&bytes, 17, place(&bytes, &ints("l", "m", &[8]).bytes));
    let hidden = unknown(8, &material(8).bytes());
    let bytes = modelled(vec![mesh(0, 8), hidden]);
    assert_refused(&bytes, 16, place(&bytes, &ints("l", "m", &[8]).bytes));
}

#[test]
fn sixteen_and_seventeen_mixed_by_row_then_property() {
    let albedo = |hash: u64| ints("l", "albedo", &[hash]);
    let gloss = |hash: u64| ints("l", "gloss", &[hash]);
    let image = |hash: u64| node(b"file", hash, vec![text("p", "")], vec![]);
    let paint = |props: Vec<Prop>| {
        let mut paint = material(0);
        paint.props.extend(props);
        paint.children = vec![image(1)];
        paint
    };
    // Two files have hash 1, none has hash 2.
    let bytes = modelled(vec![paint(vec![albedo(1), gloss(2)]), paint(vec![])]);
    assert_refused(&bytes, 17, place(&bytes, &albedo(1).bytes));
    let bytes = modelled(vec![paint(vec![albedo(2), gloss(1)]), paint(vec![])]);
    assert_refused(&bytes, 16, place(&bytes, &albedo(2).bytes));
    let bytes = modelled(vec![paint(vec![gloss(1)]), paint(vec![albedo(2)])]);
    assert_refused(&bytes, 17, place(&bytes, &gloss(1).bytes));
    let bytes = modelled(vec![paint(vec![albedo(2)]), paint(vec![gloss(1)])]);
    assert_refused(&bytes, 16, place(&bytes, &albedo(2).bytes));
}

#[test]
fn names_that_are_not_listed_are_no_links() {
    let mut tree = everything();
    tree.props.push(ints("l", "m", &[999]));
    tree.find(b"modl").props.push(ints("l", "m", &[999]));
    tree.find(b"skel").props.push(ints("l", "sb", &[999]));
    tree.find(b"bone").props.push(ints("l", "tb", &[999, 998]));
    tree.find(b"matl").props.push(ints("l", "extra01", &[999]));
    assert_eq!(accepted(&file(&[tree])).0.links, 21);
}
