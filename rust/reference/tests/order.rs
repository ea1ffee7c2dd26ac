//! Two faults in one file: which speaks.

mod common;

use common::*;
use reference::read;

#[test]
fn one_to_four() {
    let mut short = vec![OLD; 100];
    assert_eq!(read(&vec![0; 16_777_217], &mut short), refusal(1, 0));
    assert!(short.iter().all(|&n| n == OLD));
    assert_refused(&vec![0; 16_777_217], 2, 0);
    assert_refused(b"cost\x02\0\0\0\0\0\0\0\0\0\0\0", 3, 0);
    assert_refused(b"cast\x02\0\0\0\x01\0\0\0\0\0\0\0", 4, 4);
}

#[test]
fn five_before_six_before_seven_before_nine() {
    let mut file = rooted(vec![node(b"mesh", 0, vec![], vec![])]);
    put(&mut file, 44, 23);
    assert_refused(&file, 5, 40);
    put(&mut file, 44, 24);
    put(&mut file, 56, 65);
    assert_refused(&file, 6, 40);
    put(&mut file, 40, kind(b"modl"));
    assert_refused(&file, 9, 40);

    let mut nodes = vec![unknown(0, &[]); 1023];
    nodes.push(node(b"mesh", 0, vec![], vec![]));
    let place = 16 + 24 * 1024;
    assert_refused(&rooted(nodes.clone()), 6, place);
    nodes[1023] = node(b"modl", 0, vec![zeros("d", "x", 0); 65], vec![]);
    assert_refused(&rooted(nodes), 7, place);
}

#[test]
fn a_nodes_properties_come_before_its_children_and_its_own_twelve() {
    let mut bad = node(b"meta", 0, vec![text("A", "me")], vec![]);
    bad.rest = vec![0];
    assert_refused(&rooted(vec![bad.clone()]), 11, 64);
    // A child's own 12 before its sibling's 5, and the first sibling's faults before the second's.
    let mut left = node(b"meta", 0, vec![], vec![]);
    left.rest = vec![0];
    let mut file = rooted(vec![left.clone(), unknown(0, &[])]);
    put(&mut file, 44 + 25, 1);
    assert_refused(&file, 12, 64);
    assert_refused(&rooted(vec![bad, left]), 11, 64);
}

#[test]
fn the_whole_walk_comes_before_the_rules() {
    let twice = node(b"meta", 0, vec![text("a", ""), text("a", "")], vec![]);
    let mut file = rooted(vec![twice]);
    assert_refused(&file, 13, 74);
    file.push(0);
    assert_refused(&file, 12, 84);
}

/// A mesh with these properties alone.
fn mesh(props: Vec<Prop>) -> Node {
    node(b"mesh", 0, props, vec![])
}

#[test]
fn within_a_row_thirteen_then_fourteen_then_fifteen() {
    let vp = zeros("v3", "vp", 1);
    let vn = zeros("v3", "vn", 2);
    let f = ints("b", "f", &[]);
    let (x, x2) = (zeros("d", "x", 0), zeros("b", "x", 1));

    let all = vec![vn.clone(), vp.clone(), x.clone(), x2.clone()];
    let file = modelled(vec![mesh(all)]);
    assert_refused(&file, 13, place(&file, &x2.bytes));
    let two = vec![vn.clone(), vp.clone(), x.clone()];
    assert_refused(&modelled(vec![mesh(two)]), 14, 64);
    let one = vec![x.clone(), vn.clone(), vp.clone(), f.clone()];
    let file = modelled(vec![mesh(one)]);
    assert_refused(&file, 15, place(&file, &vn.bytes));
}

#[test]
fn one_row_is_done_before_the_next() {
    let vp = zeros("v3", "vp", 1);
    let vn = zeros("v3", "vn", 2);
    let f = ints("b", "f", &[]);
    let fifteen = mesh(vec![vp.clone(), f.clone(), vn.clone()]);
    let fourteen = mesh(vec![zeros("v3", "vp", 7)]);
    let thirteen = mesh(vec![zeros("v2", "vp", 1)]);

    let file = modelled(vec![fifteen.clone(), fourteen.clone(), thirteen.clone()]);
    assert_refused(&file, 15, place(&file, &vn.bytes));
    let file = modelled(vec![fourteen.clone(), thirteen.clone(), fifteen.clone()]);
    assert_refused(&file, 14, 64);
    let file = modelled(vec![thirteen, fifteen, fourteen]);
    assert_refused(&file, 13, 88);
}

#[test]
fn the_first_property_of_a_row_speaks() {
    // Both sorts of 13.
    let name = text("n", "a");
    let wrong = zeros("v2", "vp", 1);
    let (x, x2) = (zeros("d", "x", 0), zeros("d", "x", 1));
    let props = vec![x.clone(), wrong.clone(), name.clone(), x2.clone()];
    let file = modelled(vec![mesh(props)]);
    assert_refused(&file, 13, place(&file, &wrong.bytes));
    let props = vec![x.clone(), x2.clone(), wrong.clone(), name];
    let file = modelled(vec![mesh(props)]);
    assert_refused(&file, 13, place(&file, &x2.bytes));
    // Two of 15, in both orders.
    let vp = zeros("v3", "vp", 1);
    let (f, vn) = (ints("b", "f", &[0, 0, 1]), zeros("v3", "vn", 2));
    let file = modelled(vec![mesh(vec![f.clone(), vn.clone(), vp.clone()])]);
    assert_refused(&file, 15, place(&file, &f.bytes));
    let file = modelled(vec![mesh(vec![vn.clone(), vp, f])]);
    assert_refused(&file, 15, place(&file, &vn.bytes));
}

#[test]
fn links_come_last() {
    let links = |target: u64| {
        vec![
            zeros("v3", "vp", 0),
            ints("b", "f", &[]),
            ints("l", "m", &[target]),
        ]
    };
    let late = node(b"meta", 0, vec![text("up", "w")], vec![]);
    let model = node(b"modl", 0, vec![], vec![mesh(links(77))]);
    let file = rooted(vec![model.clone(), late.clone()]);
    assert_refused(&file, 15, place(&file, &late.props[0].bytes));
    let file = rooted(vec![model]);
    assert_refused(&file, 16, place(&file, &ints("l", "m", &[77]).bytes));
}
