//! The program's output.

mod common;

use common::*;
use reference::listing;

#[test]
fn refused() {
    let mut file = rooted(vec![]);
    file.push(0);
    assert_eq!(listing(&file), b"refused 12 at 40\n");
    assert_eq!(listing(&[]), b"refused 3 at 0\n");
}

#[test]
fn too_long() {
    assert_eq!(listing(&[0; 32_769]), b"too long\n");
    assert_eq!(listing(&[0; 32_768]), b"refused 3 at 0\n");
    let file = rooted(vec![unknown(0, &[0; 32_768 - 64])]);
    assert_eq!(file.len(), 32_768);
    let text = String::from_utf8(listing(&file)).unwrap();
    assert!(text.starts_with("cast 1 flags 0 nodes 2 bytes 32768\n"));
    assert!(text.ends_with("\ntotal 32768\n"));
    let longer = rooted(vec![unknown(0, &[0; 32_769 - 64])]);
    assert_eq!(longer.len(), 32_769);
    assert_eq!(listing(&longer), b"too long\n");
}

#[test]
fn no_nodes_and_flags() {
    let expected = "cast 1 flags 4294967295 nodes 0 bytes 16\n\
                    header 16\n\
                    faces 0 degenerate 0\n\
                    total 16\n";
    assert_eq!(
        listing(&file_with_flags(u32::MAX, &[])),
        expected.as_bytes()
    );
}

#[test]
fn several_nodes() {
    let props = vec![zeros("v3", "vp", 3), ints("b", "f", &[0, 1, 2, 0, 0, 0])];
    let mut low = unknown(0, &[1]);
    low.kind = [0x0A, 0, 0, 0];
    let mesh = node(b"mesh", 0, props, vec![low]);
    let model = node(b"modl", 0, vec![text("n", "")], vec![mesh]);
    let roots = [root(vec![model]), root(vec![])];
    let expected = "cast 1 flags 7 nodes 5 bytes 208\n\
                    row 0 kind 746F6F72 parent - own 24\n\
                    row 1 kind 6C646F6D parent 0 own 34\n\
                    row 2 kind 6873656D parent 1 own 85\n\
                    row 3 kind 0000000A parent 2 own 25\n\
                    row 4 kind 746F6F72 parent - own 24\n\
                    header 16\n\
                    faces 2 degenerate 1\n\
                    total 208\n";
    let text = listing(&file_with_flags(7, &roots));
    assert_eq!(String::from_utf8(text).unwrap(), expected);
}
