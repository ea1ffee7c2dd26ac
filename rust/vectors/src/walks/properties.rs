//! The properties of known nodes: 9, 10 and 11, by the node's own end and at the property's place in the file.

use super::{rooted, wagon, Walks, SECOND};
use corpus::format::{element_size, B, I, MAX_NAME, MAX_PROPERTIES, METADATA, TYPES, V4};
use corpus::tree::{Node, Property};

/// Where the properties of a root's first child start.
const BODY: usize = SECOND + 24;

pub fn add(walks: &mut Walks) {
    add_counts(walks);
    add_cuts(walks);
    add_lengths(walks);
    add_names_and_types(walks);
    add_strings(walks);
    add_eaten(walks);
    add_within(walks);
}

/// A root with a child of this body, said to be `count` properties, and another child.
fn with_body(count: u32, body: &[u8]) -> Vec<u8> {
    let mut node = Node::new(METADATA);
    node.claimed.properties = Some(count);
    node.rest = body.to_vec();
    rooted(vec![node, wagon(&[0; 40])]).bytes()
}

/// The bytes of a property.
fn bytes(property: &Property) -> Vec<u8> {
    Node::with(0, vec![property.clone()], Vec::new())
        .bytes()
        .split_off(24)
}

fn short(name: &[u8]) -> Property {
    Property::new(B, name, 0, Vec::new())
}

/// Counts about 64, with as many properties there or other ones.
fn add_counts(walks: &mut Walks) {
    walks.cases.sweep("walks properties: counts", 3);
    let each = bytes(&short(b"x"));
    for count in [0, 1, 2, 63, MAX_PROPERTIES] {
        let body = each.repeat(count);
        walks.accepted(&with_body(count as u32, &body), 3);
        if count > 0 {
            let less = count as u32 - 1;
            walks.refused(&with_body(less, &body), 12, BODY + 9 * (count - 1));
        }
        let (number, place) = match count {
            MAX_PROPERTIES => (9, SECOND),
            _ => (10, BODY + body.len()),
        };
        walks.refused(&with_body(count as u32 + 1, &body), number, place);
        let mut parent = Node::with(METADATA, vec![short(b"x"); count], vec![wagon(b"in")]);
        walks.accepted(&rooted(vec![parent.clone()]).bytes(), 3);
        parent.rest.push(0);
        let rest = BODY + body.len() + 26;
        walks.refused(&rooted(vec![parent]).bytes(), 12, rest);
    }
    for count in [65, 66, 128, 0x101, 0x140, 0x1_0001, 0x0100_0000, u32::MAX] {
        for there in [0, 1, 66] {
            walks.refused(&with_body(count, &each.repeat(there)), 9, SECOND);
        }
    }
}

/// Every beginning of a property, with bytes enough after the node's end.
fn add_cuts(walks: &mut Walks) {
    walks.cases.sweep("walks properties: cuts", 6);
    let first = bytes(&short(b"first"));
    for whole in [
        bytes(&Property::array(I, "xyz", vec![1; 8])),
        bytes(&Property::string("s", b"text")),
    ] {
        walks.accepted(&with_body(1, &whole), 3);
        for end in 0..whole.len() {
            let body = [&first[..], &whole[..end]].concat();
            walks.refused(&with_body(2, &body), 10, BODY + first.len());
        }
    }
}

/// Array lengths that pass the node's end, some of which come back into it when they wrap.
fn add_lengths(walks: &mut Walks) {
    walks.cases.sweep("walks properties: lengths", 6);
    for code in TYPES {
        let Some(size) = element_size(code) else {
            continue;
        };
        let mut property = Property::new(code, b"x", 2, vec![0; 2 * size]);
        walks.accepted(&with_body(1, &bytes(&property)), 3);
        let turn = (1 << 32) / size as u64;
        for length in [3, 5, 1 << 31, turn - 1, turn, turn + 1, turn + 2, turn + 3] {
            property.length = length.min(u32::MAX.into()) as u32;
            walks.refused(&with_body(1, &bytes(&property)), 10, BODY);
        }
        property.length = 0;
        walks.refused(&with_body(1, &bytes(&property)), 12, BODY + 9);
    }
}

/// Names of every size at the limits, barred bytes and codes of no type.
fn add_names_and_types(walks: &mut Walks) {
    walks.cases.sweep("walks properties: names and types", 6);
    for size in [1, 2, 31, MAX_NAME] {
        let mut name = vec![b'a'; size];
        walks.accepted(&with_body(1, &bytes(&short(&name))), 3);
        for byte in [0, b'A', b'M', b'Z'] {
            name[size - 1] = byte;
            walks.refused(&with_body(1, &bytes(&short(&name))), 11, BODY);
        }
        for byte in [1, b'@', b'[', 0xC1, 0xFF] {
            name[size - 1] = byte;
            walks.accepted(&with_body(1, &bytes(&short(&name))), 3);
        }
    }
    for size in [0, MAX_NAME + 1, 34, 64, 256, 288] {
        let named = short(&vec![b'a'; size]);
        walks.refused(&with_body(1, &bytes(&named)), 11, BODY);
        let second = [bytes(&short(b"x")), bytes(&named)].concat();
        walks.refused(&with_body(2, &second), 11, BODY + 9);
    }
    for code in TYPES {
        for code in [code - 1, code ^ 0x100, code.swap_bytes(), code ^ 0x8000] {
            if !TYPES.contains(&code) {
                let property = Property::new(code, b"x", 0, Vec::new());
                walks.refused(&with_body(1, &bytes(&property)), 11, BODY);
            }
        }
    }
}

/// Strings whose zero lies in the node, at its end, and after it.
fn add_strings(walks: &mut Walks) {
    walks.cases.sweep("walks properties: strings", 5);
    for text in [&b""[..], b"a", &[b'x'; 62], &[b'x'; 63], &[0xFF; 200]] {
        let mut body = bytes(&Property::string("s", text));
        walks.accepted(&with_body(1, &body), 3);
        let end = BODY + body.len();
        body.push(0);
        walks.refused(&with_body(1, &body), 12, end);
        body.truncate(body.len() - 2);
        walks.refused(&with_body(1, &body), 10, BODY);
    }
    for length in [0, 2, 0x100, 0x101, 0x1_0001, 0x0100_0001, u32::MAX] {
        let mut string = Property::string("s", b"ab");
        string.length = length;
        walks.refused(&with_body(1, &bytes(&string)), 11, BODY);
    }
}

/// Data that goes on into the child after it.
fn add_eaten(walks: &mut Walks) {
    walks.cases.sweep("walks properties: eaten", 3);
    let child = wagon(b"abc");
    let whole = |length: usize, children: u32| -> Vec<u8> {
        let mut property = short(b"x");
        property.length = length as u32;
        let mut node = Node::with(METADATA, vec![property], vec![child.clone()]);
        node.claimed.children = Some(children);
        rooted(vec![node, wagon(&[0; 40])]).bytes()
    };
    let start = BODY + 9;
    walks.accepted(&whole(0, 1), 4);
    walks.accepted(&whole(27, 0), 3);
    walks.refused(&whole(28, 0), 10, BODY);
    walks.refused(&whole(28, 1), 10, BODY);
    for eaten in 1..=27 {
        // What is left is no node: too few bytes, or a size that is none.
        walks.refused(&whole(eaten, 1), 5, start + eaten);
        if eaten < 27 {
            walks.refused(&whole(eaten, 0), 12, start + eaten);
        }
    }
    // A string that has its zero in the child, and one that has a whole child after its zero.
    let mut string = Property::string("s", b"text");
    string.data.pop();
    let mut node = Node::with(METADATA, vec![string], vec![child.clone()]);
    walks.refused(&rooted(vec![node.clone()]).bytes(), 5, BODY + 9 + 4 + 6);
    node.children.push(child);
    node.children[0].claimed.size = Some(0x0101_0101);
    node.children[0].hash = 0x0101_0101_0101_0101;
    node.children[0].claimed.properties = Some(0x0101_0101);
    node.children[0].claimed.children = Some(0x0101_0101);
    node.children[0].rest = vec![0];
    node.claimed.children = Some(1);
    walks.accepted(&rooted(vec![node]).bytes(), 3);
    // A child that is read as one more property, its size as the array's length.
    let mut node = Node::with(METADATA, vec![short(b"x")], vec![wagon(b"abc")]);
    node.claimed.properties = Some(2);
    walks.refused(&rooted(vec![node.clone()]).bytes(), 11, start);
    node.children[0].kind = u32::from_le_bytes([B as u8, 0, 1, 0]);
    walks.refused(&rooted(vec![node.clone()]).bytes(), 10, start);
    node.children[0].claimed.size = Some(18);
    walks.refused(&rooted(vec![node.clone()]).bytes(), 5, start + 27);
    node.claimed.children = Some(0);
    walks.accepted(&rooted(vec![node]).bytes(), 2);
}

/// Two faults of one property: the order is header, type, name size, name, name's bytes, string length, data.
fn add_within(walks: &mut Walks) {
    walks.cases.sweep("walks properties: within", 5);
    let faults: [(&[u8], u32); 14] = [
        (b"\x61\0\xFF\xFF\0\0\0", 10),
        (b"\x61\0\xFF\xFF\0\0\0\0", 11),
        (b"\x61\0\x20\0\0\0\0\0", 11),
        (b"\x62\0\x21\0\0\0\0\0", 11),
        (b"\x62\0\0\0\xFF\xFF\xFF\xFF", 11),
        (b"\x62\0\x20\0\0\0\0\0", 10),
        (b"\x62\0\x01\0\0\0\0\0", 10),
        (b"\x62\0\x03\0\0\0\0\0A\0", 10),
        (b"\x62\0\x02\0\x09\0\0\0A\0", 11),
        (b"\x73\0\x02\0\x02\0\0\0a", 10),
        (b"\x73\0\x01\0\x01\0\0\0A", 11),
        (b"\x73\0\x01\0\x02\0\0\0a", 11),
        (b"\x73\0\x01\0\x01\0\0\0a", 10),
        (b"\x34\x76\x01\0\x01\0\0\0a123456789ABCDE", 10),
    ];
    let first = bytes(&Property::array(V4, "first", vec![0; 16]));
    for (fault, number) in faults {
        walks.refused(&with_body(1, fault), number, BODY);
        let body = [&first[..], fault].concat();
        walks.refused(&with_body(2, &body), number, BODY + first.len());
    }
}
