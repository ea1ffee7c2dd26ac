//! The small definitions of the reference against those of the generator.

use corpus::format::{children, element_size, is_known, rule_of, KINDS, MATERIAL, MESH, S};
use corpus::rng::Rng;
use corpus::tree::Node;
use corpus::valid::{names, properties, unknown, Profile};

#[test]
fn element_sizes() {
    for code in 0..=u16::MAX {
        let told = reference::element_size(code).map(|size| size as usize);
        if code != S {
            assert_eq!(told, element_size(code), "{code:04x}");
        }
    }
}

#[test]
fn kinds_and_parents() {
    let mut rng = Rng::new(51);
    let mut kinds: Vec<u32> = KINDS.iter().map(|kind| kind.0).collect();
    kinds.extend((0..2_000).map(|_| unknown::kind(&mut rng)));
    for kind in &kinds {
        assert_eq!(reference::known(*kind), is_known(*kind));
        let at_top = *kind == corpus::format::ROOT;
        assert_eq!(reference::may_stand(None, *kind), at_top);
        for (parent, name) in KINDS {
            let taken = !is_known(*kind) || children(parent).contains(kind);
            let told = reference::may_stand(Some(parent), *kind);
            assert_eq!(told, taken, "{kind:08x} under {name}");
        }
    }
}

#[test]
fn numbered_names() {
    let check = |name: &[u8]| {
        for (prefix, kind) in [("c", MESH), ("u", MESH), ("extra", MATERIAL)] {
            let listed = rule_of(kind, name).is_some_and(|rule| {
                rule.numbered && rule.name == prefix && name.starts_with(prefix.as_bytes())
            });
            let told = reference::numbered(prefix.as_bytes(), name);
            assert_eq!(told.is_some(), listed, "{name:?}");
            if let Some(number) = told {
                assert_eq!(format!("{prefix}{number}").as_bytes(), name);
            }
        }
    };
    for number in 0..20_000 {
        for prefix in ["c", "u", "extra"] {
            check(format!("{prefix}{number}").as_bytes());
            check(format!("{prefix}0{number}").as_bytes());
        }
    }
    let mut rng = Rng::new(52);
    for _ in 0..50_000 {
        check(&names::any(&mut rng));
    }
}

#[test]
fn name_bytes() {
    for byte in 0..=255u8 {
        let right = byte != 0 && !byte.is_ascii_uppercase();
        assert_eq!(reference::name_ok(&[byte]), right);
        assert_eq!(reference::name_ok(&[b'a', byte, b'z']), right);
    }
    for size in 0..80 {
        let right = (1..=32).contains(&size);
        assert_eq!(reference::name_ok(&vec![b'n'; size]), right, "{size}");
    }
}

#[test]
fn steps_through_a_body() {
    let mut rng = Rng::new(53);
    for _ in 0..5_000 {
        let mut node = Node::new(unknown::kind(&mut rng));
        for _ in 0..rng.skewed(64) {
            let taken = &node.properties;
            let property = properties::free_property(&mut rng, &Profile::SMALL, node.kind, taken);
            node.properties.push(property);
        }
        let body = node.bytes().split_off(24);
        let count = node.properties.len() as u32;
        assert!(reference::body_exact(&body, count));
        assert!(!reference::body_exact(&body, count + 1));
        if count > 0 {
            assert!(!reference::body_exact(&body, count - 1));
            assert!(!reference::body_exact(&body[..body.len() - 1], count));
        }
        let mut at = 0;
        for property in &node.properties {
            let step = reference::step(&body, at);
            assert_eq!(step.number, 0);
            assert_eq!(body[step.name.0..step.name.1], property.name);
            assert_eq!(body[step.data.0..step.data.1], property.data);
            at = step.next;
        }
        assert_eq!(at, body.len());
    }
}
