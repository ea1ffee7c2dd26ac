//! What the generator of valid files has produced over some thousand seeds.

use std::collections::BTreeSet;

use corpus::expect::{faces, links};
use corpus::format::{
    curve_types, rule_of, Holds, BONE, CURVE, FILE, KINDS, MATERIAL, MESH, RULES, TYPES,
};
use corpus::rng::Rng;
use corpus::tree::{File, Node};
use corpus::valid::{file, Profile};

/// Everything that was seen, each as a line of text.
fn survey() -> BTreeSet<String> {
    let mut seen = BTreeSet::new();
    let mut rng = Rng::new(41);
    for round in 0..9_000 {
        let profile = match round % 3 {
            0 => Profile::TINY,
            _ => Profile::SMALL,
        };
        see_file(&file(&mut rng, &profile), &mut seen);
    }
    seen
}

fn see_file(file: &File, seen: &mut BTreeSet<String>) {
    let encoded = file.encode();
    let nodes = file.nodes();
    seen.insert(format!("roots {}", file.roots.len().min(3)));
    for (row, node) in nodes.iter().enumerate() {
        let place = &encoded.nodes[row];
        if node.is_known() {
            see_known(file, row, node, seen);
        } else {
            seen.insert(format!("unknown at depth {}", place.depth));
            let parent = place.parent.map_or(0, |parent| nodes[parent].kind);
            seen.insert(format!("unknown under {parent:08X}"));
            let empty = node.rest.is_empty();
            seen.insert(format!("unknown with empty body {empty}"));
            let near = KINDS
                .iter()
                .any(|kind| (kind.0 ^ node.kind).count_ones() == 1);
            seen.insert(format!("unknown near a known kind {near}"));
            if node.claimed.children > Some(1_000) {
                seen.insert("unknown with a huge count".into());
            }
        }
        let twin = |other: &&Node| other.kind == node.kind && other.hash == node.hash;
        if nodes.iter().copied().filter(twin).count() > 1 {
            seen.insert(format!("same hash twice {:08X}", node.kind));
        }
    }
}

fn see_known(file: &File, row: usize, node: &Node, seen: &mut BTreeSet<String>) {
    let kind = node.kind;
    seen.insert(format!("kind {kind:08X}"));
    if node.properties.len() == 64 {
        seen.insert("64 properties".into());
    }
    for rule in RULES.iter().filter(|rule| rule.kind == kind) {
        if node.position(rule.name).is_none() {
            seen.insert(format!("without {kind:08X} {}", rule.name));
        }
    }
    for (index, property) in node.properties.iter().enumerate() {
        let (code, length) = (property.code, property.length);
        let Some(rule) = rule_of(kind, &property.name) else {
            seen.insert(format!("free type {code:04X} length {}", length.min(2)));
            seen.insert(format!("free name of {} bytes", property.name.len()));
            let name = String::from_utf8_lossy(&property.name);
            seen.insert(format!("free {kind:08X} {name}"));
            let high = property.name.iter().any(|byte| *byte >= 0x80);
            seen.insert(format!("free name with high bytes {high}"));
            continue;
        };
        let name = rule.name;
        seen.insert(format!("listed {kind:08X} {name} {code:04X}"));
        seen.insert(format!("at {} {kind:08X} {name}", index.min(1)));
        if rule.array {
            seen.insert(format!("length {} {kind:08X} {name}", length.min(1)));
        }
        if rule.numbered {
            let name = String::from_utf8_lossy(&property.name);
            seen.insert(format!("numbered {name}"));
        }
        match rule.holds {
            Holds::OneOf(_) => {
                let text = String::from_utf8_lossy(property.text());
                seen.insert(format!("string {kind:08X} {name} {text}"));
            }
            Holds::Flag => {
                seen.insert(format!("flag {kind:08X} {name} {}", property.data[0]));
            }
            Holds::Any if code == 0x73 => {
                let text = property.text();
                let sort = match text.iter().any(|byte| *byte >= 0x80) {
                    _ if text.is_empty() => "empty",
                    true => "high",
                    false => "plain",
                };
                seen.insert(format!("text {sort}"));
            }
            _ => {}
        }
    }
    if kind == MESH {
        see_mesh(node, seen);
    }
    if let (CURVE, Some(kp), Some(kv)) = (kind, node.property("kp"), node.property("kv")) {
        let kp = String::from_utf8_lossy(kp.text());
        seen.insert(format!("curve {kp} {:04X}", kv.code));
    }
    if kind == BONE {
        see_bone(file, row, node, seen);
    }
    see_links(file, row, node, seen);
}

fn see_mesh(mesh: &Node, seen: &mut BTreeSet<String>) {
    let vertices = mesh.length("vp");
    let faces = faces(mesh);
    seen.insert(format!("V {}", vertices.min(1)));
    seen.insert(format!("faces {} {}", faces.0.min(1), faces.1.min(1)));
    let numbers = mesh.property("f").map_or(Vec::new(), |f| f.numbers());
    for face in numbers.chunks_exact(3) {
        let equal = [face[0] == face[1], face[1] == face[2], face[0] == face[2]];
        seen.insert(format!("face {equal:?}"));
    }
    if let Some(mi) = mesh.property("mi") {
        let value = mi.numbers()[0];
        let weighted = mesh.position("wb").is_some();
        let zero = (value == 0, vertices == 0);
        seen.insert(format!("weights {weighted} mi and V zero {zero:?}"));
        if value > 0x8000_0000 {
            seen.insert(format!("weights {weighted} huge mi"));
        }
    }
}

fn see_bone(file: &File, row: usize, bone: &Node, seen: &mut BTreeSet<String>) {
    let Some(parent) = file.parents()[row] else {
        return;
    };
    let nodes = file.nodes();
    let parents = file.parents();
    let earlier = (0..row).filter(|other| parents[*other] == Some(parent));
    let own = earlier.filter(|other| nodes[*other].kind == BONE).count() as i64;
    let sort = match bone.property("p") {
        None => "absent",
        Some(p) => match i64::from(p.numbers()[0] as i32) {
            -1 => "-1",
            p if p == own => "self",
            p if p > own => "forward",
            _ => "back",
        },
    };
    seen.insert(format!("bone parent {sort}"));
}

fn see_links(file: &File, row: usize, node: &Node, seen: &mut BTreeSet<String>) {
    let all_links = links(node);
    if all_links.is_empty() {
        return;
    }
    let encoded = file.encode();
    let root = |mut row: usize| loop {
        match encoded.nodes[row].parent {
            Some(parent) => row = parent,
            None => return row,
        }
    };
    let nodes = file.nodes();
    for (index, kind) in all_links {
        let hash = node.properties[index].hash();
        let is_target = |row: &usize| nodes[*row].kind == kind && nodes[*row].hash == hash;
        let targets: Vec<usize> = (0..nodes.len()).filter(is_target).collect();
        assert_eq!(targets.len(), 1);
        let target = targets[0];
        seen.insert(format!("link to zero {kind:08X} {}", hash == 0));
        seen.insert(format!("link forward {}", target > row));
        seen.insert(format!("link across roots {}", root(target) != root(row)));
        let shared = nodes.iter().filter(|other| other.hash == hash).count() > 1;
        seen.insert(format!("link to a hash of other kinds too {shared}"));
        let half = |other: &&Node| {
            other.kind == kind && other.hash != hash && other.hash as u32 == hash as u32
        };
        let half = nodes.iter().copied().any(|other| half(&other));
        seen.insert(format!("link to a low half of two {half}"));
    }
}

/// What must have been seen.
fn wanted() -> Vec<String> {
    let mut wanted = Vec::new();
    for (kind, _) in KINDS {
        wanted.push(format!("kind {kind:08X}"));
        wanted.push(format!("unknown under {kind:08X}"));
        wanted.push(format!("same hash twice {kind:08X}"));
    }
    for rule in RULES {
        let (kind, name) = (rule.kind, rule.name);
        for code in rule.types {
            wanted.push(format!("listed {kind:08X} {name} {code:04X}"));
        }
        for first in 0..2 {
            wanted.push(format!("at {first} {kind:08X} {name}"));
            if rule.array {
                wanted.push(format!("length {first} {kind:08X} {name}"));
            }
            if rule.holds == Holds::Flag {
                wanted.push(format!("flag {kind:08X} {name} {first}"));
            }
        }
        if !rule.required {
            wanted.push(format!("without {kind:08X} {name}"));
        }
        if let Holds::OneOf(strings) = rule.holds {
            let strings = strings.iter();
            wanted.extend(strings.map(|text| format!("string {kind:08X} {name} {text}")));
        }
    }
    for kp in ["rq", "tx", "ty", "tz", "sx", "sy", "sz", "bs", "vb"] {
        let codes = curve_types(kp.as_bytes()).iter();
        wanted.extend(codes.map(|code| format!("curve {kp} {code:04X}")));
    }
    for prefix in ["c", "u", "extra"] {
        for number in [0, 7, 10, 99, 100, 999] {
            wanted.push(format!("numbered {prefix}{number}"));
        }
    }
    for name in ["c", "c00", "c01", "c1000", "c1a", "u00", "vc"] {
        wanted.push(format!("free {MESH:08X} {name}"));
    }
    for name in ["extra", "extra00", "extra1000"] {
        wanted.push(format!("free {MATERIAL:08X} {name}"));
    }
    for code in TYPES {
        let lengths = if code == 0x73 { 1..=1 } else { 0..=2 };
        wanted.extend(lengths.map(|length| format!("free type {code:04X} length {length}")));
    }
    wanted.extend((1..=32).map(|size| format!("free name of {size} bytes")));
    wanted.extend((2..=5).map(|depth| format!("unknown at depth {depth}")));
    wanted.extend((0..=3).map(|roots| format!("roots {roots}")));
    for truth in [false, true] {
        wanted.push(format!("unknown with empty body {truth}"));
        wanted.push(format!("unknown near a known kind {truth}"));
        wanted.push(format!("free name with high bytes {truth}"));
        wanted.push(format!("link forward {truth}"));
        wanted.push(format!("link across roots {truth}"));
        wanted.push(format!("link to a hash of other kinds too {truth}"));
        wanted.push(format!("link to a low half of two {truth}"));
        for kind in [MATERIAL, MESH, BONE, FILE] {
            wanted.push(format!("link to zero {kind:08X} {truth}"));
        }
        for zero in [(false, false), (false, true), (true, false), (true, true)] {
            wanted.push(format!("weights {truth} mi and V zero {zero:?}"));
        }
        wanted.push(format!("weights {truth} huge mi"));
    }
    let others = [
        "64 properties",
        "unknown with a huge count",
        "text empty",
        "text high",
        "text plain",
        "V 0",
        "V 1",
        "faces 0 0",
        "faces 1 0",
        "faces 1 1",
        "face [false, false, false]",
        "face [true, false, false]",
        "face [false, true, false]",
        "face [false, false, true]",
        "face [true, true, true]",
        "bone parent absent",
        "bone parent -1",
        "bone parent self",
        "bone parent forward",
        "bone parent back",
    ];
    wanted.extend(others.map(String::from));
    wanted
}

#[test]
fn every_combination_comes() {
    let seen = survey();
    let wanted = wanted();
    let missing: Vec<&String> = wanted.iter().filter(|line| !seen.contains(*line)).collect();
    println!(
        "{} of {} wanted lines seen",
        wanted.len() - missing.len(),
        wanted.len()
    );
    assert!(missing.is_empty(), "never seen: {missing:#?}");
}
