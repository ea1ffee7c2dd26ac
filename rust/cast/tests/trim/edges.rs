//! One trimming with buffers of many lengths, of files that are refused, of long ones, and of any bytes.

use crate::check::{given, note, noted, notes, Check};
use cast::TABLE_NUMBERS;
use corpus::format::{B, MAX_FILE, MAX_NODES, MESH, MODEL, ROOT, V3};
use corpus::tree::{File, Node, Property};
use corpus::trims::FAR;
use corpus::valid::{file, Profile};
use corpus::{large, mutate, worked};

/// Files whose every row is asked for with many buffers.
const FILES: usize = 700;
/// Damaged files, and how often each refusal of the reader comes at least; 7 asks for long files.
const DAMAGED: usize = 60_000;
const LEAST_DAMAGED: usize = 150;
const LEAST_LONG: usize = 10;

/// Every row of small files, with outputs just long enough, a byte short, empty and longer, and tables of 0, 1, 8 and
/// about 8,192 numbers.
#[test]
fn buffers() {
    let mut check = Check::new(92);
    let mut removed = 0;
    for _ in 0..FILES {
        let file = file(&mut check.rng, &noted(Profile::TINY));
        let bytes = file.bytes();
        let nodes = file.nodes();
        for row in 0..=nodes.len() {
            let own = nodes.get(row).filter(|node| !node.is_known());
            let new = bytes.len() - own.map_or(0, |node| node.bytes().len());
            let longer = new + check.rng.range(2, 300);
            for room in [new, new - 1, new + 1, 0, bytes.len(), longer] {
                let answer = check.agree(&bytes, given(row, TABLE_NUMBERS, room));
                if own.is_some() {
                    let short = room < new;
                    assert_eq!(answer.number, if short { 32 } else { 0 });
                    removed += usize::from(!short);
                }
            }
            for table in [0, 1, 8, 8_184, 8_191, 8_193, 8_200, 9_000] {
                let answer = check.agree(&bytes, given(row, table, new));
                assert_eq!(answer.number == 1, table < TABLE_NUMBERS);
            }
        }
    }
    check.show("rows with many buffers");
    check.at_least(&[1, 30, 31, 32], 2 * FILES);
    assert!(removed > 4 * FILES, "only {removed} nodes removed");
}

/// Files that the reader refuses, mostly: its number and its place are answered.
#[test]
fn damaged() {
    let mut check = Check::new(93);
    let mut left = DAMAGED;
    while left > 0 {
        let whole = check.some_file();
        let nodes = whole.nodes().len();
        for _ in 0..left.min(5) {
            let (kind, damaged) = mutate::any(&mut check.rng, &whole);
            let bytes = damaged.bytes;
            let table = match check.rng.below(20) {
                0 => mutate::table_length(&mut check.rng),
                _ => TABLE_NUMBERS + check.rng.below(3),
            };
            let room = check.rng.below(2 * bytes.len() + 1);
            let row = check.some_row(nodes);
            let answer = check.agree(&bytes, given(row, table, room));
            if let Some(told) = damaged.answer.filter(|_| table >= TABLE_NUMBERS) {
                assert_eq!((answer.number, answer.place), told, "{}", kind.name());
            }
            left -= 1;
        }
    }
    check.show("damaged files");
    let often: Vec<u32> = (3..=17).filter(|number| ![7, 8].contains(number)).collect();
    check.at_least(&often, LEAST_DAMAGED);
    check.at_least(&[7], LEAST_LONG);
    check.at_least(&[0, 1, 30, 31, 32], LEAST_DAMAGED);
}

/// Files near the limits lose an unknown node: one that was put in anywhere, else one of their own.
#[test]
fn long() {
    let mut check = Check::new(95);
    let mut count = 0;
    for (name, make) in large::ALL {
        let mut file = make(&mut check.rng);
        let note = note(&mut check.rng, 60);
        let hash = note.hash;
        let length = file.bytes().len() + note.bytes().len();
        if length <= MAX_FILE && file.nodes().len() < MAX_NODES {
            let parent = *check.rng.pick(&file.rows(Node::is_known));
            let siblings = &mut file.node_mut(parent).children;
            siblings.insert(check.rng.below(siblings.len() + 1), note);
        }
        let mut rows = file.rows(|node| node.hash == hash);
        rows.extend(check.rng.pick_any(&notes(&file)));
        let Some(&row) = rows.first() else {
            continue;
        };
        assert_eq!(check.with_room(&file.bytes(), row).number, 0, "{name}");
        let left = file.without(&[row]).bytes();
        assert!(check.proved.out[..left.len()] == left, "{name}");
        count += 1;
    }
    check.show("long files");
    assert!(count >= 8, "only {count} files have an unknown node");
}

/// A file as long as it may be, and one a byte longer.
#[test]
fn longest() {
    let mut check = Check::new(96);
    let one = large::largest_file(&mut check.rng).bytes();
    assert_eq!(one.len(), MAX_FILE);
    for (row, room, number) in [
        (1, 40, 0),
        (1, 39, 32),
        (1, 0, 32),
        (0, 40, 31),
        (2, 40, 30),
    ] {
        let answer = check.agree(&one, given(row, TABLE_NUMBERS, room));
        assert_eq!(answer.number, number);
    }

    // A mesh of some MiB, a short unknown node before and in it, and a long one after it that fills the file.
    let (vertices, faces) = (vec![1; 12 * 200], vec![3; 3 << 20]);
    let properties = vec![
        Property::array(V3, "vp", vertices),
        Property::array(B, "f", faces),
    ];
    let below = vec![note(&mut check.rng, 9)];
    let mesh = Node::with(MESH, properties, below);
    let model = Node::with(MODEL, Vec::new(), vec![note(&mut check.rng, 0), mesh]);
    let root = Node::with(ROOT, Vec::new(), vec![model, note(&mut check.rng, 0)]);
    let mut file = File::new(u32::MAX, vec![root]);
    let size = MAX_FILE - file.bytes().len();
    file.roots[0].children[1].rest = check.rng.bytes(size);
    let mut bytes = file.bytes();
    assert_eq!((bytes.len(), notes(&file)), (MAX_FILE, vec![2, 4, 5]));
    for row in notes(&file) {
        assert_eq!(check.with_room(&bytes, row).number, 0);
        let new = file.without(&[row]).bytes();
        assert!(check.proved.out[..new.len()] == new);
        let short = given(row, TABLE_NUMBERS, new.len() - 1);
        assert_eq!(check.agree(&bytes, short).number, 32);
    }
    let list = check.all_out(&file);
    assert_eq!(check.list(&file, &list).1, 3);

    bytes.push(0);
    for row in [0, 2, 6, usize::MAX] {
        let answer = check.with_room(&bytes, row);
        assert_eq!((answer.number, answer.place), (2, 0));
    }
    let answer = check.agree(&bytes, given(2, TABLE_NUMBERS - 1, 0));
    assert_eq!(answer.number, 1);
    check.show("longest files");
}

/// Each byte of a small file with each value, each cut of it, and any bytes, with any row numbers.
#[test]
fn any_bytes() {
    let mut check = Check::new(97);
    let whole = worked::e10().bytes();
    for at in 0..whole.len() {
        let mut bytes = whole.clone();
        for value in 0..=255 {
            bytes[at] = value;
            let row = match check.rng.chance(80) {
                true => 1,
                false => check.some_row(2),
            };
            check.with_room(&bytes, row);
        }
        check.with_room(&whole[..at], 1);
    }
    for row in FAR {
        assert_eq!(check.with_room(&whole, row).number, 30);
    }
    let left = check.with_room(&whole, 1).length as usize;
    assert!(check.proved.out[..left] == worked::e3().bytes());
    for _ in 0..20_000 {
        let kind = *check
            .rng
            .pick(&[mutate::Damage::RandomBytes, mutate::Damage::RandomNodes]);
        let damaged = mutate::damage(&mut check.rng, &worked::e10(), kind);
        let bytes = damaged.expect("bytes of no file").bytes;
        let table = TABLE_NUMBERS + check.rng.below(9);
        let room = check.rng.below(bytes.len() + 50);
        let row = check.some_row(3);
        check.agree(&bytes, given(row, table, room));
    }
    check.show("any bytes");
    check.at_least(&[0, 3, 4, 5, 6, 12, 30, 31], 20);
}

/// Empty slices of every sort.
#[test]
fn empty() {
    let mut check = Check::new(98);
    for file in [Vec::new(), worked::e1().bytes(), worked::e10().bytes()] {
        for row in [0, 1, 2, usize::MAX] {
            for table in [0, 1, TABLE_NUMBERS - 1, TABLE_NUMBERS] {
                for room in [0, 1, 39, 40] {
                    check.agree(&file, given(row, table, room));
                }
            }
        }
    }
    check.show("empty");
    check.at_least(&[0, 1, 3, 30, 31, 32], 1);
}
