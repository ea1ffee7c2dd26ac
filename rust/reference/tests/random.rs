//! Damaged files and tables: nothing traps, and the demands hold where a file is accepted.

mod common;

use common::*;
use reference::*;

/// The full file with unknown nodes in many places.
fn noted() -> Node {
    let mut tree = everything();
    // Bones whose hashes differ from the linked one by little.
    for hash in [0, 3, 5, 9, 17] {
        let bone = node(b"bone", hash, vec![text("n", "")], vec![]);
        tree.find(b"skel").children.push(bone);
    }
    for (i, kind) in [
        b"root", b"modl", b"skel", b"bone", b"mesh", b"matl", b"file", b"curv",
    ]
    .iter()
    .enumerate()
    {
        let note = unknown(i as u64, &vec![i as u8; i * 3]);
        tree.find(kind).children.push(note.clone());
        tree.find(kind).children.insert(0, note);
    }
    tree
}

/// Changes a few bytes, mostly of headers and small numbers, or the length.
fn damage(file: &[u8], random: &mut Random) -> Vec<u8> {
    let mut file = file.to_vec();
    for _ in 0..1 + random.below(3) {
        let at = random.below(file.len());
        match random.below(8) {
            0 => file[at] = random.below(256) as u8,
            1 => file[at] ^= 1 << random.below(8),
            2 => file[at] = file[at].wrapping_add(1),
            3 => file[at] = 0,
            4 => file[at] = 0xFF,
            5 => file[at] = b"bhildfs234vnpmcuw"[random.below(17)],
            6 => {
                let from = random.below(file.len());
                file[at] = file[from];
            }
            _ if random.below(4) == 0 => file.truncate(at.max(1)),
            _ => {}
        }
    }
    file
}

/// All that must hold of any bytes.
fn judge(file: &[u8], random: &mut Random) -> u32 {
    let mut table = table();
    let reading = read(file, &mut table);
    let refused = reading.number != 0;
    let walked = walk(file, &mut vec![0; 8192]);
    if refused {
        assert_eq!(reading, refusal(reading.number, reading.place));
        assert_cleared(&table);
        assert!(reading.place as usize <= file.len());
        let expected = match reading.number {
            13..=17 => (0, 0, walked.2),
            number => (number, reading.place, 0),
        };
        assert_eq!(walked, expected);
        assert!(Tally::new(file).is_none());
        let mut out = vec![0xEE; 40];
        let written = trim(file, random.below(30), &mut table, &mut out);
        assert_eq!(
            (written.number, written.place),
            (reading.number, reading.place)
        );
        assert_eq!((written.length, out), (0, vec![0xEE; 40]));
        return reading.number;
    }
    assert_eq!(walked, (0, 0, reading.nodes));
    assert_eq!(
        (16 + reading.own_known + reading.own_unknown) as usize,
        file.len()
    );
    let plan = &table[..reading.nodes as usize * 8];
    let mut out = vec![0; file.len()];
    let written = write(plan, file, reading.flags, &mut out);
    assert_eq!((written.number, written.length as usize), (0, file.len()));
    assert_eq!(out, file);
    for (index, row) in plan
        .chunks_exact(8)
        .enumerate()
        .filter(|(_, row)| known(row[0]))
    {
        let body = &file[row[4] as usize..row[5] as usize];
        assert!(body_exact(body, row[6]));
        let mut at = 0;
        for _ in 0..row[6] {
            let step = step(body, at);
            let name = &body[step.name.0..step.name.1];
            let found = lookup(file, &table, index, name);
            let start = row[4] as usize;
            assert_eq!(found.start, start + step.data.0);
            assert_eq!(found.end, start + step.data.1);
            at = step.next;
        }
    }
    trimmings(file, random);
    0
}

/// A list of trimmings against the tally.
fn trimmings(first: &[u8], random: &mut Random) {
    let mut tally = Tally::new(first).unwrap();
    let mut file = first.to_vec();
    for _ in 0..random.below(30) {
        let row = random.below(40);
        let mut table = vec![OLD; 8190 + random.below(12)];
        let mut out = vec![0xEE; file.len() - random.below(file.len().min(40))];
        let written = trim(&file, row, &mut table, &mut out);
        assert_eq!(written, tally.answer(row, table.len(), out.len()));
        let length = written.length as usize;
        assert!(out[length..].iter().all(|&byte| byte == 0xEE));
        if written.number == 0 {
            out.truncate(length);
            file = out;
            table.resize(8200, OLD);
            let (reading, rows) = accepted(&file);
            assert_eq!(rows_of(&table, reading.nodes as usize), rows);
        }
        assert_eq!(tally.file(), file);
    }
}

#[test]
fn damaged_files() {
    let mut random = Random(0x9E37_79B9_7F4A_7C15);
    let files = [
        file(&[noted()]),
        file_with_flags(5, &[everything(), root(vec![unknown(0, b"x")])]),
        rooted(vec![unknown(0, b"abc")]),
    ];
    let mut seen = [0; 18];
    for file in &files {
        seen[judge(file, &mut random) as usize] += 1;
        for _ in 0..20_000 {
            let damaged = damage(file, &mut random);
            seen[judge(&damaged, &mut random) as usize] += 1;
        }
    }
    for (number, count) in seen.iter().enumerate() {
        let unreachable = [1, 2, 7, 8].contains(&number);
        assert_eq!(*count == 0, unreachable, "{number}: {count}");
    }
}

#[test]
fn damaged_plans_and_tables() {
    let mut random = Random(77);
    let source = file(&[noted()]);
    let (_, rows) = accepted(&source);
    let mut seen = [0; 44];
    for _ in 0..50_000 {
        let mut plan = rows.concat();
        for _ in 0..random.below(3) {
            let at = random.below(plan.len());
            plan[at] = match random.below(4) {
                0 => random.below(64) as u32,
                1 => plan[random.below(rows.len() * 8)],
                2 => plan[at].wrapping_add(1),
                _ => (random.below(1 << 32)) as u32,
            };
        }
        if random.below(20) == 0 {
            plan.truncate(random.below(plan.len() + 1));
        }
        let mut out = vec![0xEE; source.len() + 20 - random.below(40)];
        let written = write(&plan, &source, 3, &mut out);
        let length = written.length as usize;
        assert!(out[length..].iter().all(|&byte| byte == 0xEE));
        assert_eq!(written.number == 0, length > 0);
        seen[written.number as usize] += 1;
        if written.number == 0 {
            let mut table = table();
            let reading = read(&out[..length], &mut table);
            if reading.number == 0 {
                // The plan's rows and bodies, but for where bodies lie.
                for (old, new) in plan.chunks_exact(8).zip(table.chunks_exact(8)) {
                    assert_eq!((&old[..4], &old[6..]), (&new[..4], &new[6..]));
                    let body = |bytes: &[u8], row: &[u32]| {
                        bytes[row[4] as usize..row[5] as usize].to_vec()
                    };
                    assert_eq!(body(&source, old), body(&out, new));
                }
                assert_eq!(reading.nodes as usize * 8, plan.len());
            }
        }
        let name = [&b"n"[..], b"vp", b"kv", b"p"][random.below(4)];
        let found = lookup(&source, &plan, random.below(40), name);
        seen[found.number as usize] += 1;
        assert_eq!(found.place, 0);
        assert!(found.start <= found.end && found.end <= source.len());
        assert_eq!(found.number == 0, found.start > 0);
    }
    for number in [0, 20, 21, 22, 23, 24, 26, 40, 41, 42, 43] {
        assert!(seen[number] > 0, "{number}");
    }
}
