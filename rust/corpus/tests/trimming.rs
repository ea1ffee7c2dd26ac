//! Lists of trimmings against the tally and against the tree.

mod common;

use common::{accepted, accepted_as, body, check_table, hex, placeless, BLANK, STALE};
use corpus::format::TABLE;
use corpus::rng::Rng;
use corpus::rows::rows;
use corpus::tree::File;
use corpus::trims::{self, Trimming};
use corpus::valid::{file, mixed, Profile};
use reference::Tally;

/// Runs the list; gives the last file and the rows taken out of the first.
fn run(first: &[u8], rows_there: usize, list: &[Trimming]) -> (Vec<u8>, Vec<usize>) {
    let mut tally = Tally::new(first).expect("an accepted file");
    let mut file = first.to_vec();
    let mut left: Vec<usize> = (0..rows_there).collect();
    let mut removed = Vec::new();
    for trimming in list {
        let mut table = vec![STALE; trimming.table];
        let mut out = vec![BLANK; trimming.room];
        let written = reference::trim(&file, trimming.row, &mut table, &mut out);
        let told = tally.answer(trimming.row, trimming.table, trimming.room);
        let answer = (written.number, written.place, written.length);
        let expected = (told.number, told.place, told.length);
        assert_eq!(answer, expected, "{trimming:?} of {}", hex(&file));
        let length = written.length as usize;
        assert!(out[length..].iter().all(|byte| *byte == BLANK));
        match written.number {
            0 => {
                file = out[..length].to_vec();
                removed.push(left.remove(trimming.row));
                let (_, rows) = accepted(&file);
                assert!(corpus::rows::numbers(&rows)[..] == table[..rows.len() * 8]);
                table.resize(table.len().max(TABLE + 1), STALE);
                check_table(&file, &table, 0, rows.len() as u32);
            }
            1 => {
                assert_eq!(length, 0);
                assert!(table.iter().all(|number| *number == STALE));
            }
            _ => {
                assert_eq!(length, 0);
                check_table(&file, &table, written.number, 0);
            }
        }
    }
    assert!(tally.file() == file, "{}", hex(first));
    (file, removed)
}

/// The claims about the file that a list ends with.
fn check(first: &File, list: &[Trimming]) -> usize {
    let (bytes, table) = accepted_as(first);
    let (last, removed) = run(&bytes, table.len() / 8, list);
    let tree = first.without(&removed);
    assert!(tree.bytes() == last, "{}", hex(&bytes));
    accepted_as(&tree);
    let (old, _) = accepted(&bytes);
    let (new, new_rows) = accepted(&last);
    assert_eq!((new.faces, new.degenerate), (old.faces, old.degenerate));
    assert_eq!((new.links, new.own_known), (old.links, old.own_known));
    // The old rows without those taken out, renumbered.
    let old_rows = rows(&table, 1_024);
    let kept: Vec<usize> = (0..old_rows.len())
        .filter(|row| !removed.contains(row))
        .collect();
    assert_eq!(kept.len(), new_rows.len());
    let mut renumbered = Vec::new();
    for row in &kept {
        let mut old = old_rows[*row];
        if old.parent != u32::MAX {
            let parent = kept.iter().position(|kept| *kept == old.parent as usize);
            old.parent = parent.expect("a parent that stays") as u32;
        }
        let gone = removed
            .iter()
            .filter(|gone| old_rows[**gone].parent as usize == *row);
        old.children -= gone.count() as u32;
        renumbered.push(old);
    }
    assert_eq!(placeless(&renumbered), placeless(&new_rows));
    for (old, new) in renumbered.iter().zip(&new_rows) {
        assert_eq!(body(&bytes, old), body(&last, new));
    }
    removed.len()
}

fn noted(mut profile: Profile) -> Profile {
    profile.unknown = 45;
    profile
}

#[test]
fn lists_follow_the_tally() {
    let mut rng = Rng::new(21);
    let mut removed = 0;
    for _ in 0..20_000 {
        let file = match rng.chance(50) {
            true => file(&mut rng, &noted(Profile::TINY)),
            false => mixed(&mut rng),
        };
        let (bytes, table) = accepted_as(&file);
        let list = trims::list(&mut rng, &table, bytes.len(), 8);
        removed += check(&file, &list);
    }
    for _ in 0..800 {
        let file = file(&mut rng, &noted(Profile::SMALL));
        let (bytes, table) = accepted_as(&file);
        let list = trims::list(&mut rng, &table, bytes.len(), 40);
        removed += check(&file, &list);
    }
    println!("{removed} nodes removed");
    assert!(removed > 5_000);
}

#[test]
fn two_orders_end_with_the_same_bytes() {
    let mut rng = Rng::new(22);
    let mut removed = 0;
    for _ in 0..4_000 {
        let file = file(&mut rng, &noted(Profile::SMALL));
        let (bytes, table) = accepted_as(&file);
        let (one, other) = trims::orders(&mut rng, &table, bytes.len());
        let (one, mut left) = run(&bytes, table.len() / 8, &one);
        let (other, mut right) = run(&bytes, table.len() / 8, &other);
        left.sort_unstable();
        right.sort_unstable();
        assert_eq!(left, right);
        assert!(one == other, "{}", hex(&bytes));
        removed += left.len();
    }
    println!("{removed} nodes removed");
    assert!(removed > 1_500);
}

#[test]
fn a_full_file_loses_every_note() {
    let mut rng = Rng::new(23);
    let file = file(&mut rng, &noted(Profile::MOST_NODES));
    let (bytes, table) = accepted_as(&file);
    let notes = file.rows(|node| !node.is_known()).len();
    let list: Vec<Trimming> = file
        .rows(|node| !node.is_known())
        .into_iter()
        .rev()
        .map(|row| Trimming {
            row,
            table: TABLE,
            room: bytes.len(),
        })
        .collect();
    assert_eq!(table.len(), TABLE);
    assert_eq!(check(&file, &list), notes);
    assert!(notes > 100);
}
