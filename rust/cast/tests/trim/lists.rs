//! Lists of trimmings, each on the file last written.

use crate::check::{given, note, noted, notes, read_rows, Check};
use cast::TABLE_NUMBERS;
use corpus::format::{MAX_NODES, ROOT};
use corpus::tree::{File, Node};
use corpus::trims::{self, Trimming};
use corpus::valid::{file, Profile};

/// Lists of trimmings, each of at most `LONGEST_LIST`.
const LISTS: usize = 24_000;
const LONGEST_LIST: usize = 12;
/// Each answer of the tally comes at least this often.
const LEAST: usize = 3_000;
/// Files of which the same nodes are taken out in two orders.
const ORDERS: usize = 2_500;

/// Lists of trimmings, refused ones among them.
#[test]
fn lists() {
    let mut check = Check::new(90);
    let mut removed = 0;
    for _ in 0..LISTS {
        let file = check.some_file();
        let bytes = file.bytes();
        let table = read_rows(&bytes);
        let list = trims::list(&mut check.rng, &table, bytes.len(), LONGEST_LIST);
        removed += check.list(&file, &list).1;
    }
    check.show(&format!("{LISTS} lists"));
    check.at_least(&[0, 1, 30, 31, 32], LEAST);
    assert_eq!(removed, check.answers[&0]);
}

/// The same nodes in two orders end with the same file: some nodes, with refused trimmings between, then all.
#[test]
fn orders() {
    let mut check = Check::new(91);
    let (mut some, mut all) = (0, 0);
    let both = |check: &mut Check, file: &File, lists: (Vec<Trimming>, Vec<Trimming>)| {
        let one = check.list(file, &lists.0);
        assert!(one == check.list(file, &lists.1), "{lists:?} of {file:?}");
        one.1
    };
    for _ in 0..ORDERS {
        let file = match check.rng.chance(50) {
            true => file(&mut check.rng, &noted(Profile::TINY)),
            false => file(&mut check.rng, &noted(Profile::SMALL)),
        };
        let bytes = file.bytes();
        let lists = trims::orders(&mut check.rng, &read_rows(&bytes), bytes.len());
        some += both(&mut check, &file, lists);
        let lists = (check.all_out(&file), check.all_out(&file));
        let removed = both(&mut check, &file, lists);
        assert_eq!(removed, notes(&file).len());
        all += removed;
    }
    check.show("nodes in two orders");
    println!("some nodes: {some}, all: {all}");
    assert!(some > 2 * ORDERS && all > some);
}

/// Files of 1,024 nodes lose all their unknown nodes one by one; where these are siblings, also from either end.
#[test]
fn full() {
    let mut check = Check::new(94);
    let file = file(&mut check.rng, &noted(Profile::MOST_NODES));
    let count = notes(&file).len();
    assert!(count > 200 && file.nodes().len() == MAX_NODES);
    let list = check.all_out(&file);
    assert_eq!(check.list(&file, &list).1, count);

    let side_by_side: Vec<Node> = (1..MAX_NODES)
        .map(|number| note(&mut check.rng, number % 50))
        .collect();
    let file = File::new(9, vec![Node::with(ROOT, Vec::new(), side_by_side)]);
    let last = MAX_NODES - 1;
    let room = file.bytes().len();
    let backwards = (1..=last).rev().collect();
    for rows in [vec![1; last], backwards] {
        let rows = rows.into_iter().map(|row| given(row, TABLE_NUMBERS, room));
        let (left, removed) = check.list(&file, &rows.collect::<Vec<_>>());
        assert_eq!((left.len(), removed), (40, last));
    }
    check.show("full files");
}
