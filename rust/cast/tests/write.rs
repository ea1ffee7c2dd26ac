//! The proved writer against the independent one.

use std::collections::BTreeMap;

use cast::{read, write, Written, TABLE_NUMBERS};
use corpus::format::{B, FILE, KINDS, MAX_FILE, MAX_NODES, NONE, ROOT};
use corpus::plans::{self, chain, overlapping, Case};
use corpus::rows::{mend_children, numbers, rows, written_length, Row};
use corpus::tree::{Node, Property};
use corpus::valid::{file, mixed, unknown, Profile};
use corpus::{large, mutate, Rng};

/// Files that are written again as they were read.
const FILES: usize = 6_000;
/// Writings of drawn plans, and of drawn trees.
const PLANS: usize = 300_000;
const TREES: usize = 60_000;
/// Every answer comes at least this often; 25 asks for long plans.
const LEAST: usize = 10_000;
const LEAST_LONG: usize = 400;
/// So often at least is what was written accepted, or refused with each number that it may be.
const LEAST_READ: usize = 100;
/// Longer files are written whole only where that is what is tested.
const MOST: u64 = 100_000;

/// How often each answer came.
type Census = BTreeMap<u32, usize>;

/// Counts and outputs of a test, and its draws.
struct Check {
    rng: Rng,
    /// What the outputs held at first.
    first: Vec<u8>,
    proved: Vec<u8>,
    independent: Vec<u8>,
    table: Vec<u32>,
    /// Answers of writings.
    writings: Census,
    /// Answers of readings of what was written.
    readings: Census,
}

impl Check {
    fn new(seed: u64) -> Check {
        Check {
            rng: Rng::new(seed),
            first: Vec::new(),
            proved: Vec::new(),
            independent: Vec::new(),
            table: Vec::new(),
            writings: Census::new(),
            readings: Census::new(),
        }
    }

    fn count(&self) -> usize {
        self.writings.values().sum()
    }

    /// Writes into an output of this length, of drawn bytes. Compares both answers and both outputs.
    fn agree(&mut self, case: &Case, room: usize) -> Written {
        self.first.resize(room, 0);
        self.rng.fill(&mut self.first);
        self.proved.clone_from(&self.first);
        self.independent.clone_from(&self.first);
        let Case {
            plan,
            source,
            flags,
            ..
        } = case;
        let told = reference::write(plan, source, *flags, &mut self.independent);
        let told = Written {
            number: told.number,
            place: told.place,
            length: told.length,
        };
        let answer = write(plan, source, *flags, &mut self.proved);
        assert_eq!(answer, told, "{}", shown(case, room));
        let differs = (0..room).find(|&at| self.proved[at] != self.independent[at]);
        assert_eq!(differs, None, "outputs differ: {}", shown(case, room));
        let past = told.length as usize..;
        let left = self.proved[past.clone()] == self.first[past];
        assert!(left, "the rest has changed: {}", shown(case, room));
        *self.writings.entry(told.number).or_default() += 1;
        told
    }

    /// Writes into an output of the case's length, and where that is right also into one that has just
    /// room, one that is a byte short, and a longer one. What is written is read again.
    fn all(&mut self, case: &Case) -> Written {
        let answer = self.agree(case, case.room);
        let length = written_length(&rows(&case.plan, MAX_NODES));
        if !matches!(answer.number, 0 | 26) || length > MOST {
            return answer;
        }
        let length = length as usize;
        assert_eq!(self.agree(case, length - 1).number, 26);
        let longer = length + self.rng.range(1, 40);
        for room in [longer, length] {
            let whole = self.agree(case, room);
            assert_eq!((whole.number, whole.length as usize), (0, length));
        }
        self.read_again(case);
        answer
    }

    /// Reads the file that was written last, its output as long as it: where it is accepted, its rows are
    /// those of the plan, and so are their bodies.
    fn read_again(&mut self, case: &Case) {
        let file = &self.proved[..];
        let length = match self.rng.below(100) {
            0 => TABLE_NUMBERS - 1,
            _ => TABLE_NUMBERS,
        };
        self.table.resize(length, 7);
        let reading = read(file, &mut self.table);
        *self.readings.entry(reading.number).or_default() += 1;
        if reading.number != 0 {
            let may_be = matches!(reading.number, 1 | 6 | 13..=17);
            assert!(may_be, "{reading:?}: {}", shown(case, file.len()));
            return;
        }
        let plan = rows(&case.plan, MAX_NODES);
        let new = rows(&self.table, reading.nodes as usize);
        assert_eq!((new.len(), reading.flags), (plan.len(), case.flags));
        let mut end = 16;
        for (planned, read) in plan.iter().zip(&new) {
            let moved = Row {
                start: end + 24,
                end: end + 24 + (planned.end - planned.start),
                ..*planned
            };
            assert_eq!(*read, moved, "{}", shown(case, file.len()));
            assert_eq!(body(file, read), body(&case.source, planned));
            end = moved.end;
        }
        assert_eq!(end as usize, file.len());
    }

    fn show(&self, title: &str) {
        let Check {
            writings, readings, ..
        } = self;
        let count = self.count();
        println!(
            "{title}: {count} writings {writings:?}, readings of what was written {readings:?}"
        );
    }
}

fn shown(case: &Case, room: usize) -> String {
    let plan = &case.plan[..case.plan.len().min(400)];
    let source = &case.source[..case.source.len().min(1_000)];
    let (numbers, bytes, flags) = (case.plan.len(), case.source.len(), case.flags);
    format!(
        "{numbers} numbers {plan:X?}, {bytes} bytes {source:02X?}, flags {flags}, output of {room}"
    )
}

/// The body bytes of a row.
fn body<'a>(bytes: &'a [u8], row: &Row) -> &'a [u8] {
    &bytes[row.start as usize..row.end as usize]
}

/// The rows of an accepted file, by the proved reader.
fn read_rows(file: &[u8]) -> Vec<u32> {
    let mut table = vec![7; TABLE_NUMBERS];
    let reading = read(file, &mut table);
    assert_eq!((reading.number, reading.place), (0, 0));
    table.truncate(8 * reading.nodes as usize);
    table
}

fn of_rows(rows: &[Row], source: &[u8]) -> Case {
    Case {
        plan: numbers(rows),
        source: source.to_vec(),
        flags: 0x0403_0201,
        room: written_length(rows).min(MOST) as usize,
        answer: None,
    }
}

/// What was read is written again, byte for byte.
#[test]
fn again() {
    let mut check = Check::new(70);
    for _ in 0..FILES {
        let file = mixed(&mut check.rng).bytes();
        let case = plans::same(&read_rows(&file), &file);
        let longer = file.len() + check.rng.range(1, 40);
        let written = Written {
            number: 0,
            place: 0,
            length: file.len() as u32,
        };
        for room in [file.len(), longer] {
            assert_eq!(check.agree(&case, room), written);
            assert!(check.proved[..file.len()] == file, "{file:02X?}");
        }
        for room in [file.len() - 1, check.rng.below(file.len())] {
            assert_eq!(check.agree(&case, room).number, 26);
        }
    }
    check.show("files written again");
    assert_eq!(check.count(), 4 * FILES);
}

/// Damaged files that the walk still takes: their rows are a right plan, and give the file again but for its flags.
#[test]
fn refused_again() {
    let mut check = Check::new(80);
    for _ in 0..4 * FILES {
        let whole = file(&mut check.rng, &Profile::TINY);
        let (_, damaged) = mutate::any(&mut check.rng, &whole);
        let mut table = vec![7; TABLE_NUMBERS];
        let (number, _, nodes) = reference::walk(&damaged.bytes, &mut table);
        if number != 0 {
            continue;
        }
        table.truncate(8 * nodes as usize);
        let mut case = plans::same(&table, &damaged.bytes);
        case.flags = check.rng.next_u32();
        assert_eq!(check.all(&case).number, 0);
        assert!(check.proved[16..] == damaged.bytes[16..]);
    }
    check.show("damaged files written again");
    for number in [0, 13, 14, 15, 16, 17] {
        let count = check.readings.get(&number).copied().unwrap_or(0);
        assert!(count >= LEAST_READ, "{number} only {count} times");
    }
}

/// Files near the limits, written again.
#[test]
fn long_again() {
    let mut check = Check::new(71);
    for (name, make) in large::ALL {
        let file = make(&mut check.rng).bytes();
        let case = plans::same(&read_rows(&file), &file);
        assert_eq!(check.agree(&case, file.len() - 1).number, 26, "{name}");
        assert_eq!(check.agree(&case, file.len()).number, 0, "{name}");
        assert!(check.proved == file, "{name}");
    }
    check.show("long files written again");
}

/// Changes a number of the plan or a byte of the source, or the length of one of them.
fn change(rng: &mut Rng, case: &mut Case) {
    case.answer = None;
    let count = case.plan.len();
    let at = rng.below(count);
    match rng.below(16) {
        0 => case.plan.truncate(at / 8 * 8),
        1 => case.plan.truncate(at),
        2 => case.plan.extend([0; 8]),
        3 => case.plan.push(rng.next_u32()),
        4 => {
            let length = rng.below(case.source.len() + 1);
            case.source.truncate(length);
        }
        5..=8 if !case.source.is_empty() => {
            let at = rng.below(case.source.len());
            case.source[at] = match rng.chance(50) {
                true => case.source[at] ^ 1 << rng.below(8),
                false => rng.byte(),
            };
        }
        _ if count == 0 => {}
        9 => {
            let other = rng.below(count) / 8 * 8 + at % 8;
            if let Some(&number) = case.plan.get(other) {
                case.plan[at] = number;
            }
        }
        10 => case.plan[at] = rng.below(count / 8 + 2) as u32,
        11 => case.plan[at] = rng.edge_u32(),
        12 => {
            // A parent.
            let at = (at / 8 * 8 + 3).min(count - 1);
            case.plan[at] = rng.below(count / 8 + 1) as u32;
        }
        13 => {
            let at = (at / 8 * 8).min(count - 1);
            case.plan[at] = rng.pick(&KINDS).0;
        }
        14 => case.plan[at] = case.plan[at].wrapping_add(1),
        _ => case.plan[at] = case.plan[at].wrapping_sub(1),
    }
}

/// Plans of every kind from generated files, as they are and changed.
#[test]
fn generated() {
    let mut check = Check::new(72);
    while check.count() < PLANS {
        let file = match check.rng.chance(90) {
            true => file(&mut check.rng, &Profile::TINY),
            false => file(&mut check.rng, &Profile::SMALL),
        };
        let file = file.bytes();
        let table = read_rows(&file);
        for _ in 0..10 {
            let (kind, mut case) = plans::any(&mut check.rng, &table, &file);
            for _ in 0..check.rng.below(4).saturating_sub(1) {
                change(&mut check.rng, &mut case);
            }
            case.room = case.room.min(MOST as usize);
            let answer = check.all(&case);
            if let Some(told) = case.answer {
                let name = kind.name();
                assert_eq!((answer.number, answer.place), told, "{name}");
            }
        }
    }
    check.show("drawn plans");
    for number in [0, 20, 21, 22, 23, 24, 25, 26] {
        let count = check.writings.get(&number).copied().unwrap_or(0);
        let least = if number == 25 { LEAST_LONG } else { LEAST };
        assert!(count >= least, "{number} only {count} times");
    }
    for number in [0, 1, 6, 14, 16, 17] {
        let count = check.readings.get(&number).copied().unwrap_or(0);
        assert!(
            count >= LEAST_READ,
            "what was written is {number} only {count} times"
        );
    }
}

/// A right plan of any tree of exactly `count` rows, over bodies that lie anywhere in a small source.
fn tree(rng: &mut Rng, count: usize) -> Case {
    let flag = Property::array(B, "x", vec![1]);
    let name = Property::string("n", b"ab");
    let properties = vec![flag, name];
    let source = Node::with(ROOT, properties, Vec::new()).bytes();
    // Where two properties lie, and none.
    let bodies = [
        (24, 34, 1),
        (34, 46, 1),
        (24, 46, 2),
        (5, 5, 0),
        (46, 46, 0),
    ];
    let mut tree: Vec<Row> = Vec::new();
    let mut open: Vec<u32> = Vec::new();
    while tree.len() < count {
        let close = match rng.below(4) {
            0 => open.len(),
            1 => rng.below(open.len() + 1),
            _ => rng.below(2),
        };
        let keep_one = usize::from(rng.chance(95)).min(open.len());
        open.truncate((open.len().saturating_sub(close)).max(keep_one));
        let parent = open.last().copied().unwrap_or(NONE);
        let mut row = Row::new(ROOT, parent);
        if parent != NONE {
            row.kind = match rng.chance(25) {
                true => unknown::kind(rng),
                false => KINDS[rng.range(1, KINDS.len() - 1)].0,
            };
        }
        row.hash = rng.next_u64();
        if row.is_known() {
            (row.start, row.end, row.properties) = *rng.pick(&bodies);
            open.push(tree.len() as u32);
        } else {
            row.start = rng.below(source.len() + 1) as u32;
            row.end = rng.range(row.start as usize, source.len()) as u32;
            row.properties = rng.edge_u32();
            row.children = rng.edge_u32();
        }
        tree.push(row);
    }
    mend_children(&mut tree);
    let mut case = of_rows(&tree, &source);
    case.flags = rng.next_u32();
    case
}

/// Trees of any shape, right and changed.
#[test]
fn trees() {
    let mut check = Check::new(73);
    while check.count() < TREES {
        let count = match check.rng.below(60) {
            0 => MAX_NODES,
            1 => check.rng.below(MAX_NODES),
            _ => check.rng.below(20),
        };
        let mut case = tree(&mut check.rng, count);
        assert_eq!(check.all(&case).number, 0);
        for _ in 0..4 {
            let mut changed = case.clone();
            change(&mut check.rng, &mut changed);
            check.all(&changed);
        }
        for _ in 0..4 {
            change(&mut check.rng, &mut case);
        }
        check.all(&case);
    }
    check.show("trees");
    for number in [0, 20, 21, 22, 23, 24, 26] {
        let count = check.writings.get(&number).copied().unwrap_or(0);
        assert!(count >= 500, "{number} only {count} times");
    }
}

/// Each number of a small plan with each of many values.
#[test]
fn changed() {
    let mut check = Check::new(74);
    let mut case = loop {
        let case = tree(&mut check.rng, 7);
        let all = rows(&case.plan, 7);
        let unknown = all.iter().filter(|row| !row.is_known()).count();
        let roots = all.iter().filter(|row| row.kind == ROOT).count();
        if (unknown, roots) == (2, 2) {
            break case;
        }
    };
    let near = 0..=case.source.len() as u32 + 1;
    let edges = [63, 64, 65, 1_023, 1_024, 0x7FFF_FFFF, 0x8000_0000];
    let kinds = KINDS.map(|kind| kind.0);
    let mut values: Vec<u32> = near.chain(edges).chain(kinds).collect();
    values.extend([NONE - 1, NONE]);
    for at in 0..case.plan.len() {
        let old = case.plan[at];
        for &value in &values {
            case.plan[at] = value;
            check.all(&case);
        }
        case.plan[at] = old;
    }
    check.show("a small plan changed");
}

/// As many properties as a row may have and one more, with each count and each end about theirs.
#[test]
fn properties() {
    let mut check = Check::new(81);
    for count in [0, 1, 2, 63, 64, 65, 66] {
        let one = Property::array(B, "x", vec![1, 2]);
        let source = Node::with(ROOT, vec![one; count], Vec::new()).bytes();
        let end = source.len() as u32;
        for told in (count as u32).saturating_sub(2)..count as u32 + 3 {
            for end in end - 12..=end + 1 {
                for kind in [FILE, unknown::kind(&mut check.rng)] {
                    let mut plan = vec![Row::new(ROOT, NONE), Row::new(kind, 0)];
                    mend_children(&mut plan);
                    (plan[1].start, plan[1].end) = (24, end);
                    plan[1].properties = told;
                    check.all(&of_rows(&plan, &source));
                }
            }
        }
        let mut root = Row::new(ROOT, NONE);
        (root.start, root.end) = (24, end);
        root.properties = count as u32;
        let answer = check.all(&of_rows(&[root], &source));
        assert_eq!(answer.number, if count <= 64 { 0 } else { 23 });
    }
    check.show("bodies by count");
}

/// Chains of 1,024 rows and 1,024 rows side by side, whole and with a change of any row.
#[test]
fn most_rows() {
    let mut check = Check::new(75);
    let last = MAX_NODES - 1;
    let chain = chain(&mut check.rng, MAX_NODES);
    let mut wide = vec![Row::new(FILE, 0); MAX_NODES];
    wide[0] = Row::new(ROOT, NONE);
    mend_children(&mut wide);
    let wide = of_rows(&wide, b"");
    let roots = of_rows(&[Row::new(ROOT, NONE); MAX_NODES], b"");
    for case in [&chain, &wide, &roots] {
        assert_eq!(check.all(case).number, 0);
        for parent in [
            0,
            1,
            2,
            last as u32 - 1,
            last as u32,
            MAX_NODES as u32,
            NONE,
        ] {
            for row in [0, 1, 2, last / 2, last - 1, last] {
                let mut changed = rows(&case.plan, MAX_NODES);
                changed[row].parent = parent;
                check.all(&of_rows(&changed, b""));
                mend_children(&mut changed);
                check.all(&of_rows(&changed, b""));
            }
        }
        for _ in 0..300 {
            let mut changed = case.clone();
            change(&mut check.rng, &mut changed);
            check.all(&changed);
        }
    }
    let mut hanging = rows(&chain.plan, MAX_NODES);
    hanging[last].parent = 0;
    mend_children(&mut hanging);
    assert_eq!(check.all(&of_rows(&hanging, b"")).number, 0);
    hanging[last].parent = last as u32;
    mend_children(&mut hanging);
    let answer = check.all(&of_rows(&hanging, b""));
    assert_eq!((answer.number, answer.place), (21, last as u32));
    check.show("most rows");
}

/// Plans of every length about those of a few rows, and of 1,024.
#[test]
fn lengths() {
    let mut check = Check::new(76);
    let roots = numbers(&vec![Row::new(ROOT, NONE); MAX_NODES + 10]);
    for length in (0..=40).chain(8_170..=8_220) {
        let mut case = of_rows(&[], b"");
        case.plan = roots[..length].to_vec();
        let right = length % 8 == 0 && length <= TABLE_NUMBERS;
        let answer = check.all(&case);
        // The output has room for a header.
        let told = match length {
            0 => 0,
            _ if right => 26,
            _ => 20,
        };
        assert_eq!(answer.number, told, "{length} numbers");
    }
    for length in [20_000, 1 << 20] {
        let mut case = of_rows(&[], b"");
        case.plan = vec![0; length];
        assert_eq!(check.all(&case).number, 20);
    }
    // A whole table: its rows of zeros name row 0.
    let file = file(&mut check.rng, &Profile::SMALL).bytes();
    let mut case = plans::same(&read_rows(&file), &file);
    case.plan.resize(TABLE_NUMBERS, 0);
    let answer = check.all(&case);
    assert_eq!((answer.number, answer.place), (24, 0));
    check.show("plans by length");
}

/// Bodies that overlap, so that the file has any length: about the limit, about 2 to the 32, and far beyond.
#[test]
fn overlaps() {
    let mut check = Check::new(77);
    let most = MAX_FILE as u64;
    let word = 1 << 32;
    for length in [
        most - 1,
        most,
        most + 1,
        2 * most,
        word / 2,
        word - 1,
        word,
        word + 1,
        word + 16,
        word + 24_592,
        word + most,
        3 * word + 100,
        1 << 40,
    ] {
        let case = overlapping(&mut check.rng, length);
        let told = if length > most { 25 } else { 26 };
        for room in [0, 16, case.room, MOST as usize] {
            assert_eq!(check.agree(&case, room).number, told, "{length} bytes");
        }
    }
    for length in [most - 1, most] {
        let mut case = overlapping(&mut check.rng, length);
        check.rng.fill(&mut case.source);
        let length = length as usize;
        assert_eq!(check.agree(&case, length - 1).number, 26);
        let answer = check.agree(&case, length + 9);
        assert_eq!((answer.number, answer.length as usize), (0, length));
        assert_eq!(check.agree(&case, length).number, 0);
        check.read_again(&case);
    }
    check.show("overlapping bodies");
}

/// Bodies at the end of a source of nearly 2 to the 32 bytes, and of more. Its zeros are never written to, so that its
/// pages are never there.
#[test]
fn far_bodies() {
    let mut check = Check::new(78);
    for more in [0, 1, 2, 1_000] {
        let mut far = Row::new(unknown::kind(&mut check.rng), 0);
        (far.start, far.end) = (NONE - 15, NONE - 12);
        let mut plan = vec![Row::new(ROOT, NONE), far, far, far];
        (plan[0].start, plan[0].end) = (NONE, NONE);
        plan[2].end = NONE;
        mend_children(&mut plan);
        let mut case = of_rows(&plan, b"");
        case.source = vec![0; NONE as usize + more];
        assert_eq!(check.all(&case).number, 0);
        case.source.truncate(NONE as usize - 1);
        let answer = check.all(&case);
        assert_eq!((answer.number, answer.place), (22, 0));
    }
    check.show("bodies at the end of a long source");
}

/// Empty slices of every sort.
#[test]
fn empty() {
    let mut check = Check::new(79);
    for plan in [&[][..], &[Row::new(ROOT, NONE)], &[Row::new(FILE, 0)]] {
        for source in [&b""[..], b"\0"] {
            for room in [0, 1, 15, 16, 17, 39, 40, 41] {
                check.agree(&of_rows(plan, source), room);
            }
        }
    }
    check.show("empty");
}
