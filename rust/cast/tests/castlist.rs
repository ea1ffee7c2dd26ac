//! The program castlist against the independent listing.

use std::collections::BTreeMap;
use std::fs::{self, File};
use std::io::{self, ErrorKind, Write};
use std::path::{Path, PathBuf};
use std::process::{Child, ChildStdin, Command, Stdio};
use std::thread;
use std::time::Duration;

use corpus::format::{MAX_INPUT, MAX_NODES, ROOT};
use corpus::tree::{self, Node};
use corpus::valid::{file, Profile};
use corpus::worked::WAGON;
use corpus::{large, mutate, Rng};
use reference::listing;

const FILES: usize = 2_000;
/// Each refusal that can be comes at least this often.
const LEAST: usize = 10;

fn project(path: &str) -> PathBuf {
    Path::new(env!("CARGO_MANIFEST_DIR"))
        .join("../..")
        .join(path)
}

/// The program with this standard input and output.
fn start_with(input: Stdio, output: Stdio) -> Child {
    let program = project("target/bin/castlist");
    assert!(
        program.is_file(),
        "{} is missing: run 'tools/build' first",
        program.display()
    );
    Command::new(program)
        .stdin(input)
        .stdout(output)
        .stderr(Stdio::piped())
        .spawn()
        .expect("the program starts")
}

fn start(input: Stdio) -> Child {
    start_with(input, Stdio::piped())
}

/// What the program prints; it says nothing else and ends well.
fn printed(program: Child) -> String {
    let output = program.wait_with_output().expect("the program ends");
    let said = String::from_utf8_lossy(&output.stderr);
    assert!(said.is_empty(), "{said}");
    assert!(output.status.success(), "{}", output.status);
    String::from_utf8_lossy(&output.stdout).into_owned()
}

/// Compares both listings of an input that comes through a pipe as `write` writes it.
fn agree_as(input: &[u8], write: impl FnOnce(ChildStdin) -> io::Result<()> + Send) {
    let mut program = start(Stdio::piped());
    let pipe = program.stdin.take().expect("the pipe");
    let (listed, written) = thread::scope(|scope| {
        let writer = scope.spawn(|| write(pipe));
        let listed = printed(program);
        (listed, writer.join().expect("the writer ends"))
    });
    match written {
        // The program need not read on when it has had a byte too many.
        Err(error) if error.kind() == ErrorKind::BrokenPipe && input.len() > MAX_INPUT => {}
        written => written.expect("the program reads all of its input"),
    }
    let told = String::from_utf8_lossy(&listing(input)).into_owned();
    let start = &input[..input.len().min(4_000)];
    assert_eq!(listed, told, "{} bytes: {start:02X?}", input.len());
}

/// The same, with all bytes written at once.
fn agree(input: &[u8]) {
    agree_as(input, |mut pipe| pipe.write_all(input));
}

/// The same, with the input cut at these places. After `waits` of a hundred pieces the writer waits.
fn agree_cut(rng: &mut Rng, input: &[u8], cuts: &[usize], waits: usize) {
    agree_as(input, |mut pipe| {
        let mut from = 0;
        for &cut in cuts.iter().chain([&input.len()]) {
            pipe.write_all(&input[from..cut])?;
            pipe.flush()?;
            from = cut;
            match rng.chance(waits) {
                true => thread::sleep(Duration::from_millis(1)),
                false if rng.chance(50) => thread::yield_now(),
                false => {}
            }
        }
        Ok(())
    });
}

/// Files of all lengths, with every kind of damage in turn.
fn files(rng: &mut Rng) -> Vec<Vec<u8>> {
    let mut files = Vec::new();
    let mut kinds = mutate::ALL.iter().cycle();
    while files.len() < FILES {
        let profile = match rng.below(40) {
            0 => Profile::MEDIUM,
            1 => Profile::MOST_NODES,
            2..16 => Profile::SMALL,
            _ => Profile::TINY,
        };
        let file = file(rng, &profile);
        files.push(file.bytes());
        for kind in kinds.by_ref().take(4) {
            let damaged = mutate::damage(rng, &file, *kind);
            files.extend(damaged.map(|damaged| damaged.bytes));
        }
    }
    files.truncate(FILES);
    files
}

/// The listing's first two words, which leave out a refusal's place.
fn outcome(listing: &[u8]) -> String {
    let text = String::from_utf8_lossy(listing);
    let words: Vec<&str> = text.split_whitespace().take(2).collect();
    words.join(" ")
}

#[test]
fn generated() {
    let files = files(&mut Rng::new(60));
    thread::scope(|scope| {
        for half in files.chunks(FILES / 2) {
            scope.spawn(|| half.iter().for_each(|file| agree(file)));
        }
    });
    let mut census: BTreeMap<String, usize> = BTreeMap::new();
    for file in &files {
        *census.entry(outcome(&listing(file))).or_default() += 1;
    }
    println!("{FILES} listings by their start: {census:?}");
    let mut take = |outcome: &str, least: usize| {
        let count = census.remove(outcome).unwrap_or(0);
        assert!(count >= least, "{outcome} only {count} times");
    };
    take("cast 1", 400);
    take("too long", 40);
    // Of the others, 1 and 2 need a shorter table or a longer file than the program has; no file reaches 8.
    for number in (3..=17).filter(|number| *number != 8) {
        take(&format!("refused {number}"), LEAST);
    }
    assert!(census.is_empty(), "{census:?}");
}

/// No bytes, the most bytes, one more, and many more.
#[test]
fn lengths() {
    let mut rng = Rng::new(61);
    agree(b"");
    for length in [160, MAX_INPUT - 1, MAX_INPUT, MAX_INPUT + 1] {
        let input = large::many_notes(&mut rng, length).bytes();
        assert_eq!(input.len(), length);
        agree(&input);
        // A root more or fewer than are counted.
        let mut wrong = input.clone();
        wrong[8] ^= 1;
        agree(&wrong);
        agree(&vec![0; length]);
    }
    let most = large::many_notes(&mut rng, MAX_INPUT).bytes();
    assert_eq!(outcome(&listing(&most)), "cast 1");
    for more in [1, 2, 1_000, MAX_INPUT, 200_000 - MAX_INPUT, 1 << 20] {
        let mut input = most.clone();
        input.resize(most.len() + more, b'c');
        agree(&input);
    }
}

/// As many rows as there may be, and one more.
#[test]
fn rows() {
    let bare = Node::new(ROOT);
    let pair = Node::with(ROOT, Vec::new(), vec![Node::new(WAGON)]);
    for roots in [
        vec![bare.clone(); MAX_NODES],
        vec![bare; MAX_NODES + 1],
        vec![pair.clone(); MAX_NODES / 2],
        vec![pair; MAX_NODES / 2 + 1],
    ] {
        let input = tree::File::new(u32::MAX, roots).bytes();
        assert!(input.len() <= MAX_INPUT);
        agree(&input);
    }
}

/// A listing about as long as there can be: most rows below row 100, the last ones below row 1,000, and as many bodies as have room.
#[test]
fn longest() {
    let notes = |count, filled| {
        let mut notes = vec![Node::new(WAGON); count];
        let some = notes.iter_mut().take(filled);
        some.for_each(|note| note.rest = vec![b'-'; 76]);
        Node::with(ROOT, Vec::new(), notes)
    };
    let mut roots = vec![Node::new(ROOT); 100];
    roots.extend([notes(899, 107), notes(23, 0)]);
    let input = tree::File::new(u32::MAX, roots).bytes();
    assert!(input.len() <= MAX_INPUT);
    let length = listing(&input).len();
    println!("a listing of {length} bytes");
    assert!(length > 40_000);
    agree(&input);
}

/// An input that cannot be read and an output that cannot be written give no listing, and a word about it.
#[test]
fn failures() {
    let folder = || File::open(project("samples")).expect("the folder is there");
    let full = || File::create("/dev/full").expect("a device that is always full");
    let sample = || File::open(project("samples/e10.cast")).expect("the sample is there");
    let said = |program: Child| {
        let output = program.wait_with_output().expect("the program ends");
        assert!(output.stdout.is_empty());
        String::from_utf8_lossy(&output.stderr).into_owned()
    };
    let unread = "castlist: standard input cannot be read\n";
    let unwritten = "castlist: standard output cannot be written\n";
    assert_eq!(said(start(folder().into())), unread);
    assert_eq!(said(start_with(folder().into(), full().into())), unread);
    assert_eq!(said(start_with(sample().into(), full().into())), unwritten);
}

/// Bytes one at a time, and in small pieces.
#[test]
fn pieces() {
    let mut rng = Rng::new(62);
    let mut inputs: Vec<Vec<u8>> = vec![large::many_notes(&mut rng, MAX_INPUT).bytes()];
    for profile in [Profile::TINY, Profile::SMALL].repeat(10) {
        let file = file(&mut rng, &profile);
        inputs.push(file.bytes());
        inputs.push(mutate::any(&mut rng, &file).1.bytes);
    }
    let mut count = 0;
    for input in &inputs {
        let mut cuts: Vec<usize> = (1..input.len()).collect();
        agree_cut(&mut rng, input, &cuts, 2);
        count += cuts.len() + 1;
        cuts.retain(|_| rng.chance(8));
        agree_cut(&mut rng, input, &cuts, 20);
        count += cuts.len() + 1;
    }
    println!("{} inputs, each twice, in {count} pieces", inputs.len());
}

/// Pieces that end at multiples of 4,096 bytes, a byte before or a byte after.
#[test]
fn pages() {
    let mut rng = Rng::new(63);
    let page = 4_096;
    let mut count = 0;
    for pages in 1..=8 {
        for length in [pages * page - 1, pages * page, pages * page + 1] {
            let input = large::many_notes(&mut rng, length).bytes();
            for first in [page - 1, page, page + 1] {
                let cuts: Vec<usize> = (first..length).step_by(page).collect();
                agree_cut(&mut rng, &input, &cuts, 100);
                count += 1;
            }
        }
    }
    println!("{count} inputs cut at pages");
}

/// Every sample gives the listing beside it, as a file on standard input.
#[test]
fn samples() {
    let mut seen = 0;
    for entry in fs::read_dir(project("samples")).expect("the folder is there") {
        let path = entry.expect("an entry").path();
        if path.extension().is_some_and(|end| end == "cast") {
            let input = File::open(&path).expect("the sample is there");
            let beside = path.with_extension("listing");
            let told = fs::read_to_string(beside).expect("its listing is there");
            assert_eq!(printed(start(input.into())), told, "{}", path.display());
            seen += 1;
        }
    }
    println!("{seen} samples");
    assert!(seen > 0);
}
