//! Writes the cases and their answers: the kept ones into `crates/vectors`, or more of them elsewhere.

use std::path::{Path, PathBuf};
use std::{env, fs, io, process::ExitCode};
use vectors::{make, make_all, Vectors};

const USAGE: &str = "\
usage: vectors [--draws N] [--seed S] --out DIR
       vectors

Without options: writes the kept cases and their answers to crates/vectors/stdin and crates/vectors/stdout.
With options: writes all cases, none left out, to DIR/stdin and DIR/stdout.
  --draws N   N times as many drawn cases as the kept ones are taken from; 1 without this option
  --seed S    a number below 2^32; another one draws other cases; 0 without this option
  --out DIR   a folder, which is made if it is not there

In a copy of the project that has both files in crates/vectors, `rt try < stdin` there runs them. It allows a program 1 MiB of
output and some seconds, which is enough for --draws 5; for more cases take more seeds.";

/// What the options ask for.
struct Options {
    draws: usize,
    seed: u32,
    out: PathBuf,
}

/// `None` where an option is not as the usage says.
fn options(mut arguments: impl Iterator<Item = String>) -> Option<Options> {
    let (mut draws, mut seed, mut out) = (1, 0, None);
    while let Some(name) = arguments.next() {
        let value = arguments.next()?;
        match &name[..] {
            "--draws" => draws = value.parse().ok()?,
            "--seed" => seed = value.parse().ok()?,
            "--out" => out = Some(value.into()),
            _ => return None,
        }
    }
    let out = out?;
    Some(Options { draws, seed, out })
}

fn write(made: &Vectors, folder: &Path) -> io::Result<()> {
    fs::create_dir_all(folder)?;
    fs::write(folder.join("stdin"), &made.stdin)?;
    fs::write(folder.join("stdout"), &made.stdout)?;
    let (input, output) = (made.stdin.len(), made.stdout.len());
    println!("{} cases, {input} bytes in, {output} bytes out", made.cases);
    Ok(())
}

fn main() -> io::Result<ExitCode> {
    let arguments = env::args().skip(1);
    if arguments.len() == 0 {
        let program = Path::new(env!("CARGO_MANIFEST_DIR")).join("../../crates/vectors");
        write(&make(), &program)?;
    } else if let Some(wanted) = options(arguments) {
        write(&make_all(wanted.draws, wanted.seed), &wanted.out)?;
    } else {
        eprintln!("{USAGE}");
        return Ok(ExitCode::from(2));
    }
    Ok(ExitCode::SUCCESS)
}
