//! What docs/PROOFS.md cites in backticks has to exist: files and folders, must-fail edits, and every name of an expression.

use std::{
    collections::HashSet,
    fs,
    path::{Path, PathBuf},
};

/// Words that a span may have and that the repository does not declare.
const FOREIGN: [&str; 5] = [
    // Rattle's language, and its words for what a lent buffer holds
    "pub fn self requires ensures now old new",
    // the kit: its command, what a check prints, its `io`
    "rt ci axioms io read_full write_all",
    // the library's types
    "Result Option u16 u32 u64",
    // the proof library
    "sets take drop map min get_or",
    // bytes, which are no names
    "Z c01",
];

/// Words that may come before a name at the start of a line and do not belong to it.
const MODIFIERS: [&str; 3] = ["pub", "abbrev", "unfoldable"];

/// What may come before the names that a line gives a type.
const BRACKETS: [char; 3] = ['(', '{', ','];

/// The names of some sources: those that are defined, and those of parameters, which only an expression may cite.
#[derive(Default)]
struct Names {
    defined: HashSet<String>,
    bound: HashSet<String>,
}

/// The repository that a document is held to.
pub struct Repository {
    root: PathBuf,
    names: Names,
}

impl Repository {
    /// The repository at `root`, with the names of its sources, its must-fail edits and its crates.
    pub fn at(root: &Path) -> Repository {
        let mut names = Names::default();
        for member in entries(&root.join("crates")) {
            for part in ["specs", "proofs", "src"] {
                names.add_all(&member.join(part));
            }
            let edits = entries(&member.join("must-fail"));
            names.defined.extend(edits.iter().map(|edit| stem(edit)));
            names.defined.insert(stem(&member));
        }
        for member in entries(&root.join("rust")) {
            // neither what is built nor the made-up names of these tests
            if !["target", "docs"].contains(&stem(&member).as_str()) {
                names.add_all(&member);
            }
        }
        let root = root.to_path_buf();
        Repository { root, names }
    }

    /// What the document cites and is not there: a line for each, with its number and the reason.
    pub fn missing(&self, document: &str) -> Vec<String> {
        let (mut missing, mut line) = (Vec::new(), 1);
        // the crates of the section, the text before a span, and the spans before that text, which only commas part
        let (mut crates, mut text, mut group) = (Vec::new(), "", Vec::new());
        for (i, piece) in document.split('`').enumerate() {
            if i % 2 == 0 {
                for heading in piece.lines().filter(|line| line.starts_with('#')) {
                    crates = words(heading).into_iter().take(1).collect();
                }
                text = piece.trim();
            } else {
                if let Some(path) = piece.strip_prefix("crates/") {
                    crates.extend(path.split('/').next());
                }
                if let Some(reason) = self.fault(piece, &crates, text, &group) {
                    missing.push(format!("line {line}: `{piece}`: {reason}"));
                }
                if ![",", "and", ", and"].contains(&text) {
                    group.clear();
                }
                group.push(piece);
            }
            line += piece.matches('\n').count();
        }
        missing
    }

    /// What is wrong with a span, if anything.
    fn fault(&self, span: &str, crates: &[&str], text: &str, group: &[&str]) -> Option<String> {
        if is_path(span) {
            let Some(file) = self.find(span, crates) else {
                return Some("no such file or folder".to_string());
            };
            if text != "(" || file.is_dir() {
                return None;
            }
            // "`a`, `b` (`file`)": the file has both
            let names = Names::of(&file);
            let mut cited = group.iter().filter(|name| is_name(name));
            let absent = cited.find(|name| !names.defined.contains(**name))?;
            return Some(format!("`{absent}` is not there"));
        }
        if text.ends_with("**gate**,") {
            let edit = |member| format!("crates/{member}/must-fail/{span}.edit");
            let mut edits = crates.iter().map(|member| self.root.join(edit(member)));
            let kept = edits.any(|edit| edit.is_file());
            return (!kept).then(|| "no such must-fail edit of this crate".to_string());
        }
        let known = |word: &str| {
            self.names.defined.contains(word)
                || (!is_name(span) && self.names.bound.contains(word))
                || FOREIGN.join(" ").split(' ').any(|other| other == word)
        };
        let unknown = words(span).into_iter().find(|word| !known(word))?;
        Some(format!("nothing declares `{unknown}`"))
    }

    /// A path as the document writes it: from the root, or from a crate of the section or its `specs`.
    fn find(&self, path: &str, crates: &[&str]) -> Option<PathBuf> {
        let own = crates.iter().flat_map(|member| {
            let member = self.root.join("crates").join(member);
            [member.join(path), member.join("specs").join(path)]
        });
        let mut all = own.chain([self.root.join(path)]);
        all.find(|path| path.exists())
    }
}

impl Names {
    /// The names of one source.
    fn of(file: &Path) -> Names {
        let mut names = Names::default();
        names.add_all(file);
        names
    }

    /// Adds those of a source, or of all sources of a folder.
    fn add_all(&mut self, path: &Path) {
        entries(path).iter().for_each(|entry| self.add_all(entry));
        let ending = path.extension().and_then(|ending| ending.to_str());
        let (comment, before): (_, &[&str]) = match ending {
            Some("antt") => ("--", &["record", "data", "mod"]),
            Some("rt" | "rs") => ("//", &["fn", "struct", "enum", "trait", "const", "type", "mod"]),
            _ => return,
        };
        let mut in_enum = false;
        for line in fs::read_to_string(path).expect("a source is text").lines() {
            let code = line.split(comment).next().unwrap_or_default();
            let all = words(code);
            if in_enum {
                self.define(all.first());
            }
            in_enum = code.contains("enum ") || (in_enum && code.trim() != "}");
            for pair in all.windows(2).filter(|pair| before.contains(&pair[0])) {
                self.define(pair.last());
            }
            self.add_typed(code);
        }
    }

    /// Adds those that a line gives a type: `name : type` at its start defines, `(a b : type)` binds.
    fn add_typed(&mut self, code: &str) {
        let code = code.replace("::", " ");
        let parts: Vec<_> = code.split(':').collect();
        for (i, part) in parts[..parts.len() - 1].iter().enumerate() {
            let mut names = words(part.rsplit(BRACKETS).next().unwrap_or_default());
            names.retain(|name| !MODIFIERS.contains(name));
            if i == 0 && names.len() == 1 && !part.contains(BRACKETS) {
                self.define(names.first());
            }
            self.bound.extend(names.iter().map(|name| name.to_string()));
        }
    }

    fn define(&mut self, name: Option<&&str>) {
        self.defined.extend(name.map(|name| name.to_string()));
    }
}

/// The names in a text: numbers and signs are none.
fn words(text: &str) -> Vec<&str> {
    text.split(|c: char| !(c.is_alphanumeric() || "_-′·".contains(c)))
        .filter(|word| word.starts_with(char::is_alphabetic))
        .collect()
}

fn is_name(span: &str) -> bool {
    words(span) == [span]
}

fn is_path(span: &str) -> bool {
    let ends = [".antt", ".rt", ".rs", ".txt", ".md", ".c", ".h"];
    !span.contains(' ') && (span.contains('/') || ends.iter().any(|end| span.ends_with(end)))
}

/// What a folder holds; nothing where there is none.
fn entries(folder: &Path) -> Vec<PathBuf> {
    let entries = fs::read_dir(folder).into_iter().flatten().flatten();
    entries.map(|entry| entry.path()).collect()
}

/// The name of a file or folder, without an ending.
fn stem(path: &Path) -> String {
    let stem = path.file_stem().unwrap_or_default();
    stem.to_string_lossy().into_owned()
}
