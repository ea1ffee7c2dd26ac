//! Writes `samples/`, `crates/castlist/stdin` and `crates/castlist/stdout`.

use std::{fs, io, path::Path};

fn main() -> io::Result<()> {
    let project = Path::new(env!("CARGO_MANIFEST_DIR")).join("../..");
    for (path, bytes) in vectors::samples::make() {
        fs::write(project.join(&path), &bytes)?;
        println!("{path}: {} bytes", bytes.len());
    }
    Ok(())
}
