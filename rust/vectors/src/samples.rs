//! The files of `samples/`, and what the program `crates/castlist` reads and prints in its own run.

use corpus::samples::{all, RUN};
use reference::listing;

/// Every file by its path in the project, the same at every call.
pub fn make() -> Vec<(String, Vec<u8>)> {
    let mut files = Vec::new();
    for (name, bytes) in all() {
        let listing = listing(&bytes);
        if name == RUN {
            files.push(("crates/castlist/stdin".into(), bytes.clone()));
            files.push(("crates/castlist/stdout".into(), listing.clone()));
        }
        files.push((format!("samples/{name}.cast"), bytes));
        files.push((format!("samples/{name}.listing"), listing));
    }
    files
}
