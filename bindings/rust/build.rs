//! Says where the static library is: in `LEDGER_LIBRARY`, or where `tests/staticlib boundary` writes it.

use std::path::PathBuf;

fn main() {
    println!("cargo:rerun-if-env-changed=LEDGER_LIBRARY");
    let folder = match std::env::var_os("LEDGER_LIBRARY") {
        Some(folder) => PathBuf::from(folder),
        None => PathBuf::from(env!("CARGO_MANIFEST_DIR")).join("../../target/staticlib"),
    };
    println!(
        "cargo:rerun-if-changed={}",
        folder.join("libboundary.a").display()
    );
    println!("cargo:rustc-link-search=native={}", folder.display());
}
