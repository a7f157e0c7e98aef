//! Says where the archive is; `src/lib.rs` says that it is linked.

use std::env;
use std::path::PathBuf;

const ARCHIVE: &str = "libkobbeskuim.a";

fn main() {
    println!("cargo::rerun-if-env-changed=KOBBESKUIM_LIB_DIR");
    let given = env::var_os("KOBBESKUIM_LIB_DIR").map(PathBuf::from);
    let here = PathBuf::from(env::var_os("CARGO_MANIFEST_DIR").expect("cargo sets it"));
    // The tree's, or that of the prefix of which this crate is share/kobbeskuim/rust.
    let near = || ["../../target/staticlib", "../../../lib"].map(|folder| here.join(folder)).to_vec();
    let folders = given.map_or_else(near, |folder| vec![folder]);
    match folders.iter().find(|folder| folder.join(ARCHIVE).is_file()) {
        Some(folder) => {
            println!("cargo::rerun-if-changed={}", folder.join(ARCHIVE).display());
            println!("cargo::rustc-link-search=native={}", folder.display());
        }
        None => println!(
            "cargo::error=there is no {ARCHIVE} in {}: './kob staticlib' builds it in Kobbeskuim's tree, \
             './kob install PREFIX' puts it beside a copy of this crate, and KOBBESKUIM_LIB_DIR names any \
             other folder by its absolute path",
            folders.iter().map(|folder| folder.display().to_string()).collect::<Vec<_>>().join(" or ")
        ),
    }
}
