//! Links `libsheet.a`, which `tests/build sheet` writes to `target/staticlib`.
//! Another folder can be named by `MALLARDTRAY_LIBRARY`.

use std::env;
use std::path::PathBuf;

fn main() {
    println!("cargo::rerun-if-env-changed=MALLARDTRAY_LIBRARY");
    let folder = match env::var_os("MALLARDTRAY_LIBRARY") {
        Some(folder) => PathBuf::from(folder),
        None => {
            let here = env::var_os("CARGO_MANIFEST_DIR").expect("set by cargo");
            PathBuf::from(here).join("../../target/staticlib")
        }
    };
    let folder = folder.display();
    println!("cargo::rerun-if-changed={folder}/libsheet.a");
    println!("cargo::rustc-link-search=native={folder}");
    println!("cargo::rustc-link-lib=static=sheet");
}
