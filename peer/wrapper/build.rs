//! Links the library for C from the folder that LEPSAINO_LIBRARY names.

use std::path::Path;
use std::process::exit;

const ARCHIVE: &str = "liblepsaino_c.a";

fn main() {
    println!("cargo:rerun-if-env-changed=LEPSAINO_LIBRARY");
    let folder = match std::env::var("LEPSAINO_LIBRARY") {
        Ok(folder) => folder,
        Err(_) => stop(&format!(
            "name the folder of {} in LEPSAINO_LIBRARY; build-library DIR makes it",
            ARCHIVE
        )),
    };
    // A relative name would mean one folder here and another to the linker.
    let folder = match Path::new(&folder).canonicalize() {
        Ok(folder) if folder.join(ARCHIVE).is_file() => folder,
        _ => stop(&format!(
            "LEPSAINO_LIBRARY is {}, which is no folder with {} in it",
            folder, ARCHIVE
        )),
    };
    println!("cargo:rerun-if-changed={}", folder.join(ARCHIVE).display());
    println!("cargo:rustc-link-search=native={}", folder.display());
    println!("cargo:rustc-link-lib=static=lepsaino_c");
}

fn stop(reason: &str) -> ! {
    eprintln!("{}", reason);
    exit(1)
}
