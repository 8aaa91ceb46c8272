//! Links the archive of the proved core into what is linked with this crate. What links nothing, as documentation, does without it.

use std::env;
use std::path::{self, PathBuf};

const ARCHIVE: &str = "libwinchbarn.a";

fn library_dir() -> PathBuf {
    if let Some(dir) = env::var_os("WINCHBARN_LIB_DIR") {
        return dir.into();
    }
    let part = match env::var("CARGO_CFG_TARGET_ARCH").as_deref() {
        Ok("x86_64") => "staticlib",
        _ => "native",
    };
    let here = PathBuf::from(env::var_os("CARGO_MANIFEST_DIR").unwrap());
    here.join("../../target").join(part)
}

fn main() {
    println!("cargo:rerun-if-env-changed=WINCHBARN_LIB_DIR");
    let dir = path::absolute(library_dir()).unwrap();
    let archive = dir.join(ARCHIVE);
    println!("cargo:rerun-if-changed={}", archive.display());
    if !archive.is_file() {
        println!(
            "cargo:warning={} is not there, and nothing can be linked: run `tests/archive.sh` in the repository's root",
            archive.display()
        );
    }
    println!("cargo:rustc-link-search=native={}", dir.display());
    // Not bundled into the library, so that the archive is looked for when a program is linked.
    println!("cargo:rustc-link-lib=static:-bundle=winchbarn");
}
