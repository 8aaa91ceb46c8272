//! Tells the program which compiler made it.

use std::env;
use std::process::Command;

fn main() {
    println!("cargo:rerun-if-changed=build.rs");
    let version = Command::new(env::var_os("RUSTC").unwrap())
        .arg("--version")
        .output()
        .expect("the compiler says its version");
    let version = String::from_utf8(version.stdout).unwrap();
    println!("cargo:rustc-env=RUSTC_VERSION={}", version.trim());
}
