//! The carried files are the original's, byte for byte.

mod sha256;

use std::fs;
use std::path::PathBuf;

use sha256::sha256;

/// The sums of the files at commit 87431d70aa.
const CARRIED: [(&str, &str); 4] = [
    (
        "edit.rs",
        "9fb1eecf1b2e322e06d14700c038f054eaa5f0024c7be98773593c684ccaf229",
    ),
    (
        "geom.rs",
        "4de8e060c7bd3bb1b93ee85876e5c15dbfe48dd8bbf36c2b780503a662f40e28",
    ),
    (
        "selection.rs",
        "e8e7aa3e9206b5876fa83217c6bac611e5bd6f3d22433732b992d8d890709ea7",
    ),
    (
        "selection_shift.rs",
        "6765e56128c8449e9d5554ac2dd6d26c4e9fb1cacbe3975d143b527074904bf5",
    ),
];

fn hex(bytes: &[u8]) -> String {
    bytes.iter().map(|byte| format!("{byte:02x}")).collect()
}

#[test]
fn sums_are_those_of_fips_180() {
    assert_eq!(
        hex(&sha256(b"")),
        "e3b0c44298fc1c149afbf4c8996fb92427ae41e4649b934ca495991b7852b855"
    );
    assert_eq!(
        hex(&sha256(b"abc")),
        "ba7816bf8f01cfea414140de5dae2223b00361a396177a9cb410ff61f20015ad"
    );
}

#[test]
fn carried_files_are_the_original() {
    let dir = PathBuf::from(env!("CARGO_MANIFEST_DIR")).join("src/carried");
    for (name, sum) in CARRIED {
        let bytes = fs::read(dir.join(name)).unwrap();
        assert_eq!(hex(&sha256(&bytes)), sum, "{name}");
    }
}

#[test]
fn no_other_file_is_called_carried() {
    let dir = PathBuf::from(env!("CARGO_MANIFEST_DIR")).join("src/carried");
    assert_eq!(fs::read_dir(dir).unwrap().count(), CARRIED.len());
}
