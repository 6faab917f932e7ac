//! Links the libraries under test, which `./libraries` makes at the root of the repository. They are for x86-64: for another
//! processor `tests/across` makes libraries that hand each call to them, in a process under an emulator.
use std::path::{Path, PathBuf};
use std::process::Command;

const LIBRARIES: [&str; 2] = ["samopute_run", "samopute_c"];

fn main() {
    let root = PathBuf::from(std::env::var("CARGO_MANIFEST_DIR").unwrap()).join("../..");
    let folder = root.join("target/staticlib");
    for name in LIBRARIES {
        let archive = folder.join(format!("lib{name}.a"));
        println!("cargo::rerun-if-changed={}", archive.display());
        if !archive.exists() {
            println!(
                "cargo::error=target/staticlib/lib{name}.a is missing: \
                 run `./libraries` at the root of the repository first"
            );
            return;
        }
    }
    let linked = match std::env::var("CARGO_CFG_TARGET_ARCH").as_deref() {
        Ok("x86_64") => folder,
        _ => across(&root, &folder),
    };
    println!("cargo::rustc-link-search=native={}", linked.display());
    for name in LIBRARIES {
        println!("cargo::rustc-link-lib=static={name}");
    }
}

/// The folder of the libraries for this processor. Programs for x86-64 go by `tests/run.sh` then.
fn across(root: &Path, folder: &Path) -> PathBuf {
    let made = PathBuf::from(std::env::var("OUT_DIR").unwrap());
    let tests = root.join("tests");
    let make = tests.join("across/make.sh");
    let status = Command::new("sh")
        .arg(&make)
        .arg(folder)
        .arg(&made)
        .status();
    if !status.is_ok_and(|status| status.success()) {
        println!(
            "cargo::error=tests/across/make.sh failed: it wants g++-x86-64-linux-gnu, of Debian"
        );
    }
    println!("cargo::rerun-if-changed={}", tests.join("across").display());
    println!(
        "cargo::rerun-if-changed={}",
        root.join("include/samopute.h").display()
    );
    println!(
        "cargo::rustc-env=SAMOPUTE_RUN={}",
        tests.join("run.sh").display()
    );
    made
}
