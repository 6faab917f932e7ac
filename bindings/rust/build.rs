//! Links the static libraries, which `./libraries` makes at the root of the repository. `SAMOPUTE_LIB_DIR` names another folder.
//! `SAMOPUTE_ACROSS`, for the tests alone, says that those in it are for another processor than x86-64 (tests/across).
use std::env;
use std::path::PathBuf;

const LIBRARIES: [&str; 2] = ["samopute_run", "samopute_c"];

fn folder() -> PathBuf {
    match env::var_os("SAMOPUTE_LIB_DIR") {
        Some(folder) => PathBuf::from(folder),
        // Cargo sets it for each build script.
        None => PathBuf::from(env::var_os("CARGO_MANIFEST_DIR").unwrap_or_default())
            .join("../../target/staticlib"),
    }
}

fn main() {
    let folder = folder();
    println!("cargo::rerun-if-env-changed=SAMOPUTE_LIB_DIR");
    println!("cargo::rerun-if-env-changed=SAMOPUTE_ACROSS");
    println!("cargo::rustc-check-cfg=cfg(samopute_across)");
    if env::var_os("SAMOPUTE_ACROSS").is_some_and(|word| !word.is_empty()) {
        println!("cargo::rustc-cfg=samopute_across");
    }
    println!("cargo::rustc-link-search=native={}", folder.display());
    for name in LIBRARIES {
        let archive = folder.join(format!("lib{name}.a"));
        println!("cargo::rerun-if-changed={}", archive.display());
        if !archive.exists() {
            println!(
                "cargo::error={} is missing: run `./libraries` at the root of the repository, \
                 or set SAMOPUTE_LIB_DIR to the folder that has it",
                archive.display()
            );
            return;
        }
        println!("cargo::rustc-link-lib=static={name}");
    }
}
