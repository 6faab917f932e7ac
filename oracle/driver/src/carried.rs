//! The Rust that is compared with is the Rust that was published: its files' hashes.
use std::collections::BTreeSet;
use std::fs;
use std::path::{Path, PathBuf};
use std::process::Command;

const LIST: &str = "SHA256SUMS";

/// What stands in the folder and is not carried over.
const OURS: [&str; 3] = ["Cargo.toml", "root", LIST];

fn folder() -> PathBuf {
    Path::new(env!("CARGO_MANIFEST_DIR")).join("../korri")
}

/// Every file in the list has the hash that the list gives.
pub fn hashes_agree() -> Result<String, String> {
    let output = Command::new("sha256sum")
        .args(["--check", "--strict", "--quiet", LIST])
        .current_dir(folder())
        .output()
        .map_err(|error| format!("sha256sum cannot be run: {error}"))?;
    if !output.status.success() {
        return Err(String::from_utf8_lossy(&output.stdout).trim().to_string());
    }
    Ok(format!("{} files", listed()?.len()))
}

/// The list has every carried-over file.
pub fn list_is_complete() -> Result<String, String> {
    let (listed, found) = (listed()?, found()?);
    if listed != found {
        let apart: Vec<_> = listed.symmetric_difference(&found).collect();
        return Err(format!("in the list or in the folder only: {apart:?}"));
    }
    Ok(format!("{} files", found.len()))
}

fn listed() -> Result<BTreeSet<PathBuf>, String> {
    let list = fs::read_to_string(folder().join(LIST)).map_err(|error| error.to_string())?;
    let names = list.lines().filter_map(|line| line.split_once("  "));
    Ok(names.map(|(_, name)| name.into()).collect())
}

fn found() -> Result<BTreeSet<PathBuf>, String> {
    let mut found = BTreeSet::new();
    let mut open = vec![PathBuf::new()];
    while let Some(place) = open.pop() {
        for entry in fs::read_dir(folder().join(&place)).map_err(|error| error.to_string())? {
            let entry = entry.map_err(|error| error.to_string())?;
            let path = place.join(entry.file_name());
            if OURS.iter().any(|ours| path == Path::new(ours)) {
                continue;
            }
            if entry.path().is_dir() {
                open.push(path);
            } else {
                found.insert(path);
            }
        }
    }
    Ok(found)
}
