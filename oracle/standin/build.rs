//! Makes the second oracle: the carried-over files of ../korri with the items that document 01 calls
//! missing replaced by those in `items`. Everything else goes over as it is, so a `diff -r` of
//! ../korri/src and the output folder shows the replaced items and nothing else.
use std::path::{Path, PathBuf};
use std::{env, fs};

const CORE: &str = "core.rs";
const ENGINE: &str = "infra/codec/engine/mod.rs";

/// The carried-over files that are built.
const FILES: [&str; 5] = [
    CORE,
    "error.rs",
    "infra/codec/bits/mod.rs",
    ENGINE,
    "infra/codec/traits.rs",
];

/// An item that is replaced: its file, the start of its first line, and its stand-in in `items`.
struct Item {
    file: &'static str,
    head: &'static str,
    stand_in: &'static str,
}

const ITEMS: [Item; 7] = [
    Item {
        file: CORE,
        head: "pub const MAX_PGN_BYTES: usize =",
        stand_in: "max_pgn_bytes.rs",
    },
    Item {
        file: CORE,
        head: "pub const fn scaled_value_fits_f32(",
        stand_in: "scaled_value_fits_f32.rs",
    },
    // `availability` is all that this block holds.
    Item {
        file: CORE,
        head: "impl FieldDescriptor {",
        stand_in: "availability.rs",
    },
    Item {
        file: ENGINE,
        head: "fn is_repetitive_field(",
        stand_in: "is_repetitive_field.rs",
    },
    Item {
        file: ENGINE,
        head: "fn is_last_plain_field(",
        stand_in: "is_last_plain_field.rs",
    },
    Item {
        file: ENGINE,
        head: "fn group_starting_at(",
        stand_in: "group_starting_at.rs",
    },
    Item {
        file: ENGINE,
        head: "fn write_field(",
        stand_in: "write_field.rs",
    },
];

/// The modules of ../korri/root/lib.rs, here found in the output folder.
const MODULES: &str = "
pub mod core;
pub mod error;
pub mod infra {
    pub mod codec {
        pub mod bits;
        pub mod engine;
        pub mod traits;
    }
}
";

/// The one line that is added: the engine's private functions, opened for the driver.
const OPENED: &str = "\npub mod open;\n";

fn main() {
    let here = PathBuf::from(env::var("CARGO_MANIFEST_DIR").unwrap());
    let out = PathBuf::from(env::var("OUT_DIR").unwrap());
    let items = here.join("items");
    for file in FILES {
        let mut text = read(&here.join("../korri/src").join(file));
        for item in ITEMS.iter().filter(|item| item.file == file) {
            text = replaced(&text, item, &read(&items.join(item.stand_in)));
        }
        if file == ENGINE {
            text += OPENED;
        }
        write(&out.join(file), &text);
    }
    write(
        &out.join("infra/codec/engine/open.rs"),
        &read(&items.join("open.rs")),
    );
    write(&out.join("modules.rs"), MODULES);
}

fn read(path: &Path) -> String {
    println!("cargo::rerun-if-changed={}", path.display());
    fs::read_to_string(path).unwrap_or_else(|error| panic!("{}: {error}", path.display()))
}

fn write(path: &Path, text: &str) {
    fs::create_dir_all(path.parent().unwrap()).unwrap();
    fs::write(path, text).unwrap();
}

/// The text with an item's lines, its comments and attributes included, replaced.
fn replaced(text: &str, item: &Item, stand_in: &str) -> String {
    let lines: Vec<&str> = text.lines().collect();
    let places: Vec<usize> = (0..lines.len())
        .filter(|&i| lines[i].starts_with(item.head))
        .collect();
    let [head] = places[..] else {
        panic!(
            "`{}` stands {} times in {}",
            item.head,
            places.len(),
            item.file
        );
    };
    let start = (0..head)
        .rev()
        .take_while(|&i| lines[i].starts_with("//") || lines[i].starts_with("#["))
        .last()
        .unwrap_or(head);
    let end = last_line(&lines, head, item);
    let kept = [&lines[..start], &[stand_in.trim_end()], &lines[end + 1..]];
    kept.concat().join("\n") + "\n"
}

/// The last line of an item at the file's margin: its own if it ends there, else the closing brace.
fn last_line(lines: &[&str], head: usize, item: &Item) -> usize {
    if lines[head].ends_with(';') {
        return head;
    }
    (head..lines.len())
        .find(|&i| lines[i] == "}")
        .unwrap_or_else(|| panic!("`{}` has no end in {}", item.head, item.file))
}
