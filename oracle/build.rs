//! Lays the original's files, unchanged, into cargo's own folder, with the stand-ins around them as one tree of
//! modules. `ORIGINAL` names the folder that has them, so that none of them lies in this repository.

use std::path::{Path, PathBuf};
use std::{env, fs, process};

/// Each file of the original, and where it goes in the tree.
const ORIGINALS: [(&str, &str); 6] = [
    ("archive/mod.rs", "archive/mod.rs"),
    ("archive/prunable/mod.rs", "archive/prunable/mod.rs"),
    ("archive/prunable/storage.rs", "archive/prunable/original.rs"),
    ("journal/segmented/oversized.rs", "journal/segmented/oversized.rs"),
    ("journal/segmented/glob.rs", "journal/segmented/glob.rs"),
    ("metadata/storage.rs", "metadata/storage.rs"),
];

const STAND_INS: [&str; 5] = [
    "journal/mod.rs",
    "journal/segmented/mod.rs",
    "journal/segmented/fixed.rs",
    "journal/segmented/manager.rs",
    "metadata/mod.rs",
];

fn stop(why: &str) -> ! {
    eprintln!("{why}");
    process::exit(1)
}

fn original(folder: &Path, name: &str) -> Vec<u8> {
    for path in [folder.join(name), folder.join("src").join(name)] {
        if let Ok(text) = fs::read(&path) {
            println!("cargo:rerun-if-changed={}", path.display());
            return text;
        }
    }
    stop(&format!(
        "The folder {} that ORIGINAL names has no {name}.",
        folder.display()
    ))
}

fn lay(tree: &Path, name: &str, text: &[u8]) {
    let path = tree.join(name);
    fs::create_dir_all(path.parent().unwrap()).unwrap();
    fs::write(path, text).unwrap();
}

/// The static library of this repository, for the speeds side by side; `LUNDWAZO` names the folder that it lies in.
fn link_ours() {
    println!("cargo:rerun-if-env-changed=LUNDWAZO");
    let Some(folder) = env::var_os("LUNDWAZO").map(PathBuf::from) else {
        stop("LUNDWAZO is not set: it names the folder of liblundwazo.a.")
    };
    println!("cargo:rerun-if-changed={}", folder.join("liblundwazo.a").display());
    println!("cargo:rustc-link-search=native={}", folder.display());
    println!("cargo:rustc-link-lib=static=lundwazo");
}

fn main() {
    if env::var_os("CARGO_FEATURE_SIDE_BY_SIDE").is_some() {
        link_ours();
    }
    println!("cargo:rerun-if-env-changed=ORIGINAL");
    let Some(folder) = env::var_os("ORIGINAL").map(PathBuf::from) else {
        stop("ORIGINAL is not set: it names the folder of the original's source.")
    };
    let tree = PathBuf::from(env::var_os("OUT_DIR").unwrap()).join("tree");
    let here = PathBuf::from(env::var_os("CARGO_MANIFEST_DIR").unwrap()).join("src");
    for (from, to) in ORIGINALS {
        lay(&tree, to, &original(&folder, from));
    }
    for name in STAND_INS {
        let path = here.join("tree").join(name);
        println!("cargo:rerun-if-changed={}", path.display());
        lay(&tree, name, &fs::read(path).unwrap());
    }
    // The archive's other kind is no part of this.
    lay(&tree, "archive/immutable.rs", b"");
    // What the original keeps private is seen by a module inside it only, so the driver is laid there.
    let driver = here.join("driver.rs");
    let storage = format!("include!(\"original.rs\");\n#[path = {driver:?}]\nmod driver;\n");
    lay(&tree, "archive/prunable/storage.rs", storage.as_bytes());
    let top: String = ["archive", "journal", "metadata"]
        .map(|name| format!("#[path = {:?}]\npub mod {name};\n", tree.join(name).join("mod.rs")))
        .concat();
    lay(&tree, "../top.rs", top.as_bytes());
}
