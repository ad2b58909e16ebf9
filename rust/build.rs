//! Writes plain Rust of the crates that crates.txt lists, for lib.rs to include. Nothing of it is kept in the repository.
mod translate;

use std::collections::BTreeMap;
use std::path::{Path, PathBuf};
use std::{env, fs, process};

/// The program, and what is called beside it. The other crates are tests.
const TOPS: [&str; 2] = ["ccr", "ccr_check"];

/// The libraries of the toolchain that rust/kit stands in for.
const KIT: [&str; 8] = ["atomic_table", "clap", "indexmap", "itoa", "memchr", "serde_json", "slab", "thiserror"];

fn fail(message: &str) -> ! {
    eprintln!("{message}");
    process::exit(1)
}

fn read(path: &Path) -> String {
    fs::read_to_string(path).unwrap_or_else(|fault| fail(&format!("{}: {fault}", path.display())))
}

/// Each crate with what it stands on.
fn crates(text: &str) -> BTreeMap<String, Vec<String>> {
    let lines = text.lines().filter(|line| !line.starts_with('#') && !line.trim().is_empty());
    let parted = lines.map(|line| line.split_once(':').unwrap_or_else(|| fail(&format!("crates.txt: {line}"))));
    parted.map(|(name, below)| (name.trim().to_string(), below.split_whitespace().map(String::from).collect())).collect()
}

/// Adds the crate and what it stands on.
fn add(all: &BTreeMap<String, Vec<String>>, name: &str, to: &mut Vec<String>) {
    let Some(below) = all.get(name) else { fail(&format!("crates.txt: no line for {name}")) };
    for one in below.iter().filter(|one| !KIT.contains(&one.as_str())) {
        add(all, one, to);
    }
    if !to.iter().any(|one| one == name) {
        to.push(name.to_string());
    }
}

/// Translates each file of a crate's folder.
fn convert(name: &str, from: &Path, to: &Path) {
    fs::create_dir_all(to).unwrap_or_else(|fault| fail(&format!("{}: {fault}", to.display())));
    for entry in fs::read_dir(from).unwrap_or_else(|fault| fail(&format!("{}: {fault}", from.display()))) {
        let path = entry.expect("an entry of a folder").path();
        let file = path.file_name().expect("a name").to_string_lossy().into_owned();
        if path.is_dir() {
            convert(name, &path, &to.join(file));
        } else if let Some(stem) = file.strip_suffix(".rt") {
            let made = if stem == "lib" || stem == "main" { String::from("mod.rs") } else { format!("{stem}.rs") };
            match translate::translate(&read(&path), name) {
                Ok(text) => fs::write(to.join(made), text).expect("OUT_DIR can be written"),
                Err(unknown) => fail(&format!("{}:{}: {}", path.display(), unknown.line, unknown.what)),
            }
        }
    }
}

fn main() {
    ["crates.txt", "rust/build.rs", "rust/translate"].iter().for_each(|path| println!("cargo::rerun-if-changed={path}"));
    let (top, out) = (PathBuf::from(env::var_os("CARGO_MANIFEST_DIR").expect("cargo")), PathBuf::from(env::var_os("OUT_DIR").expect("cargo")));
    let all = crates(&read(&top.join("crates.txt")));
    let mut program = Vec::new();
    TOPS.iter().for_each(|name| add(&all, name, &mut program));
    let mut modules = String::new();
    for name in all.keys() {
        let folder = out.join(name);
        let _ = fs::remove_dir_all(&folder);
        println!("cargo::rerun-if-changed=crates/{name}/src");
        convert(name, &top.join("crates").join(name).join("src"), &folder);
        let only = if program.contains(name) { "" } else { "#[cfg(test)] " };
        modules.push_str(&format!("{only}#[path = {:?}] pub mod {name};\n", folder.join("mod.rs")));
    }
    fs::write(out.join("crates.rs"), modules).expect("OUT_DIR can be written");
}
