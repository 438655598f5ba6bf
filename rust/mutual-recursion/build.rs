//! Links the archives of the proved crates, and hands on what is known of them.
//!
//! They are taken from the folder whose whole path ARCHIVES names; else from target/staticlib of the repository, where
//! `tools/archives` puts them; else from dist/, which is shipped. Beside them stands PROVENANCE or DIGESTS, whose form
//! `tools/archives` tells. An archive whose bytes are not those that it names is not linked. Of a folder that has neither, which
//! ARCHIVES alone can name, nothing is known.

use std::env;
use std::fs;
use std::path::{Path, PathBuf};

const NAMES: [&str; 5] = ["pass", "plans", "facts", "sheet", "convert"];

/// A folder of archives, and what is written there about them.
struct Found {
    folder: PathBuf,
    record: Option<String>,
}

fn main() {
    println!("cargo::rerun-if-changed=build.rs");
    println!("cargo::rerun-if-env-changed=ARCHIVES");
    let target = |what: &str| env::var(format!("CARGO_CFG_TARGET_{what}")).unwrap_or_default();
    let (arch, system) = (target("ARCH"), target("OS"));
    if arch != "x86_64" || system != "linux" {
        println!("cargo::error=the archives are for x86_64 linux, not for {arch} {system}");
    }
    let found = found();
    for name in NAMES {
        found.link(name);
    }
    println!("cargo::rustc-link-search=native={}", found.folder.display());
    for word in ["made", "sources", "kit"] {
        let told = found.told(word).unwrap_or("unknown");
        println!("cargo::rustc-env=ARCHIVES_{}={told}", word.to_uppercase());
    }
}

fn found() -> Found {
    if let Some(folder) = env::var_os("ARCHIVES") {
        let folder = PathBuf::from(folder);
        let record = read(&folder, "PROVENANCE").or_else(|| shipped(&folder));
        return Found { folder, record };
    }
    let here = env::var_os("CARGO_MANIFEST_DIR").expect("cargo sets it");
    let root = PathBuf::from(here).join("../..");
    let folder = root.join("target/staticlib");
    let names_all = |text: &String| NAMES.iter().all(|name| digest(text, name).is_some());
    let record = read(&folder, "PROVENANCE").filter(names_all);
    if record.is_some() {
        return Found { folder, record };
    }
    let folder = root.join("dist");
    let record = shipped(&folder);
    Found { folder, record }
}

/// What dist/ says is what PROVENANCE would, but for its first line.
fn shipped(folder: &Path) -> Option<String> {
    read(folder, "DIGESTS").map(|text| format!("# made dist\n{text}"))
}

/// A file that is not there would have everything made anew each time, if cargo were told of it.
fn read(folder: &Path, name: &str) -> Option<String> {
    let path = folder.join(name);
    let text = fs::read_to_string(&path).ok()?;
    println!("cargo::rerun-if-changed={}", path.display());
    Some(text)
}

/// The digest that a record has of an archive.
fn digest<'a>(record: &'a str, name: &str) -> Option<&'a str> {
    let end = format!("  lib{name}.a");
    record.lines().find_map(|line| line.strip_suffix(&end))
}

impl Found {
    fn told(&self, word: &str) -> Option<&str> {
        let start = format!("# {word} ");
        let mut lines = self.record.as_deref()?.lines();
        lines.find_map(|line| line.strip_prefix(&start))
    }

    fn link(&self, name: &str) {
        let archive = self.folder.join(format!("lib{name}.a"));
        println!("cargo::rerun-if-changed={}", archive.display());
        println!("cargo::rustc-link-lib=static={name}");
        let all = NAMES.join(" ");
        let Ok(bytes) = fs::read(&archive) else {
            println!("cargo::error=no lib{name}.a: run tools/archives {all}");
            return;
        };
        let Some(record) = &self.record else { return };
        if digest(record, name) != Some(&sha256::hex(&bytes)) {
            let folder = self.folder.display();
            println!(
                "cargo::error=lib{name}.a is not the archive that {folder} has the digest of: run tools/archives {all}"
            );
        }
    }
}
