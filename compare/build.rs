//! Takes the two published source files and writes changed copies into the build folder.
//!
//! The changes are document 01's stand-ins and nothing else. Each is one exact text that must stand in
//! the source exactly once, so that another edition of the source stops the build instead of being
//! compared with something half changed.

use std::env;
use std::fs;
use std::path::{Path, PathBuf};
use std::process::exit;

/// Where the source is looked for when `YEGUDO_SOURCE` is not set, from this package's folder.
const DEFAULT_SOURCE: &str = "../../shared/docs/src";

/// The two files, in the layout of the shared copy and in that of a checkout of the published repository.
const LAYOUTS: [[&str; 2]; 2] = [
    [
        "src--windows--core--src--texture_versions.rs.txt",
        "src--windows--core--src--format.rs.txt",
    ],
    [
        "windows/core/src/texture_versions.rs",
        "windows/core/src/format.rs",
    ],
];

/// Where `FormatMapping` and its functions begin in format.rs, and what follows them.
const MAPPING_BEGINS: &str = "pub struct FormatMapping {";
const MAPPING_ENDS: &str = "/// Friendly name for a D3DFMT_* code.";

fn main() {
    if let Err(message) = build() {
        eprintln!("compare: {message}");
        exit(1);
    }
}

fn build() -> Result<(), String> {
    println!("cargo::rerun-if-changed=build.rs");
    println!("cargo::rerun-if-env-changed=YEGUDO_SOURCE");
    let [versions, format] = source_files()?;
    println!("cargo::rerun-if-changed={}", versions.display());
    println!("cargo::rerun-if-changed={}", format.display());
    let out = PathBuf::from(variable("OUT_DIR")?);
    let own = PathBuf::from(variable("CARGO_MANIFEST_DIR")?).join("src");

    let versions_text = changed_versions(&read(&versions)?, &own)
        .map_err(|fault| format!("{}: {fault}", versions.display()))?;
    let format_text = changed_format(&read(&format)?, &own)
        .map_err(|fault| format!("{}: {fault}", format.display()))?;
    let versions_copy = out.join("texture_versions.rs");
    let format_copy = out.join("format.rs");
    write(&versions_copy, &versions_text)?;
    write(&format_copy, &format_text)?;
    // A file that begins with `//!` can't be included, so the library includes this one, which names both.
    let modules = module("format", &format_copy) + &module("texture_versions", &versions_copy);
    write(&out.join("published.rs"), &modules)
}

/// The two source files, in whichever layout the folder has.
fn source_files() -> Result<[PathBuf; 2], String> {
    let own = PathBuf::from(variable("CARGO_MANIFEST_DIR")?);
    let named = env::var_os("YEGUDO_SOURCE").filter(|name| !name.is_empty());
    let folder = own.join(named.unwrap_or_else(|| DEFAULT_SOURCE.into()));
    for layout in LAYOUTS {
        let files = layout.map(|name| folder.join(name));
        if files.iter().all(|file| file.is_file()) {
            return Ok(files);
        }
    }
    Err(format!(
        "the Rust's source is not in {}: neither {} nor {} (set YEGUDO_SOURCE to its folder)",
        folder.display(),
        LAYOUTS[0].join(" and "),
        LAYOUTS[1].join(" and "),
    ))
}

/// The maps and sets in order of id, as document 01 has them.
const ORDERED: [(&str, &str); 3] = [
    (
        "use std::collections::{BTreeSet, VecDeque, hash_map::Entry};",
        "use std::collections::{BTreeSet, VecDeque, btree_map::Entry};",
    ),
    (
        "use rustc_hash::{FxHashMap, FxHashSet};",
        "use std::collections::{BTreeMap as FxHashMap, BTreeSet as FxHashSet};",
    ),
    // An ordered set has no `drain`; taking it whole and going through it is the same in order of id.
    (
        "for id in self.with_spares.drain() {",
        "for id in std::mem::take(&mut self.with_spares) {",
    ),
];

/// The published hash maps and sets, for measurements: their order of ids is no answer.
const HASHED: [(&str, &str); 1] = [(
    "use rustc_hash::{FxHashMap, FxHashSet};",
    "use crate::hashing::{FxHashMap, FxHashSet};",
)];

/// texture_versions.rs with ordered maps and sets (or with its own, under the feature `hash_maps`), our stand-ins for its crates,
/// and our looks inside.
fn changed_versions(source: &str, own: &Path) -> Result<String, String> {
    let ours = module("inspect", &own.join("inspect.rs")) + &module("laws", &own.join("laws.rs"));
    let hashed = env::var_os("CARGO_FEATURE_HASH_MAPS").is_some();
    let maps: &[(&str, &str)] = if hashed { &HASHED } else { &ORDERED };
    let others: [(&str, &str); 3] = [
        // The macros are called by their path, so the crate's name has to stand for our module.
        (
            "use mtld3d_shared::{",
            "use crate::standins as mtld3d_shared;\nuse crate::standins::{",
        ),
        (
            "use crate::{format::FormatMapping, ids::TextureId};",
            "use crate::{format::FormatMapping, standins::TextureId};",
        ),
        ("#[cfg(test)]\nmod tests;", &ours),
    ];
    let mut text = source.to_string();
    for &(old, new) in maps.iter().chain(&others) {
        at_once(source, old)?;
        text = text.replacen(old, new, 1);
    }
    Ok(text)
}

/// Of format.rs the struct `FormatMapping` and its functions, with our maker of one.
fn changed_format(source: &str, own: &Path) -> Result<String, String> {
    let begin = at_once(source, MAPPING_BEGINS)?;
    let end = at_once(source, MAPPING_ENDS)?;
    if end < begin {
        return Err(format!("`{MAPPING_ENDS}` stands before `{MAPPING_BEGINS}`"));
    }
    let uses = "use crate::standins::mtl::{PixelFormat, Swizzle};\n\n";
    let ours = module("mapping", &own.join("mapping.rs"));
    Ok(format!("{uses}{}{ours}", &source[begin..end]))
}

/// Where `text` stands in `source`, if exactly once.
fn at_once(source: &str, text: &str) -> Result<usize, String> {
    let mut places = source.match_indices(text).map(|(at, _)| at);
    match (places.next(), places.count()) {
        (Some(at), 0) => Ok(at),
        (None, _) => Err(format!("`{text}` is not found, it must stand there once")),
        (Some(_), more) => Err(format!(
            "`{text}` is found {} times, it must stand there once",
            more + 1
        )),
    }
}

/// A line that makes the file a module.
fn module(name: &str, file: &Path) -> String {
    format!(
        "#[path = {:?}]\npub mod {name};\n",
        file.display().to_string()
    )
}

fn variable(name: &str) -> Result<String, String> {
    env::var(name).map_err(|fault| format!("{name}: {fault}"))
}

fn read(file: &Path) -> Result<String, String> {
    fs::read_to_string(file).map_err(|fault| format!("{}: {fault}", file.display()))
}

fn write(file: &Path, text: &str) -> Result<(), String> {
    fs::write(file, text).map_err(|fault| format!("{}: {fault}", file.display()))
}
