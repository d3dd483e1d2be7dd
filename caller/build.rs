//! Links the static library: from the folder that `NEGBOSUN_LIB` names, or else as `tools/build pass` writes it in the repository, libpass.a,
//! or as the Debian package installs it beside this crate, libnegbosun.a. A relative folder is looked for where cargo was called, and then beside
//! this crate.

use std::env;
use std::path::{Path, PathBuf};

const BUILT: (&str, &str) = ("../target/staticlib", "pass");
const INSTALLED: (&str, &str) = ("../../../../lib/x86_64-linux-gnu", "negbosun");

/// Where a folder may be. A build script runs beside its crate; the shell's own variable has the folder that cargo was called in.
fn folders(named: &Path) -> Vec<PathBuf> {
    let here = Path::new(env!("CARGO_MANIFEST_DIR"));
    let called = env::var_os("PWD").map(PathBuf::from);
    let bases = called.iter().map(PathBuf::as_path).chain([here]);
    let mut found: Vec<PathBuf> = bases.map(|base| base.join(named)).collect();
    found.dedup();
    found
}

/// Folders, and the library's name there.
fn places() -> Vec<(PathBuf, &'static str)> {
    let here = Path::new(env!("CARGO_MANIFEST_DIR"));
    match env::var_os("NEGBOSUN_LIB") {
        Some(folder) => folders(Path::new(&folder))
            .into_iter()
            .flat_map(|folder| ["pass", "negbosun"].map(|name| (folder.clone(), name)))
            .collect(),
        None => [BUILT, INSTALLED]
            .map(|(folder, name)| (here.join(folder), name))
            .into(),
    }
}

fn file((folder, name): &(PathBuf, &str)) -> PathBuf {
    folder.join(format!("lib{name}.a"))
}

fn absent(places: &[(PathBuf, &str)]) -> String {
    let looked: Vec<String> = places
        .iter()
        .map(|place| format!("  {}", file(place).display()))
        .collect();
    let named = match env::var_os("NEGBOSUN_LIB") {
        Some(folder) => format!(" NEGBOSUN_LIB is {}.", folder.to_string_lossy()),
        None => String::new(),
    };
    let here = Path::new(env!("CARGO_MANIFEST_DIR"));
    let advice = if here.join("../tools/build").is_file() {
        "Run `tools/build pass` in the repository, which proves and writes target/staticlib/libpass.a"
    } else {
        "Install Debian's package negbosun again, which has it"
    };
    format!(
        "The static library of the pass is not there.{named} Looked for:\n{}\n{advice}, or set NEGBOSUN_LIB to the folder that holds \
         libpass.a or libnegbosun.a.",
        looked.join("\n")
    )
}

fn main() {
    println!("cargo:rerun-if-changed=build.rs");
    println!("cargo:rerun-if-env-changed=NEGBOSUN_LIB");
    if env::var_os("NEGBOSUN_LIB").is_some_and(|folder| Path::new(&folder).is_relative()) {
        println!("cargo:rerun-if-env-changed=PWD");
    }
    let places = places();
    let found = places.iter().find(|place| file(place).is_file());
    // Where none is there, the first is named, so that the build looks again once it is.
    if let Some(place) = found.or(places.first()) {
        println!("cargo:rerun-if-changed={}", file(place).display());
    }
    let Some((folder, name)) = found else {
        eprintln!("{}", absent(&places));
        std::process::exit(1);
    };
    println!("cargo:rustc-link-search=native={}", folder.display());
    println!("cargo:rustc-link-lib=static={name}");
}
