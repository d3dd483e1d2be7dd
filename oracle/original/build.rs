//! Takes the two source files of the original, unchanged, from the folder that
//! NEGBOSUN_ORIGINAL names (else `../shared/docs/src` beside the repository), makes sure by their
//! SHA-256 that they are the original's, and puts our text after the second one.

use std::path::{Path, PathBuf};
use std::{env, fs};

#[path = "sha256.rs"]
mod sha256;

const FILES: [(&str, &str); 2] = [
    (
        "mod.rs",
        "ea3ac4943ace276c559f2085ef6ba5010a81e63e4e8e67d5d81f2b9322e33d72",
    ),
    (
        "scope.rs",
        "bf4411c019442d71daeacbacce69adcb83f43cb5841e6a850df092bcc6a6f413",
    ),
];

fn main() {
    println!("cargo:rerun-if-env-changed=NEGBOSUN_ORIGINAL");
    println!("cargo:rerun-if-changed=build.rs");
    println!("cargo:rerun-if-changed=sha256.rs");
    println!("cargo:rerun-if-changed=appended.rs");
    let here = PathBuf::from(env::var("CARGO_MANIFEST_DIR").unwrap());
    let from = sources(&here);
    let to = PathBuf::from(env::var("OUT_DIR").unwrap()).join("inlining");
    fs::create_dir_all(&to).unwrap();
    for (name, sum) in FILES {
        let mut text = checked(&from.join(name), sum);
        if name == "scope.rs" {
            text.extend(fs::read(here.join("appended.rs")).unwrap());
        }
        fs::write(to.join(name), text).unwrap();
    }
}

/// The folder of the two files.
fn sources(here: &Path) -> PathBuf {
    let root = match env::var_os("NEGBOSUN_ORIGINAL") {
        Some(folder) => PathBuf::from(folder),
        None => here.join("../../../shared/docs/src"),
    };
    root.join("simplify/inlining")
}

fn checked(path: &Path, sum: &str) -> Vec<u8> {
    println!("cargo:rerun-if-changed={}", path.display());
    let path = path.display();
    let Ok(text) = fs::read(path.to_string()) else {
        stop(&format!(
            "the original's source {path} is not there. Set NEGBOSUN_ORIGINAL to the folder that \
             holds simplify/inlining/mod.rs and scope.rs. Without it the oracle cannot be built; \
             the stored vectors in tests/vectors need no oracle."
        ))
    };
    let found = sha256::hex(&text);
    if found != sum {
        stop(&format!(
            "{path} is not the original's text: its SHA-256 is {found}, not {sum}."
        ))
    }
    text
}

fn stop(message: &str) -> ! {
    println!("cargo:warning={message}");
    eprintln!("{message}");
    std::process::exit(1)
}
