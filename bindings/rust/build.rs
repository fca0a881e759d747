//! Links the proved library, and behind it the toolchain's `c/liblibc_c.a`, by which it calls `malloc`, `realloc` and `free`. KIT is
//! the toolchain's folder; where it isn't set, the folder of the page that `rt doc` names. With MUOSWYLD_UNPROVED=1 it links the
//! library without proofs, which `tools/library.py --quick` builds.
use std::path::{Path, PathBuf};
use std::process::{exit, Command};
use std::{env, fs};

/// Ends the build with a line that says why.
fn refuse(why: &str) -> ! {
    eprintln!("{why}");
    exit(1)
}

/// The folder of a page that a path names.
fn folder_of(page: &[u8]) -> Option<PathBuf> {
    let page = Path::new(std::str::from_utf8(page).ok()?.trim());
    Some(page.parent()?.into())
}

/// The toolchain's folder of static libraries.
fn kit_libraries() -> PathBuf {
    let kit = match env::var_os("KIT") {
        Some(kit) => Some(kit.into()),
        None => match Command::new("rt").arg("doc").output() {
            Ok(said) => folder_of(&said.stdout),
            Err(_) => None,
        },
    };
    match kit.map(|kit: PathBuf| kit.join("c")) {
        Some(found) if found.join("liblibc_c.a").exists() => found,
        _ => refuse("the toolchain isn't found: KIT is its folder, where rt isn't on the path"),
    }
}

fn main() {
    let here = PathBuf::from(env::var_os("CARGO_MANIFEST_DIR").expect("cargo sets it"));
    let top = fs::canonicalize(here.join("../..")).expect("this folder is there");
    let library = top.join("crates/am_c/out");
    let name = match env::var_os("MUOSWYLD_UNPROVED") {
        Some(wish) if wish == "1" => "am_c_unproved",
        _ => "am_c",
    };
    let archive = library.join(format!("lib{name}.a"));
    println!("cargo:rerun-if-changed={}", archive.display());
    println!("cargo:rerun-if-env-changed=MUOSWYLD_UNPROVED");
    println!("cargo:rerun-if-env-changed=KIT");
    if !archive.exists() {
        refuse(&format!(
            "{} isn't there: {} proves and makes it, in some minutes where the gate has passed, else in half an hour or so; with --quick it makes an unproved one in minutes, for MUOSWYLD_UNPROVED=1",
            archive.display(),
            top.join("tools/library.py").display()
        ));
    }
    println!("cargo:rustc-link-search=native={}", library.display());
    println!(
        "cargo:rustc-link-search=native={}",
        kit_libraries().display()
    );
    println!("cargo:rustc-link-lib=static={name}");
    println!("cargo:rustc-link-lib=static=libc_c");
}
