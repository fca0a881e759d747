//! Gives the shared library the name by which programs look for it when they begin.

fn main() {
    println!("cargo:rerun-if-changed=build.rs");
    println!("cargo:rustc-cdylib-link-arg=-Wl,-soname,libmuoswyld_group.so");
}
