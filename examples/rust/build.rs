//! Links the static library, which `rt lib` builds in crates/maugzeris_c, and behind it the kit's over malloc.
use std::env;
use std::path::{Path, PathBuf};

/// The folder that this variable names, or the one from here.
fn folder(variable: &str, from_here: &str) -> PathBuf {
    println!("cargo:rerun-if-env-changed={variable}");
    match env::var_os(variable) {
        Some(it) => PathBuf::from(it),
        None => Path::new(env!("CARGO_MANIFEST_DIR")).join(from_here),
    }
}

fn main() {
    let library = folder("MAUGZERIS_LIBRARY", "../../crates/maugzeris_c/out");
    let kit = folder("MAUGZERIS_KIT", "/opt/rattle/c");
    println!(
        "cargo:rerun-if-changed={}",
        library.join("libmaugzeris_c.a").display()
    );
    println!("cargo:rustc-link-search=native={}", library.display());
    println!("cargo:rustc-link-search=native={}", kit.display());
    println!("cargo:rustc-link-lib=static=maugzeris_c");
    println!("cargo:rustc-link-lib=static=libc_c");
}
