//! Links the static library that `scripts/build` wrote.

use std::env;
use std::path::Path;

fn main() {
    let folder = env::var("CARGO_MANIFEST_DIR").expect("cargo's folder");
    let library = Path::new(&folder).join("../../target/staticlib");
    println!(
        "cargo::rerun-if-changed={}",
        library.join("libhost.a").display()
    );
    println!("cargo::rustc-link-search=native={}", library.display());
    println!("cargo::rustc-link-lib=static=host");
}
