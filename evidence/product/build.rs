//! Links the proved library: target/staticlib/libforeign.a, a copy of what `rt lib` writes in crates/foreign_c.
use std::path::Path;

fn main() {
    let folder = Path::new(env!("CARGO_MANIFEST_DIR")).join("../../target/staticlib");
    println!("cargo:rerun-if-changed={}", folder.join("libforeign.a").display());
    println!("cargo:rustc-link-search=native={}", folder.display());
    println!("cargo:rustc-link-lib=static=foreign");
}
