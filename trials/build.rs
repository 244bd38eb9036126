//! Links target/staticlib/libstation.a of the repository, which `tools/build station` makes. The
//! bench's packages link it by this file too.

use std::path::Path;

fn main() {
    let repository = Path::new(env!("CARGO_MANIFEST_DIR"))
        .ancestors()
        .find(|folder| folder.join("crates.txt").exists())
        .expect("a package of the repository");
    let folder = repository.join("target/staticlib");
    let library = folder.join("libstation.a");
    println!("cargo:rerun-if-changed={}", library.display());
    assert!(
        library.exists(),
        "no target/staticlib/libstation.a: run `tools/build station`"
    );
    println!("cargo:rustc-link-search=native={}", folder.display());
    println!("cargo:rustc-link-lib=static=station");
}
