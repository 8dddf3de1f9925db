//! Links the proved library, which `tools/build lemoncolumn` writes to the repository's
//! target/staticlib. `LEMONCOLUMN_LIB_DIR`, an absolute path, names another folder to
//! take liblemoncolumn.a from, such as one of `tools/staticlib-for`. Nothing is downloaded.

use std::env::var_os;
use std::path::PathBuf;

fn main() {
    println!("cargo:rerun-if-env-changed=LEMONCOLUMN_LIB_DIR");
    let named = var_os("LEMONCOLUMN_LIB_DIR").map(PathBuf::from);
    let folder = named.unwrap_or_else(|| {
        // Read when this runs, so that a copied repository links its own library.
        let own = var_os("CARGO_MANIFEST_DIR").expect("cargo says where this crate is");
        PathBuf::from(own).join("../../target/staticlib")
    });
    assert!(
        folder.is_absolute(),
        "LEMONCOLUMN_LIB_DIR is {}: it must be an absolute path",
        folder.display()
    );
    let library = folder.join("liblemoncolumn.a");
    println!("cargo:rerun-if-changed={}", library.display());
    assert!(
        library.is_file(),
        "there is no {}: write it by `tools/build lemoncolumn`",
        library.display()
    );
    println!("cargo:rustc-link-search=native={}", folder.display());
    println!("cargo:rustc-link-lib=static=lemoncolumn");
}
