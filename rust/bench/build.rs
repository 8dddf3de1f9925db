//! Links the probes of speed, which `tools/build speed_probes` writes to the repository's
//! target/staticlib. Where `tools/staticlib-for x86-64-v3` has written the library for
//! that level there, it is linked too, with names that are not the plain library's.

use std::env::var_os;
use std::path::{Path, PathBuf};
use std::process::Command;

/// What src/newer.rs calls of it.
const CALLS: [&str; 5] = [
    "lemoncolumn_interface",
    "lemoncolumn_hash",
    "lemoncolumn_build",
    "lemoncolumn_check",
    "lemoncolumn_read_off",
];

fn main() {
    let own = path("CARGO_MANIFEST_DIR");
    let folder = own.join("../../target/staticlib");
    // The folder, since a file that is not there would have this run each time.
    println!("cargo:rerun-if-changed={}", folder.display());
    let library = folder.join("libspeed_probes.a");
    assert!(
        library.is_file(),
        "there is no {}: write it by `tools/build speed_probes`",
        library.display()
    );
    println!("cargo:rustc-link-search=native={}", folder.display());
    println!("cargo:rustc-link-lib=static=speed_probes");

    println!("cargo:rustc-check-cfg=cfg(newer)");
    let library = folder.join("x86-64-v3/liblemoncolumn.a");
    let time = |file: &Path| file.metadata().and_then(|it| it.modified()).ok();
    // One that is older than the plain library may be of another state.
    if library.is_file() && time(&library) >= time(&folder.join("liblemoncolumn.a")) {
        link_newer(&library);
    }
}

fn path(variable: &str) -> PathBuf {
    PathBuf::from(var_os(variable).expect("cargo says where things are"))
}

/// A copy in which each of the calls has another name, and no other name is global.
fn link_newer(library: &Path) {
    let folder = path("OUT_DIR");
    let mut objcopy = Command::new("objcopy");
    for call in CALLS {
        objcopy.arg(format!("--redefine-sym={call}=newer_{call}"));
        objcopy.arg(format!("--keep-global-symbol=newer_{call}"));
    }
    let status = objcopy
        .arg(library)
        .arg(folder.join("libnewer.a"))
        .status()
        .expect("objcopy of the binutils can be run");
    assert!(status.success(), "objcopy of {}", library.display());
    println!("cargo:rustc-link-search=native={}", folder.display());
    println!("cargo:rustc-link-lib=static=newer");
    println!("cargo:rustc-cfg=newer");
}
