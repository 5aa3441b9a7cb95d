//! Links the library under test: the archive that CROSSBAR_LIB names, or the
//! one that stands in the repository's target folder.

use std::env;
use std::path::PathBuf;

fn main() {
    println!("cargo:rerun-if-env-changed=CROSSBAR_LIB");
    let here = PathBuf::from(env::var_os("CARGO_MANIFEST_DIR").unwrap());
    let path = match env::var_os("CROSSBAR_LIB") {
        Some(path) => PathBuf::from(path),
        None => here.join("../../target/staticlib/libcrossbar.a"),
    };
    println!("cargo:rerun-if-changed={}", path.display());
    let Ok(path) = path.canonicalize() else {
        panic!(
            "there is no library at {}; tools/build makes it",
            path.display()
        );
    };
    let name = path.file_name().and_then(|name| name.to_str());
    let name = name
        .and_then(|name| name.strip_prefix("lib"))
        .and_then(|name| name.strip_suffix(".a"))
        .expect("the library's file name is lib, a name and .a");
    let folder = path.parent().expect("a file stands in a folder");
    println!("cargo:rustc-link-search=native={}", folder.display());
    println!("cargo:rustc-link-lib=static={name}");
}
