//! Links the proved library. It is not built here: `make target/staticlib/liborder.a` at the top of the repository makes it.

use std::env;
use std::path::PathBuf;

fn main() {
    println!("cargo::rerun-if-env-changed=ORDER_LIB");
    let package = PathBuf::from(env::var("CARGO_MANIFEST_DIR").expect("cargo names the package's folder"));
    // A relative ORDER_LIB is taken from the package's folder, so that it means the same from wherever cargo is called.
    let folder = match env::var_os("ORDER_LIB") {
        Some(named) => package.join(named),
        None => package.join("../target/staticlib"),
    };
    let library = folder.join("liborder.a");
    println!("cargo::rerun-if-changed={}", library.display());
    if !library.is_file() {
        println!("cargo::error=there is no liborder.a in {}", folder.display());
        println!("cargo::error=make it with `make target/staticlib/liborder.a` at the top of the repository,");
        println!("cargo::error=or name the folder that holds it in the environment variable ORDER_LIB");
        return;
    }
    println!("cargo::rustc-link-search=native={}", folder.display());
    println!("cargo::rustc-link-lib=static=order");
}
