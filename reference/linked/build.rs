//! Links the archive that `make lib` builds. `NITSWOLAN_LIB` names another folder for it.

use std::env;

fn main() {
    let default = format!(
        "{}/../../target/staticlib",
        env::var("CARGO_MANIFEST_DIR").expect("cargo sets it")
    );
    let folder = env::var("NITSWOLAN_LIB").unwrap_or(default);
    println!("cargo:rerun-if-env-changed=NITSWOLAN_LIB");
    println!("cargo:rerun-if-changed={folder}/libnitswolan.a");
    println!("cargo:rustc-link-search=native={folder}");
    println!("cargo:rustc-link-lib=static=nitswolan");
}
