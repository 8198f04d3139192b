//! Under the feature `proved`, links the static library that PROVED_LIBRARY names. A relative name
//! counts from the workspace's folder, where cargo is called, not from this package's.

use std::env;
use std::path::Path;

fn main() {
    println!("cargo:rerun-if-env-changed=PROVED_LIBRARY");
    if env::var_os("CARGO_FEATURE_PROVED").is_none() {
        return;
    }
    let name = env::var_os("PROVED_LIBRARY").expect("PROVED_LIBRARY names the static library");
    let package = env::var_os("CARGO_MANIFEST_DIR").expect("cargo sets it");
    let workspace = Path::new(&package).parent().expect("the package is in the workspace");
    let file = workspace.join(name);
    let file = file.canonicalize().unwrap_or_else(|error| panic!("{}: {error}", file.display()));
    println!("cargo:rerun-if-changed={}", file.display());
    println!("cargo:rustc-link-arg={}", file.display());
}
