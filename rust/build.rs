//! Links the proved static library: the file that PROVED_LIBRARY names, or the one that
//! `rt lib` writes in `../crates/varmityep`.

use std::env;
use std::path::{Path, PathBuf};

const BUILT: &str = "../crates/varmityep/out/libvarmityep.a";

fn main() {
    println!("cargo:rerun-if-env-changed=PROVED_LIBRARY");
    let folder = PathBuf::from(env::var_os("CARGO_MANIFEST_DIR").expect("cargo sets it"));
    let file = env::var_os("PROVED_LIBRARY").map_or(folder.join(BUILT), PathBuf::from);
    println!("cargo:rerun-if-changed={}", file.display());
    match linked(&file) {
        Some((folder, name)) => {
            println!("cargo:rustc-link-search=native={}", folder.display());
            println!("cargo:rustc-link-lib=static={name}");
        }
        // Checking and documenting need no library, so this is left to the linker to refuse.
        None => {
            println!("cargo:warning=no library {}: rt lib, in crates/varmityep", file.display())
        }
    }
}

/// The folder and the name by which the linker finds `libNAME.a`.
fn linked(file: &Path) -> Option<(PathBuf, String)> {
    let file = file.canonicalize().ok()?;
    let name = file.file_name()?.to_str()?.strip_prefix("lib")?.strip_suffix(".a")?;
    Some((file.parent()?.to_path_buf(), name.to_string()))
}
