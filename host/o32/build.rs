//! Tells the linker where the static library lies, or says why it can't.

use std::env;
use std::path::{Path, PathBuf};

const LIBRARY: &str = "libcapi.a";

fn main() {
    println!("cargo::rerun-if-env-changed=O32_LIB_DIR");
    match library_directory() {
        Ok(directory) => link(&directory),
        Err(message) => println!("cargo::error={message}"),
    }
}

fn link(directory: &Path) {
    // A rebuilt library must reach the programs that link it.
    println!(
        "cargo::rerun-if-changed={}",
        directory.join(LIBRARY).display()
    );
    println!("cargo::rustc-link-search=native={}", directory.display());
    println!("cargo::rustc-link-lib=static=capi");
}

/// Where the library is, if it is there and made for this target.
fn library_directory() -> Result<PathBuf, String> {
    let target = variable("CARGO_CFG_TARGET_ARCH");
    if target != "x86_64" {
        return Err(format!(
            "the proved library is compiled for x86_64 only, so o32 can't be built for {target}"
        ));
    }
    let directory = named_directory();
    if directory.join(LIBRARY).is_file() {
        return Ok(directory);
    }
    Err(format!(
        "there is no {LIBRARY} in {}: run `rt lib` in crates/capi of the repository that has the \
         proved crates, or set O32_LIB_DIR to the directory of the library, absolute or relative \
         to {}",
        directory.display(),
        workspace().display()
    ))
}

/// `O32_LIB_DIR`, or else the directory of the library in this repository.
fn named_directory() -> PathBuf {
    let named = env::var_os("O32_LIB_DIR").unwrap_or_else(|| "../crates/capi/out".into());
    workspace().join(named)
}

/// What a relative `O32_LIB_DIR` starts from: the workspace that this crate is
/// a member of. The directory that cargo was started in would not do: cargo
/// doesn't run this script again when only that has changed, and would go on
/// with the library of another place.
fn workspace() -> PathBuf {
    let here = PathBuf::from(variable("CARGO_MANIFEST_DIR"));
    here.parent()
        .expect("the crate lies in its workspace")
        .to_path_buf()
}

fn variable(name: &str) -> String {
    env::var(name).unwrap_or_else(|_| panic!("cargo sets {name}"))
}
