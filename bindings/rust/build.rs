//! Links libpbfdl.a, which is looked for in this order: in the folder `lib` of the folder that the environment variable PBFDL_DIR
//! names; in `lib` beside this crate, as in a release; in the repository, where `rt lib` in crates/pbfdl builds it.

use std::env;
use std::path::{Path, PathBuf};

fn main() {
    println!("cargo:rerun-if-env-changed=PBFDL_DIR");
    let here = PathBuf::from(env::var_os("CARGO_MANIFEST_DIR").expect("cargo names the crate's folder"));
    let named = env::var_os("PBFDL_DIR").map(PathBuf::from);
    let release = named.clone().or_else(|| here.parent().map(Path::to_path_buf)).unwrap_or_default().join("lib");
    let repository = here.join("../../crates/pbfdl/out");
    if release.join("libpbfdl.a").exists() {
        link(&release, "pbfdl");
    } else if named.is_none() && repository.join("libpbfdl.a").exists() {
        link(&repository, "pbfdl");
        // The library's heap functions, which a release has in the same archive.
        link(&toolchain().join("c"), "libc_c");
    } else {
        panic!("there is no libpbfdl.a in {}; PBFDL_DIR can name the folder of a release", release.display());
    }
}

fn link(folder: &Path, name: &str) {
    println!("cargo:rerun-if-changed={}", folder.join(format!("lib{name}.a")).display());
    println!("cargo:rustc-link-search=native={}", folder.display());
    println!("cargo:rustc-link-lib=static={name}");
}

/// The folder of the Rattle toolchain: that of the command rt on the path, else /opt/rattle.
fn toolchain() -> PathBuf {
    let path = env::var_os("PATH").unwrap_or_default();
    let rt = env::split_paths(&path).map(|folder| folder.join("rt")).find(|rt| rt.exists());
    let found = rt.and_then(|rt| Some(rt.canonicalize().ok()?.parent()?.parent()?.to_path_buf()));
    found.filter(|folder| folder.join("c").exists()).unwrap_or_else(|| "/opt/rattle".into())
}
