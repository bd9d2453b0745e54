// Says where the static library is: in the folder that BLIST_LIB_DIR names; or where pkg-config finds it installed; or in
// target/staticlib of the repository that this wrapper stands in.

use std::env;
use std::path::PathBuf;
use std::process::Command;

fn installed() -> Option<PathBuf> {
    let told = Command::new("pkg-config")
        .args(["--variable=libdir", "blist"])
        .output()
        .ok()?;
    let folder = String::from_utf8(told.stdout).ok()?;
    match folder.trim() {
        "" => None,
        _ if !told.status.success() => None,
        folder => Some(PathBuf::from(folder)),
    }
}

fn in_repository() -> PathBuf {
    let here = PathBuf::from(env::var_os("CARGO_MANIFEST_DIR").unwrap());
    here.join("../../target/staticlib")
}

fn main() {
    for name in ["BLIST_LIB_DIR", "PKG_CONFIG_PATH", "PKG_CONFIG_LIBDIR"] {
        println!("cargo:rerun-if-env-changed={name}");
    }
    let folder = env::var_os("BLIST_LIB_DIR")
        .map(PathBuf::from)
        .or_else(installed)
        .unwrap_or_else(in_repository);
    let archive = folder.join("libblist.a");
    if !archive.exists() {
        panic!(
            "there is no {}: install the library (make install) so that pkg-config finds it, \
             or name its folder in BLIST_LIB_DIR",
            archive.display()
        );
    }
    println!("cargo:rerun-if-changed={}", archive.display());
    println!("cargo:rustc-link-search=native={}", folder.display());
    println!("cargo:rustc-link-lib=static=blist");
}
