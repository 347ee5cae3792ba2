//! Finds the library: libc_interface.a in the folder that YM2149_LIB names, or where `bindings/library` writes it.

use std::env;
use std::path::{Path, PathBuf};

/// The library's folder, or what to do about it.
fn folder() -> Result<PathBuf, &'static str> {
    if let Some(named) = env::var_os("YM2149_LIB") {
        return Ok(named.into());
    }
    let folder = match env::var("CARGO_CFG_TARGET_ARCH").unwrap().as_str() {
        "x86_64" => "../../target/staticlib",
        "aarch64" => "../../target/staticlib-aarch64",
        _ => return Err("the library is for x86-64 and for an Arm"),
    };
    Ok(Path::new(&env::var_os("CARGO_MANIFEST_DIR").unwrap()).join(folder))
}

fn main() {
    println!("cargo::rerun-if-env-changed=YM2149_LIB");
    let folder = match folder() {
        Ok(folder) => folder,
        Err(why) => return println!("cargo::error={why}"),
    };
    let library = folder.join("libc_interface.a");
    println!("cargo::rerun-if-changed={}", library.display());
    if !library.is_file() {
        return println!("cargo::error=no {}: run `bindings/library`, or name the library's folder in YM2149_LIB", library.display());
    }
    println!("cargo::rustc-link-search=native={}", folder.display());
    println!("cargo::rustc-link-lib=static=c_interface");
}
