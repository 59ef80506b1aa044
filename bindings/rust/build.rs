//! Finds libuimg: in the folder LIBUIMG_DIR, else where pkg-config says. Links libuimg.a if the
//! folder has it, else libuimg.so.

use std::path::Path;
use std::process::Command;
use std::{env, process};

fn by_pkg_config() -> Option<String> {
    let told = Command::new("pkg-config")
        .args(["--variable=libdir", "libuimg"])
        .output()
        .ok()?;
    let folder = String::from_utf8(told.stdout).ok()?;
    told.status.success().then(|| folder.trim_end().to_owned())
}

fn main() {
    println!("cargo:rerun-if-env-changed=LIBUIMG_DIR");
    println!("cargo:rerun-if-env-changed=PKG_CONFIG_PATH");
    let folder = env::var("LIBUIMG_DIR").ok().or_else(by_pkg_config).unwrap_or_else(|| {
        eprintln!("libuimg was not found: set LIBUIMG_DIR to its folder, or PKG_CONFIG_PATH to that of libuimg.pc");
        process::exit(1)
    });
    let archive = Path::new(&folder).join("libuimg.a");
    println!("cargo:rerun-if-changed={}", archive.display());
    println!("cargo:rustc-link-search=native={folder}");
    let kind = if archive.is_file() { "static" } else { "dylib" };
    println!("cargo:rustc-link-lib={kind}=uimg");
}
