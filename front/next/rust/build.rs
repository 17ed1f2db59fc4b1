// Links the engine's archive. It is looked for in ABE_ARCHIVE_DIR, and without that where `rt lib` puts it.
use std::env;
use std::path::PathBuf;

fn main() {
    let target = |what: &str| env::var(format!("CARGO_CFG_TARGET_{what}")).unwrap_or_default();
    if target("ARCH") != "x86_64" || target("OS") != "linux" {
        panic!("the engine's archive is for x86-64 Linux, not for {} {}", target("ARCH"), target("OS"));
    }
    let dir = match env::var_os("ABE_ARCHIVE_DIR") {
        Some(dir) => PathBuf::from(dir),
        None => PathBuf::from(env::var_os("CARGO_MANIFEST_DIR").unwrap()).join("../../../crates/capi/out"),
    };
    let archive = dir.join("libcapi.a");
    if !archive.is_file() {
        panic!("{} is missing: build it by `rt lib` in crates/capi, or by front/run", archive.display());
    }
    println!("cargo:rustc-link-search=native={}", dir.display());
    println!("cargo:rustc-link-lib=static=capi");
    println!("cargo:rerun-if-changed={}", archive.display());
    println!("cargo:rerun-if-env-changed=ABE_ARCHIVE_DIR");
    println!("cargo:rerun-if-changed=build.rs");
}
