//! Links the proved library, `libfervolatro.a`, from `target/staticlib` of the
//! repository or from the folder that `FERVOLATRO_LIB_DIR` names. The archive has
//! x86-64 code. On another processor the library is linked with the feature `native`,
//! as `tests/native` compiles it for the machine, from `target/native`; with the
//! feature `bridge` alone nothing is linked, and the library is asked through the
//! bridge.

use std::env;
use std::path::PathBuf;
use std::process;

fn main() {
    println!("cargo:rerun-if-env-changed=FERVOLATRO_LIB_DIR");
    let is_x86 = env::var("CARGO_CFG_TARGET_ARCH").as_deref() == Ok("x86_64");
    let has_feature = |name: &str| env::var_os(format!("CARGO_FEATURE_{name}")).is_some();
    if is_x86 {
        link("staticlib", "bin/staticlib");
    } else if has_feature("NATIVE") {
        link("native", "tests/native");
    } else if !has_feature("BRIDGE") {
        stop(
            "The library is compiled for x86-64. On this processor it takes the feature `native`.",
        );
    }
}

/// Links the archive, which the command makes in the folder of `target`.
fn link(made_in: &str, command: &str) {
    let folder = library_folder(made_in);
    let archive = folder.join("libfervolatro.a");
    println!("cargo:rerun-if-changed={}", archive.display());
    if !archive.is_file() {
        stop(&format!(
            "{} is not there. Make it with `{command}` in the repository's root, or set \
             FERVOLATRO_LIB_DIR to the folder that holds libfervolatro.a.",
            archive.display()
        ));
    }
    println!("cargo:rustc-link-search=native={}", folder.display());
    println!("cargo:rustc-link-lib=static=fervolatro");
}

fn library_folder(made_in: &str) -> PathBuf {
    match env::var_os("FERVOLATRO_LIB_DIR") {
        Some(folder) => PathBuf::from(folder),
        None => {
            let manifest = env::var_os("CARGO_MANIFEST_DIR").expect("cargo sets it");
            PathBuf::from(manifest).join("../../target").join(made_in)
        }
    }
}

fn stop(why: &str) {
    eprintln!("{why}");
    process::exit(1);
}
