//! Links the archives of the proved core, if the feature `core` asks for it. Where one is missing, what doesn't
//! link (`cargo check`, `cargo doc`) still works.

use std::env;
use std::path::PathBuf;

/// The crates whose archives are linked: play, messages and trees; and one member.
const CRATES: [&str; 2] = ["exports", "exports_member"];

fn main() {
    println!("cargo:rerun-if-changed=build.rs");
    println!("cargo:rerun-if-env-changed=KALEBASIN_LIB");
    if env::var_os("CARGO_FEATURE_CORE").is_none() {
        return;
    }
    for name in CRATES {
        println!("cargo:rustc-link-lib=static={name}");
    }
    let folder = archive_folder();
    if folder.is_relative() {
        println!("cargo:warning=KALEBASIN_LIB takes a folder from the root on, so nothing links: {}", folder.display());
        return;
    }
    println!("cargo:rustc-link-search=native={}", folder.display());
    for name in CRATES {
        let archive = folder.join(format!("lib{name}.a"));
        println!("cargo:rerun-if-changed={}", archive.display());
        if !archive.is_file() {
            println!(
                "cargo:warning=an archive of the proved core isn't there, so nothing links: {}",
                archive.display()
            );
            println!("cargo:warning=build it at the repository's root with `host/archives.sh {name}`,");
            println!("cargo:warning=or name the folder that holds it in KALEBASIN_LIB,");
            println!("cargo:warning=or leave the core out with `--no-default-features`");
        }
    }
}

/// KALEBASIN_LIB, or the repository's target/staticlib. A relative one would be another folder here, where cargo was called, and
/// where it runs the compiler.
fn archive_folder() -> PathBuf {
    if let Some(folder) = env::var_os("KALEBASIN_LIB") {
        return PathBuf::from(folder);
    }
    let package = PathBuf::from(env::var_os("CARGO_MANIFEST_DIR").expect("cargo sets CARGO_MANIFEST_DIR"));
    package.ancestors().nth(2).unwrap_or(&package).join("target").join("staticlib")
}
