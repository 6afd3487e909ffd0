//! Links the proved library, `libyarnspire.a`: from the folder that YARNSPIRE_LIB names, else from ../target/staticlib. With the feature `before` it
//! links an earlier one too, `libyarnspire_before.a`: from the folder that YARNSPIRE_BEFORE names, else from ../target/before. A relative name
//! counts from this package's own folder.

use std::env;
use std::path::PathBuf;
use std::process::exit;

fn main() {
    let named = folder_named("YARNSPIRE_LIB");
    let processor = env::var("CARGO_CFG_TARGET_ARCH").expect("cargo names the target's processor");
    if named.is_none() && processor != "x86_64" {
        eprintln!("The archive in ../target/staticlib is for x86-64, and this build is for {processor}.");
        eprintln!("Make one for this processor with scripts/native-archive {processor}, and name its folder, target/native, in YARNSPIRE_LIB.");
        exit(1);
    }
    let advice = "Make it with scripts/archive, or name the folder that holds libyarnspire.a in YARNSPIRE_LIB.";
    link("yarnspire", named.unwrap_or_else(|| "../target/staticlib".into()), advice);
    if env::var_os("CARGO_FEATURE_BEFORE").is_some() {
        let folder = folder_named("YARNSPIRE_BEFORE").unwrap_or_else(|| "../target/before".into());
        link("yarnspire_before", folder, "Make it with scripts/before-archive, or build without the feature `before`.");
    }
}

/// The folder that a variable of the environment names, if it names one.
fn folder_named(variable: &str) -> Option<PathBuf> {
    println!("cargo:rerun-if-env-changed={variable}");
    env::var_os(variable).filter(|name| !name.is_empty()).map(PathBuf::from)
}

/// Links a static library from a folder. Without it there is no build, and the advice says what to do.
fn link(library: &str, folder: PathBuf, advice: &str) {
    let package = PathBuf::from(env::var_os("CARGO_MANIFEST_DIR").expect("cargo names the package's folder"));
    let folder = package.join(folder);
    let archive = folder.join(format!("lib{library}.a"));
    println!("cargo:rerun-if-changed={}", archive.display());
    if !archive.is_file() {
        eprintln!("There is no {}.", archive.display());
        eprintln!("{advice}");
        exit(1);
    }
    println!("cargo:rustc-link-search=native={}", folder.display());
    println!("cargo:rustc-link-lib=static={library}");
}
