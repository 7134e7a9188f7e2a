//! Links the proved library, which `host/library.sh` writes to build/library/MACHINE in the repository's root, for the machine that is
//! compiled for; `IMBOLAVERK_LIB` names another folder.
use std::env;
use std::path::PathBuf;

fn main() {
    if let Err(why) = link() {
        println!("cargo::error={why}");
    }
}

fn link() -> Result<(), String> {
    let target = given("CARGO_CFG_TARGET_ARCH");
    let bits = given("CARGO_CFG_TARGET_POINTER_WIDTH");
    if bits != "64" {
        return Err(format!("the library is for machines whose pointers have 64 bits, and those of {target} have {bits}"));
    }
    println!("cargo::rerun-if-env-changed=IMBOLAVERK_LIB");
    let folder = match env::var_os("IMBOLAVERK_LIB") {
        Some(folder) => PathBuf::from(folder),
        None => PathBuf::from(given("CARGO_MANIFEST_DIR")).with_file_name("build").join("library").join(&target),
    };
    let archive = folder.join("libimbolaverk.a");
    println!("cargo::rerun-if-changed={}", archive.display());
    if !archive.exists() {
        return Err(format!("{} is missing: run `host/library.sh imbolaverk {target}` first", archive.display()));
    }
    println!("cargo::rustc-link-search=native={}", folder.display());
    println!("cargo::rustc-link-lib=static=imbolaverk");
    println!("cargo::metadata=folder={}", folder.display());
    Ok(())
}

/// What cargo tells every build script.
fn given(name: &str) -> String {
    env::var(name).unwrap_or_else(|_| panic!("cargo gives {name}"))
}
