//! With the feature `unchecked`, links the benchmark with the archive of `host/library.sh unchecked`, which lies beside the library's.
use std::env;
use std::path::Path;

fn main() {
    if env::var_os("CARGO_FEATURE_UNCHECKED").is_none() {
        return;
    }
    let folder = env::var("DEP_IMBOLAVERK_FOLDER").expect("the library's build script names its folder");
    let archive = Path::new(&folder).join("libunchecked.a");
    println!("cargo::rerun-if-changed={}", archive.display());
    if archive.exists() {
        println!("cargo::rustc-link-arg-bin=bench={}", archive.display());
    } else {
        println!("cargo::error={} is missing: run `host/library.sh unchecked` first", archive.display());
    }
}
