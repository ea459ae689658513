// Links the archive that `make` writes. OVENQUILL_LIB names another folder that holds it; a relative one is taken from this
// package's folder, and an empty name is none. The benchmarks have more lines where OVENQUILL_CHRONO names the folder of
// libovenquill_chrono.a, which benches/chrono.cpp says how to make, and where OVENQUILL_LENGTHS names that of
// libovenquill_lengths.a, which tools/build_lengths makes.
use std::path::{absolute, PathBuf};
use std::{env, process};

/// The folder that an environment variable names, if it names one, as an absolute path.
fn named(variable: &str) -> Option<PathBuf> {
    println!("cargo:rerun-if-env-changed={variable}");
    let folder = env::var_os(variable).filter(|folder| !folder.is_empty())?;
    Some(absolute(&folder).unwrap_or_else(|_| folder.into()))
}

fn main() {
    let built = || PathBuf::from(env::var_os("CARGO_MANIFEST_DIR").expect("cargo sets it")).with_file_name("build/lib");
    let folder = named("OVENQUILL_LIB").unwrap_or_else(built);
    let archive = folder.join("libovenquill.a");
    println!("cargo:rerun-if-changed={}", archive.display());
    if !archive.is_file() {
        eprintln!("no libovenquill.a in {}: run `make`, or set OVENQUILL_LIB", folder.display());
        process::exit(1);
    }
    println!("cargo:rustc-link-search=native={}", folder.display());
    println!("cargo:rustc-link-lib=static=ovenquill");

    for name in ["chrono", "lengths"] {
        println!("cargo:rustc-check-cfg=cfg({name})");
        if let Some(folder) = named(&format!("OVENQUILL_{}", name.to_uppercase())) {
            let archive = folder.join(format!("libovenquill_{name}.a"));
            println!("cargo:rustc-cfg={name}");
            println!("cargo:rustc-link-arg-benches={}", archive.display());
            println!("cargo:rerun-if-changed={}", archive.display());
        }
    }
}
