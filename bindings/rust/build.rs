// Links libgoxundar.a, which GOXUNDAR_ARCHIVE names: the file, or the folder that holds it.
use std::path::{Path, PathBuf};
use std::process::exit;

const HELP: &str = "\
goxundar: GOXUNDAR_ARCHIVE must name the static library, or the folder that holds libgoxundar.a.
goxundar: Make it at the top of the repository:   tools/archive target/libgoxundar.a
goxundar: Then build with its path, from / on:    GOXUNDAR_ARCHIVE=$PWD/target/libgoxundar.a cargo build";

fn give_up(why: &str) -> ! {
    eprintln!("goxundar: {why}\n{HELP}");
    exit(1)
}

fn main() {
    println!("cargo:rerun-if-env-changed=GOXUNDAR_ARCHIVE");
    let Some(named) = std::env::var_os("GOXUNDAR_ARCHIVE").filter(|named| !named.is_empty()) else {
        give_up("GOXUNDAR_ARCHIVE is not set.");
    };
    let mut archive = PathBuf::from(named);
    if archive.is_dir() {
        archive.push("libgoxundar.a");
    }
    if !archive.is_file() {
        give_up(&format!("There is no file {}.", archive.display()));
    }
    println!("cargo:rerun-if-changed={}", archive.display());
    // Under the name that the linker looks for, whatever the file is called.
    let folder = std::env::var_os("OUT_DIR").expect("cargo sets OUT_DIR");
    let folder = Path::new(&folder);
    if let Err(why) = std::fs::copy(&archive, folder.join("libgoxundar.a")) {
        give_up(&format!("{} can't be copied: {why}.", archive.display()));
    }
    println!("cargo:rustc-link-search=native={}", folder.display());
    println!("cargo:rustc-link-lib=static=goxundar");
}
