// Finds the proved library, liba400.a, and links it.
//
// A400_LIB_DIR names the folder that holds it. Without that, `rt lib` in
// crates/a400 of the repository proves and builds it, for x86-64.

use std::env;
use std::fs;
use std::path::{Path, PathBuf};
use std::process::Command;

fn main() {
    println!("cargo:rerun-if-env-changed=A400_LIB_DIR");
    println!("cargo:rerun-if-changed=build.rs");
    let folder = match env::var_os("A400_LIB_DIR") {
        Some(folder) => given(PathBuf::from(folder)),
        None => built_here(),
    };
    if !folder.join("liba400.a").is_file() {
        stop(&format!("there is no liba400.a in {}", folder.display()));
    }
    println!("cargo:rustc-link-search=native={}", folder.display());
    println!("cargo:rustc-link-lib=static=a400");
}

fn given(folder: PathBuf) -> PathBuf {
    println!("cargo:rerun-if-changed={}", folder.join("liba400.a").display());
    folder
}

// The library is built again when a source of it has changed.
fn built_here() -> PathBuf {
    let processor = env::var("CARGO_CFG_TARGET_ARCH").expect("set by cargo");
    if processor != "x86_64" {
        stop(&format!(
            "the library is built for x86_64, and this is {processor}. Use test.sh, or set A400_LIB_DIR to the \
             folder that tools/far/build.sh prints"
        ));
    }
    let package = PathBuf::from(env::var_os("CARGO_MANIFEST_DIR").expect("set by cargo"));
    let top = package.ancestors().nth(2).expect("the package lies in rust/ of the repository").to_path_buf();
    println!("cargo:rerun-if-changed={}", top.join("crates.txt").display());
    for source in sources(&top.join("crates")) {
        println!("cargo:rerun-if-changed={}", source.display());
    }
    let library = top.join("crates").join("a400");
    prove(&library);
    library.join("out")
}

// What is written by hand in the crates: a crate's out/, which `rt` fills, is
// left out.
fn sources(crates: &Path) -> Vec<PathBuf> {
    let folders = match fs::read_dir(crates) {
        Ok(folders) => folders,
        Err(error) => stop(&format!("cannot read {} ({error})", crates.display())),
    };
    folders
        .flatten()
        .flat_map(|folder| ["src", "specs", "proofs"].map(|part| folder.path().join(part)))
        .filter(|part| part.is_dir())
        .collect()
}

fn prove(library: &Path) {
    let output = match Command::new("rt").arg("lib").current_dir(library).output() {
        Ok(output) => output,
        Err(error) => stop(&format!(
            "cannot start `rt` ({error}). Install it, or set A400_LIB_DIR to a folder that holds liba400.a"
        )),
    };
    if !output.status.success() {
        let told = String::from_utf8_lossy(&output.stdout).into_owned() + &String::from_utf8_lossy(&output.stderr);
        stop(&format!("`rt lib` in {} failed:\n{told}", library.display()));
    }
}

fn stop(message: &str) -> ! {
    eprintln!("a400: {message}");
    std::process::exit(1)
}
