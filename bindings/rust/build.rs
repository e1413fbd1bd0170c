//! Links the static library that `tools/staticlib struo_formal` writes: from the folder in `STRUO_LIB`, else from target/staticlib of this repository.
use std::env;
use std::path::PathBuf;
use std::process::exit;

fn main() {
    let package = PathBuf::from(env::var("CARGO_MANIFEST_DIR").expect("cargo names the package's folder"));
    let folder = env::var("STRUO_LIB").map_or_else(|_| package.join("../../target/staticlib"), PathBuf::from);
    let library = folder.join("libstruo_formal.a");
    println!("cargo:rerun-if-env-changed=STRUO_LIB");
    println!("cargo:rerun-if-changed={}", library.display());
    if !library.is_file() {
        eprintln!("There is no {}.", library.display());
        eprintln!("Run `./struo version` or `tools/staticlib struo_formal` at the root of the repository, which prove and build it in about 8 minutes,");
        eprintln!("or set STRUO_LIB to a folder that has libstruo_formal.a.");
        exit(1);
    }
    println!("cargo:rustc-link-search=native={}", folder.display());
    println!("cargo:rustc-link-lib=static=struo_formal");
}
