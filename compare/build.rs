//! Links the static library that `tools/staticlib solver` writes; the bindings link that of `tools/staticlib struo_formal`.
fn main() {
    let root = std::path::Path::new(env!("CARGO_MANIFEST_DIR")).join("../target/staticlib");
    println!("cargo:rustc-link-search=native={}", root.display());
    println!("cargo:rustc-link-lib=static=solver");
    println!("cargo:rerun-if-changed={}", root.join("libsolver.a").display());
}
