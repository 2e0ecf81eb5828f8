//! Links `librezdolin.a` and `liblibc_c.a`, which stand in the folder that `REZDOLIN` names, or in `out` at the top of
//! the repository, where `./build` puts them.

fn main() {
    println!("cargo::rerun-if-env-changed=REZDOLIN");
    let folder = std::env::var("REZDOLIN").unwrap_or_else(|_| {
        let package = std::env::var("CARGO_MANIFEST_DIR").expect("cargo gives the package's folder");
        format!("{package}/../../out")
    });
    println!("cargo::rustc-link-search=native={folder}");
    for library in ["rezdolin", "libc_c"] {
        println!("cargo::rerun-if-changed={folder}/lib{library}.a");
        println!("cargo::rustc-link-lib=static={library}");
    }
}
