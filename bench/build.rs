//! Links the peer in Gecode, which bench/run compiles.

fn main() {
    let here = std::env::var("CARGO_MANIFEST_DIR").expect("cargo names the package's folder");
    let folder = format!("{here}/../target/bench");
    println!("cargo:rerun-if-changed={folder}/libpeer.a");
    println!("cargo:rustc-link-search=native={folder}");
    println!("cargo:rustc-link-lib=static=peer");
    for library in ["gecodeint", "gecodekernel", "gecodesupport", "stdc++"] {
        println!("cargo:rustc-link-lib={library}");
    }
}
