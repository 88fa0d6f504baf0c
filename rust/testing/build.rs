//! Hands on the folder of libgmti.a, which the package gmti has found or built: tests/c_calls.rs links the library too.
fn main() {
    println!("cargo:rerun-if-changed=build.rs");
    let folder = std::env::var("DEP_GMTI_FOLDER").expect("the package gmti names the folder");
    println!("cargo:rustc-env=GMTI_LIBRARY_FOLDER={folder}");
}
