//! Links libgmti.a, the verified library. It is built from ../../crates by the Rattle toolchain, which proves it first; where
//! GMTI_LIBRARY_DIR is set, the library that lies there is taken as it is, and the toolchain is not needed.
use std::env;
use std::path::{Path, PathBuf};
use std::process::Command;

fn main() {
    println!("cargo:rerun-if-env-changed=GMTI_LIBRARY_DIR");
    let folder = match env::var_os("GMTI_LIBRARY_DIR") {
        Some(folder) => PathBuf::from(folder),
        None => prove_and_build(),
    };
    let library = folder.join("libgmti.a");
    if !library.is_file() {
        panic!("{} is missing", library.display());
    }
    println!("cargo:rerun-if-changed={}", library.display());
    println!("cargo:rustc-link-search=native={}", folder.display());
    println!("cargo:rustc-link-lib=static=gmti");
    // For packages that link the library themselves: Cargo hands it to their build scripts as DEP_GMTI_FOLDER.
    let folder = folder.canonicalize().expect("the library's folder was just looked into");
    println!("cargo:folder={}", folder.display());
}

/// The folder where `rt lib` leaves the library.
fn prove_and_build() -> PathBuf {
    let root = Path::new(env!("CARGO_MANIFEST_DIR")).join("../..");
    println!("cargo:rerun-if-changed=../../crates");
    println!("cargo:rerun-if-changed=../../crates.txt");
    let gmti = root.join("crates/gmti");
    let built = Command::new("rt").arg("lib").current_dir(&gmti).output();
    match built {
        Ok(output) if output.status.success() => gmti.join("out"),
        Ok(output) => panic!("rt lib failed in crates/gmti:\n{}", String::from_utf8_lossy(&output.stderr)),
        Err(error) => {
            panic!("the Rattle toolchain's rt did not start ({error}); set GMTI_LIBRARY_DIR to the folder of a libgmti.a instead")
        }
    }
}
