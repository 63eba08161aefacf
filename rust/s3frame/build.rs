//! Links the proved archive, which `make lib` leaves in target/staticlib at the root of the project.
use std::env;
use std::path::{Path, PathBuf};

const FOLDER: &str = "S3FRAME_LIB_DIR";

/// The folder of the archive. One given as a relative path counts from this package's own folder.
fn folder() -> PathBuf {
    let package = env::var_os("CARGO_MANIFEST_DIR").expect("cargo names the package's folder");
    let given = env::var_os(FOLDER).unwrap_or_else(|| "../../target/staticlib".into());
    Path::new(&package).join(given)
}

fn main() {
    let folder = folder();
    let archive = folder.join("libs3frame.a");
    println!("cargo:rerun-if-env-changed={FOLDER}");
    println!("cargo:rerun-if-changed={}", archive.display());
    // Without this the linker's own message is all that a user sees.
    if !archive.is_file() {
        let archive = archive.display();
        panic!("there is no {archive}: run `make lib`, or set {FOLDER}");
    }
    let target = env::var("CARGO_CFG_TARGET_ARCH").expect("cargo names the target");
    assert_eq!(target, "x86_64", "the archive is compiled for x86-64");
    println!("cargo:rustc-link-search=native={}", folder.display());
    println!("cargo:rustc-link-lib=static=s3frame");
}
