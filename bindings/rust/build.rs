//! Where the archive is: the folder MAGNETAR_LIB, or crates/magnetar_c/out of the repository.
fn main() {
    let here = std::env::var("CARGO_MANIFEST_DIR").unwrap();
    let folder = std::env::var("MAGNETAR_LIB").unwrap_or(format!("{here}/../../crates/magnetar_c/out"));
    println!("cargo:rustc-link-search=native={folder}");
    println!("cargo:rerun-if-env-changed=MAGNETAR_LIB");
    println!("cargo:rerun-if-changed={folder}/libmagnetar_c.a");
}
