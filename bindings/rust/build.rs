//! Links the archive that `bindings/build` writes. `THRESHPETAL_ARCHIVE` names another folder that has it.
fn main() {
    let here = std::env::var("CARGO_MANIFEST_DIR").expect("cargo names the crate's folder");
    let folder = std::env::var("THRESHPETAL_ARCHIVE").unwrap_or(format!("{here}/../../target/host"));
    println!("cargo:rerun-if-env-changed=THRESHPETAL_ARCHIVE");
    println!("cargo:rerun-if-changed={folder}/libthreshpetal.a");
    println!("cargo:rustc-link-search=native={folder}");
    println!("cargo:rustc-link-lib=static=threshpetal");
}
