// Links the library's archive (THRESHPETAL_ARCHIVE).
use std::path::Path;

fn main() {
    println!("cargo:rerun-if-env-changed=THRESHPETAL_ARCHIVE");
    let archive = std::env::var("THRESHPETAL_ARCHIVE").expect("THRESHPETAL_ARCHIVE: the library's archive (oracle/run sets it)");
    println!("cargo:rerun-if-changed={archive}");
    let folder = Path::new(&archive).parent().unwrap();
    let name = Path::new(&archive).file_stem().unwrap().to_str().unwrap().trim_start_matches("lib").to_owned();
    println!("cargo:rustc-link-search=native={}", folder.display());
    println!("cargo:rustc-link-lib=static={name}");
}
