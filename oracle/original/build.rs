// Names the three files of the Rust as modules of this crate, where they lie: nothing is copied.
use std::path::PathBuf;

fn main() {
    println!("cargo:rerun-if-env-changed=MAGNETAR_SRC");
    let folder = std::env::var("MAGNETAR_SRC").expect("MAGNETAR_SRC: the folder that holds the Rust (oracle/run sets it)");
    let folder = PathBuf::from(folder).join("crates/magnetar-proto/src");
    let mut text = String::new();
    for name in ["dag_watch", "scalable_consumer", "types"] {
        let file = folder.join(format!("{name}.rs"));
        println!("cargo:rerun-if-changed={}", file.display());
        text.push_str(&format!("#[path = {:?}]\npub mod {name};\n", file.display().to_string()));
    }
    let out = PathBuf::from(std::env::var("OUT_DIR").unwrap()).join("modules.rs");
    std::fs::write(out, text).unwrap();
}
