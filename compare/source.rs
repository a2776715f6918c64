// For build scripts: where the original's files are, and a file of modules that names them by `#[path]`.
// ORIGINAL may name another place than the one beside this repository.
use std::path::Path;

pub fn modules(levels_up: &str, crate_name: &str, names: &[&str]) {
    println!("cargo:rerun-if-env-changed=ORIGINAL");
    let here = std::env::var("CARGO_MANIFEST_DIR").unwrap();
    let root = match std::env::var("ORIGINAL") {
        Ok(place) => Path::new(&place).to_path_buf(),
        Err(_) => Path::new(&here).join(levels_up).join("shared/docs/src"),
    };
    let mut text = String::new();
    for name in names {
        let file = root.join("crates").join(crate_name).join("src").join(format!("{name}.rs"));
        let file = file.canonicalize().unwrap_or_else(|e| panic!("the original's {}: {e}", file.display()));
        println!("cargo:rerun-if-changed={}", file.display());
        text += &format!("#[path = {:?}]\npub mod {name};\n", file);
    }
    let out = std::env::var("OUT_DIR").unwrap();
    std::fs::write(Path::new(&out).join("modules.rs"), text).unwrap();
}
