// Links the archive that compare/archive.sh makes. SHIFT, a number of bytes, moves its code in the link of the benchmark.
fn main() {
    let shift = std::env::var("SHIFT").unwrap_or_else(|_| "0".into());
    println!("cargo:rustc-env=SHIFT={shift}");
    println!("cargo:rerun-if-env-changed=SHIFT");
    let here = std::env::var("CARGO_MANIFEST_DIR").unwrap();
    println!("cargo:rustc-link-search=native={here}/../../crates/loc_exports/out");
    println!("cargo:rustc-link-lib=static=loc_exports");
    println!("cargo:rerun-if-changed={here}/../../crates/loc_exports/out/libloc_exports.a");
}
