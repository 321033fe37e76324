// Links the archive that `rt lib` wrote in crates/capi.
fn main() {
    let dir = std::path::Path::new(env!("CARGO_MANIFEST_DIR")).join("../crates/capi/out");
    let dir = dir
        .canonicalize()
        .expect("run `rt lib` in crates/capi first");
    println!("cargo::rustc-link-search=native={}", dir.display());
    println!("cargo::rustc-link-lib=static=capi");
    println!(
        "cargo::rerun-if-changed={}",
        dir.join("libcapi.a").display()
    );
}
