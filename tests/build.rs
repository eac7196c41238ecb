//! Where the Rattle libraries are, and the mocks as `--cfg mock`, which tests/programs passes too.
fn main() {
    println!("cargo::rustc-check-cfg=cfg(mock)");
    println!("cargo::rustc-link-search=native={}/../target/staticlib", env!("CARGO_MANIFEST_DIR"));
    if cfg!(feature = "mock") {
        println!("cargo::rustc-cfg=mock");
    }
}
