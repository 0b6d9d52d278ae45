fn main() {
    let here = std::env::var("CARGO_MANIFEST_DIR").unwrap();
    println!("cargo:rustc-link-search=native={here}/../staticlib");
    for name in ["exports", "pieces"] {
        println!("cargo:rerun-if-changed={here}/../staticlib/lib{name}.a");
    }
}
