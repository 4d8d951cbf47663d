// Links the static library that `rt lib` writes in crates/chips69000.
fn main() {
    let root = std::env::var("CARGO_MANIFEST_DIR").unwrap();
    println!("cargo:rustc-link-search=native={root}/../../crates/chips69000/out");
    println!("cargo:rustc-link-lib=static=chips69000");
    println!("cargo:rerun-if-changed={root}/../../crates/chips69000/out/libchips69000.a");
}
