// The library that `rt lib` writes in the folder of the crate ballast_c.
fn main() {
    let library = concat!(env!("CARGO_MANIFEST_DIR"), "/../../crates/ballast_c/out");
    println!("cargo:rustc-link-search=native={library}");
    println!("cargo:rustc-link-lib=static=ballast_c");
    println!("cargo:rerun-if-changed={library}/libballast_c.a");
}
