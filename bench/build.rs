// Only the benchmark calls LAPACK, so only it is linked with it.
fn main() {
    println!("cargo:rustc-link-arg-bin=benchmark=-llapack");
    println!("cargo:rustc-link-arg-bin=benchmark=-lblas");
    println!("cargo:rerun-if-changed=build.rs");
}
