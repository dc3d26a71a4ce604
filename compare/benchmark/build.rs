//! Links the proved library: HUSZMAGO_SHIM names the folder of libshim.a.
fn main() {
    let folder = std::env::var("HUSZMAGO_SHIM").expect("HUSZMAGO_SHIM names the folder of libshim.a");
    println!("cargo:rerun-if-env-changed=HUSZMAGO_SHIM");
    println!("cargo:rerun-if-changed={folder}/libshim.a");
    println!("cargo:rustc-link-search=native={folder}");
    println!("cargo:rustc-link-lib=static=shim");
}
