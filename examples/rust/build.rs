//! Where the library is: the folder that BIRCHAGAIN names, else that of `make -C bindings/c`.
fn main() {
    let made = concat!(env!("CARGO_MANIFEST_DIR"), "/../../bindings/c/out");
    let folder = std::env::var("BIRCHAGAIN").unwrap_or_else(|_| made.to_string());
    println!("cargo:rerun-if-env-changed=BIRCHAGAIN");
    println!("cargo:rerun-if-changed={folder}/libbirchagain.a");
    println!("cargo:rustc-link-search=native={folder}");
    println!("cargo:rustc-link-lib=static=birchagain");
}
