//! Says where librbg.a is: in the folder of the variable RBG_LIB, or where `make lib` leaves it.

fn main() {
    let beside = concat!(env!("CARGO_MANIFEST_DIR"), "/../..");
    let folder = std::env::var("RBG_LIB").unwrap_or(beside.to_string());
    println!("cargo:rustc-link-search=native={folder}");
    println!("cargo:rerun-if-env-changed=RBG_LIB");
    println!("cargo:rerun-if-changed={folder}/librbg.a");
}
