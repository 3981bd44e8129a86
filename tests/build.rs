// Links the product's static library, libhost.a in the folder that SMIRRADO_LIB names.

use std::env;

fn main() {
    println!("cargo:rerun-if-env-changed=SMIRRADO_LIB");
    let folder = env::var("SMIRRADO_LIB").expect("SMIRRADO_LIB names the folder of libhost.a");
    println!("cargo:rerun-if-changed={folder}/libhost.a");
    println!("cargo:rustc-link-search=native={folder}");
    println!("cargo:rustc-link-lib=static=host");
}
