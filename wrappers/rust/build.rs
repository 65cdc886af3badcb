//! Tells where libmsq.a is: in the folder that MSQ_LIB names, in lib/ beside this file, or where tools/library puts it.
use std::path::Path;

fn main() {
    let own = std::env::var("CARGO_MANIFEST_DIR").unwrap_or_default();
    let places = ["lib", "../../out/lib"].map(|it| Path::new(&own).join(it));
    let found = places.iter().find(|it| it.join("libmsq.a").exists()).unwrap_or(&places[1]);
    let folder = std::env::var("MSQ_LIB").unwrap_or_else(|_| found.display().to_string());
    println!("cargo:rerun-if-env-changed=MSQ_LIB");
    println!("cargo:rerun-if-changed={folder}/libmsq.a");
    println!("cargo:rustc-link-search=native={folder}");
    println!("cargo:rustc-link-lib=static=msq");
}
