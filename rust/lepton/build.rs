//! Links liblepton.a of the folder that LEPTON_FOLDER names, as `c/build` makes it; if it isn't set, the one that the linker
//! finds.
use std::env;

fn main() {
    println!("cargo:rerun-if-env-changed=LEPTON_FOLDER");
    match env::var("LEPTON_FOLDER") {
        Ok(folder) => {
            println!("cargo:rerun-if-changed={folder}/liblepton.a");
            println!("cargo:rustc-link-search=native={folder}");
            println!("cargo:rustc-link-lib=static=lepton");
        }
        Err(_) => println!("cargo:rustc-link-lib=lepton"),
    }
}
