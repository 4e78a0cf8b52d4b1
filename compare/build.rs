//! Links the library that `compare speed` measures, if the feature `linked`
//! asks for it.

use std::env;

const FOLDER: &str = "SPEED_LIB_DIR";

fn main() {
    println!("cargo:rerun-if-env-changed={FOLDER}");
    if env::var_os("CARGO_FEATURE_LINKED").is_none() {
        return;
    }
    let Ok(folder) = env::var(FOLDER) else {
        panic!("the feature `linked` needs {FOLDER}, the folder of libspeed.a");
    };
    println!("cargo:rerun-if-changed={folder}/libspeed.a");
    println!("cargo:rustc-link-search={folder}");
    println!("cargo:rustc-link-lib=static=speed");
}
