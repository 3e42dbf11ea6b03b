//! Says where the libraries are: beside this crate, as `hosts/dist` puts it, or where GILLCURTAIN_LIB_DIR says.

use std::{env, path::PathBuf};

fn main() {
    println!("cargo:rerun-if-env-changed=GILLCURTAIN_LIB_DIR");
    let folder = match env::var_os("GILLCURTAIN_LIB_DIR") {
        Some(folder) => PathBuf::from(folder),
        None => PathBuf::from(env::var_os("CARGO_MANIFEST_DIR").expect("cargo sets it")).join("../../lib"),
    };
    for name in ["libgillcurtain.a", "libgillcurtain_replay.a", "libgillcurtain_compare.a"] {
        let library = folder.join(name);
        if !library.is_file() {
            panic!("{} is not there; set GILLCURTAIN_LIB_DIR to its folder", library.display());
        }
        println!("cargo:rerun-if-changed={}", library.display());
    }
    println!("cargo:rustc-link-search=native={}", folder.display());
}
