//! Names the proved library to link: the folder in FERNSPONGE_LIB, or else target/lib of the project, where `make lib` puts it.
//!
//! A relative FERNSPONGE_LIB is read from where cargo is run. Cargo runs this program in the crate's own folder and does not tell where it was run
//! itself, but leaves PWD as the shell has set it, so that PWD is asked; where it is not set, the name is read from the project's root.
//!
//! Where there is no library, a warning says so: `cargo check`, `cargo clippy` and `cargo doc` need none. What is to be run does, and its build then
//! ends with "could not find native static library `fernsponge`" or "unable to find library -lfernsponge".

use std::{
    env,
    path::{Path, PathBuf},
};

fn main() {
    println!("cargo:rerun-if-env-changed=FERNSPONGE_LIB");
    let root = PathBuf::from(env::var_os("CARGO_MANIFEST_DIR").unwrap_or_default()).join("..");
    let folder = match env::var_os("FERNSPONGE_LIB") {
        Some(name) if Path::new(&name).is_relative() => {
            println!("cargo:rerun-if-env-changed=PWD");
            env::var_os("PWD").map_or(root, PathBuf::from).join(name)
        }
        Some(name) => name.into(),
        None => root.join("target/lib"),
    };
    let library = folder.join("libfernsponge.a");
    println!("cargo:rerun-if-changed={}", library.display());
    if !library.is_file() {
        println!(
            "cargo:warning=there is no {}, which every program that uses this crate links: run `make lib` in the project's root, or set \
             FERNSPONGE_LIB to the folder that holds the library",
            library.display()
        );
        // a file that there never is: so that this is asked again until there is a library, however old that is
        println!(
            "cargo:rerun-if-changed={}/no-library",
            env::var("OUT_DIR").unwrap_or_default()
        );
    }
    println!("cargo:rustc-link-search=native={}", folder.display());
    println!("cargo:rustc-link-lib=static=fernsponge");
}
