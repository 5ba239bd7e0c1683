//! Finds the static library, libleanlantern.a, and has it linked: in the folder that LEANLANTERN_LIB_DIR names, else in
//! target/staticlib of the repository that this package stands in.

use std::env;
use std::path::PathBuf;
use std::process::exit;

const NAMED_BY: &str = "LEANLANTERN_LIB_DIR";
const LIBRARY: &str = "libleanlantern.a";

fn main() {
    println!("cargo:rerun-if-env-changed={NAMED_BY}");
    let package = PathBuf::from(env::var_os("CARGO_MANIFEST_DIR").expect("cargo tells the package's folder"));
    let named = env::var_os(NAMED_BY).filter(|folder| !folder.is_empty());
    let folder = match &named {
        // a relative path counts from the package's folder
        Some(folder) => package.join(folder),
        None => package.join("../target/staticlib"),
    };
    let library = folder.join(LIBRARY);
    println!("cargo:rerun-if-changed={}", library.display());
    if !library.is_file() {
        eprintln!("leanlantern: the static library is missing: there is no file {}", library.display());
        match named {
            Some(_) => eprintln!("leanlantern: {NAMED_BY} must name the folder that has {LIBRARY}"),
            None => eprintln!(
                "leanlantern: build it in the repository with tests/library.sh, which needs the Rattle kit,\n\
                 leanlantern: or set {NAMED_BY} to the folder that has {LIBRARY}"
            ),
        }
        exit(1)
    }
    println!("cargo:rustc-link-search=native={}", folder.display());
    println!("cargo:rustc-link-lib=static=leanlantern");
}
