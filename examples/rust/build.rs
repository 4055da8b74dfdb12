//! Tells cargo where libjengubool.a is: in the folder that JENGUBOOL_LIB_DIR names, else where `tools/build jengubool`
//! puts it.

use std::{env, path::PathBuf, process};

fn main() {
    println!("cargo:rerun-if-env-changed=JENGUBOOL_LIB_DIR");
    let here = PathBuf::from(env::var_os("CARGO_MANIFEST_DIR").expect("cargo sets CARGO_MANIFEST_DIR"));
    let given = env::var_os("JENGUBOOL_LIB_DIR").unwrap_or_else(|| "../../target/staticlib".into());
    let folder = here.join(given);
    let library = folder.join("libjengubool.a");
    println!("cargo:rerun-if-changed={}", library.display());
    if !library.is_file() {
        // Without this sentence the linker would name only the missing symbols.
        eprintln!("there is no {}: run tools/build jengubool, or set JENGUBOOL_LIB_DIR", library.display());
        process::exit(1);
    }
    println!("cargo:rustc-link-search=native={}", folder.display());
    println!("cargo:rustc-link-lib=static=jengubool");
}
