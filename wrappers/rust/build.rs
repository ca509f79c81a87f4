//! Where the archives are: GTP_C_LIB is the folder of libgtp_c.a and libgtp_c_memory.a, as `make` in wrappers/c makes them.
use std::path::Path;

/// Ends the build with a line that says why.
fn stop(why: &str) -> ! {
    eprintln!("gtp_c: {why}; docs/LIBRARY.md says how they are made");
    std::process::exit(1)
}

fn main() {
    println!("cargo:rerun-if-env-changed=GTP_C_LIB");
    let folder = std::env::var("GTP_C_LIB").unwrap_or_default();
    if folder.is_empty() {
        stop("GTP_C_LIB must name the folder of libgtp_c.a and libgtp_c_memory.a");
    }
    println!("cargo:rustc-link-search=native={folder}");
    for name in ["gtp_c", "gtp_c_memory"] {
        let archive = format!("{folder}/lib{name}.a");
        if !Path::new(&archive).is_file() {
            stop(&format!("{archive} isn't there"));
        }
        println!("cargo:rerun-if-changed={archive}");
        println!("cargo:rustc-link-lib=static={name}");
    }
}
