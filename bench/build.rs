//! Links the archive in the folder GORMULAST_ARCHIVE; with the feature `run` that for tests in the folder GORMULAST_PACKED, with `apart`
//! the one of a factor alone in GORMULAST_APART, and with `ldl` SuiteSparse's LDL.

fn main() {
    link("GORMULAST_ARCHIVE", "gormulast");
    if has("RUN") {
        link("GORMULAST_PACKED", "gormulast-packed");
    }
    if has("APART") {
        link("GORMULAST_APART", "gormulast-apart");
    }
    if has("LDL") {
        println!("cargo:rustc-link-lib=ldl");
    }
}

fn has(feature: &str) -> bool {
    std::env::var(format!("CARGO_FEATURE_{feature}")).is_ok()
}

fn link(variable: &str, name: &str) {
    let folder = std::env::var(variable)
        .unwrap_or_else(|_| panic!("{variable} is an archive's folder: use ./run"));
    println!("cargo:rerun-if-env-changed={variable}");
    println!("cargo:rerun-if-changed={folder}/lib{name}.a");
    println!("cargo:rustc-link-search=native={folder}");
    println!("cargo:rustc-link-lib=static={name}");
}
