//! Links the archive in the folder GORMULAST_ARCHIVE and that of the packed form in the folder GORMULAST_PACKED.

fn main() {
    for (variable, name) in [
        ("GORMULAST_ARCHIVE", "gormulast"),
        ("GORMULAST_PACKED", "gormulast-packed"),
    ] {
        let folder = std::env::var(variable)
            .unwrap_or_else(|_| panic!("{variable} is an archive's folder: use ./run"));
        println!("cargo:rerun-if-env-changed={variable}");
        println!("cargo:rerun-if-changed={folder}/lib{name}.a");
        println!("cargo:rustc-link-search=native={folder}");
        println!("cargo:rustc-link-lib=static={name}");
    }
}
