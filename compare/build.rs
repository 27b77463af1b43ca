//! Links libplex.a from the folder that PLEX_LIBRARY_DIR names.

fn main() {
    println!("cargo:rerun-if-env-changed=PLEX_LIBRARY_DIR");
    let folder =
        std::env::var("PLEX_LIBRARY_DIR").expect("PLEX_LIBRARY_DIR names the folder of libplex.a");
    println!("cargo:rerun-if-changed={folder}/libplex.a");
    println!("cargo:rustc-link-search=native={folder}");
    println!("cargo:rustc-link-lib=static=plex");
}
