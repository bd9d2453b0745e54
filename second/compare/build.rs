//! Says where the library is: in the folder that BLIST_LIBRARY names.

fn main() {
    println!("cargo:rerun-if-env-changed=BLIST_LIBRARY");
    if let Ok(folder) = std::env::var("BLIST_LIBRARY") {
        println!("cargo:rustc-link-search=native={folder}");
        println!("cargo:rerun-if-changed={folder}/libblist.a");
    }
}
