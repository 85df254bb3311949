//! Links the static library of the crate `api_c` of Rattle, whose folder the environment names.

fn main() {
    println!("cargo:rerun-if-env-changed=BUCKETBEACH_STATICLIB");
    if let Ok(folder) = std::env::var("BUCKETBEACH_STATICLIB") {
        println!("cargo:rustc-link-search=native={folder}");
        println!("cargo:rerun-if-changed={folder}/libapi.a");
    }
}
