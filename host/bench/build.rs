//! Links the static libraries of the crates `bench` and `bench_calls` of Rattle, whose folder the environment names.

fn main() {
    println!("cargo:rerun-if-env-changed=BUCKETBEACH_STATICLIB");
    if let Ok(folder) = std::env::var("BUCKETBEACH_STATICLIB") {
        println!("cargo:rustc-link-search=native={folder}");
    }
}
