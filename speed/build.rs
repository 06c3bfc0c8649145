// The library comes as an archive, which `speed/run` has the kit make, and names.
fn main() {
    println!("cargo:rerun-if-env-changed=LIBRARY");
    let library = std::env::var("LIBRARY").expect("LIBRARY names the archive of the library: run speed/run");
    println!("cargo:rerun-if-changed={library}");
    println!("cargo:rustc-link-arg={library}");
}
