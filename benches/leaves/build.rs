// Links the static library of crates/leaves, from the folder that LEAVES names.
fn main() {
    let folder = std::env::var("LEAVES").expect("LEAVES: the folder with libleaves.a (see benches/leaves/run)");
    println!("cargo:rustc-link-search=native={folder}");
    println!("cargo:rustc-link-lib=static=leaves");
    println!("cargo:rerun-if-env-changed=LEAVES");
    println!("cargo:rerun-if-changed={folder}/libleaves.a");
}
