// Links the archive that `tools/build` writes, or the libdesk.a in the folder that the environment variable DESK_FOLDER
// names.
fn main() {
    println!("cargo:rerun-if-env-changed=DESK_FOLDER");
    let own = std::path::Path::new(env!("CARGO_MANIFEST_DIR")).join("../../target/staticlib");
    let folder = std::env::var_os("DESK_FOLDER").map_or(own, std::path::PathBuf::from);
    println!("cargo:rustc-link-search=native={}", folder.display());
    println!("cargo:rustc-link-lib=static=desk");
    println!("cargo:rerun-if-changed={}", folder.join("libdesk.a").display());
}
