//! Links libam33c93a.a from AM33C93A_LIB_DIR, else from where tools/native-lib puts that of cargo's target. tests/against_model uses it too.
use std::env;
use std::path::Path;

fn main() {
    let target = env::var("TARGET").unwrap();
    let package = env::var("CARGO_MANIFEST_DIR").unwrap();
    let root = Path::new(&package).ancestors().find(|folder| folder.join("tools/native-lib").exists());
    let built = root.unwrap_or(Path::new(&package)).join("build").join(&target);
    let dir = env::var("AM33C93A_LIB_DIR").unwrap_or(built.display().to_string());
    if !Path::new(&dir).join("libam33c93a.a").exists() {
        println!("cargo:warning=no libam33c93a.a in {dir}: tools/native-lib {target} builds it, or AM33C93A_LIB_DIR names another folder");
    }
    println!("cargo:rustc-link-search=native={dir}");
    println!("cargo:rustc-link-lib=static=am33c93a");
    println!("cargo:rerun-if-changed={dir}/libam33c93a.a");
    println!("cargo:rerun-if-env-changed=AM33C93A_LIB_DIR");
}
