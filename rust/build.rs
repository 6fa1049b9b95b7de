//! Links the static library that `tools/build library` writes: from the folder that LOONSTOOL_LIB_DIR names by its whole path, or from
//! ../target/staticlib. The test `rounds` and the benchmarks `root` and `ratio` link libtry_root.a from there, which `tools/build try_root`
//! writes. The benchmarks get c/doubles.c too, where the repository and a C compiler are at hand.
use std::env;
use std::path::{Path, PathBuf};
use std::process::Command;

fn main() {
    println!("cargo:rerun-if-env-changed=LOONSTOOL_LIB_DIR");
    let target = |what| env::var(what).unwrap_or_default();
    if target("CARGO_CFG_TARGET_ARCH") != "x86_64" || target("CARGO_CFG_TARGET_OS") == "windows" {
        eprintln!("libloonstool.a is for x86-64 with the System V calling convention");
        std::process::exit(1);
    }
    let folder = match env::var_os("LOONSTOOL_LIB_DIR") {
        Some(folder) => PathBuf::from(folder),
        None => PathBuf::from(env!("CARGO_MANIFEST_DIR")).join("../target/staticlib"),
    };
    let archive = folder.join("libloonstool.a");
    if !folder.is_absolute() || !archive.is_file() {
        eprintln!(
            "{} is missing, or its path is not whole: run `tools/build library` in the repository, or set LOONSTOOL_LIB_DIR",
            archive.display()
        );
        std::process::exit(1);
    }
    println!("cargo:rerun-if-changed={}", archive.display());
    println!("cargo:rustc-link-search=native={}", folder.display());
    println!("cargo:rustc-link-lib=static=loonstool");
    let search = folder.join("libtry_root.a");
    if search.is_file() {
        println!("cargo:rerun-if-changed={}", search.display());
    }
    let doubles = Path::new(env!("CARGO_MANIFEST_DIR")).join("../c/doubles.c");
    if doubles.is_file() {
        compile_for_benches(&doubles);
    }
}

fn compile_for_benches(source: &Path) {
    println!("cargo:rerun-if-changed={}", source.display());
    let object = PathBuf::from(env::var_os("OUT_DIR").expect("OUT_DIR")).join("doubles.o");
    let compiler = env::var_os("CC").unwrap_or("cc".into());
    let mut command = Command::new(compiler);
    command.args(["-std=c11", "-O2", "-Wall", "-Wextra", "-Wpedantic", "-c"]);
    match command.arg(source).arg("-o").arg(&object).status() {
        Ok(status) if status.success() => {
            println!("cargo:rustc-link-arg-benches={}", object.display());
            println!("cargo:rustc-link-arg-benches=-lm");
        }
        _ => println!("cargo:warning=c/doubles.c is not compiled: the benchmarks cannot be linked"),
    }
}
