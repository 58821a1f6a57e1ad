//! Tells the linker where libhailspindle.a is: in the folder that HAILSPINDLE_DIRECTORY names, or
//! where `tools/library` writes it. Without the archive, or for a processor that it has no
//! code for, the build ends here and says so, since the linker would only name what it misses.

use std::path::PathBuf;

fn main() {
    println!("cargo:rerun-if-env-changed=HAILSPINDLE_DIRECTORY");
    let directory = match std::env::var_os("HAILSPINDLE_DIRECTORY") {
        Some(directory) => PathBuf::from(directory),
        None => PathBuf::from(env!("CARGO_MANIFEST_DIR")).join("../../target/staticlib"),
    };
    let archive = directory.join("libhailspindle.a");
    println!("cargo:rerun-if-changed={}", archive.display());
    let target = std::env::var("CARGO_CFG_TARGET_ARCH").unwrap_or_default();
    if target != "x86_64" {
        fail(format!("the library is x86-64 code alone, and this build is for {target}"));
    }
    if !archive.exists() {
        let archive = archive.display();
        fail(format!("{archive} is not there: run `tools/library` first"));
    }
    println!("cargo:rustc-link-search=native={}", directory.display());
    println!("cargo:rustc-link-lib=static=hailspindle");
}

fn fail(why: String) -> ! {
    eprintln!("hailspindle: {why}");
    std::process::exit(1)
}
