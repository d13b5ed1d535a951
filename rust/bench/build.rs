//! Compiles the machine in C with gcc. Without gcc the benchmark goes without it.
use std::path::PathBuf;
use std::process::Command;

fn main() {
    println!("cargo:rerun-if-changed=base.c");
    let out = PathBuf::from(std::env::var_os("OUT_DIR").unwrap());
    let (object, archive) = (out.join("base.o"), out.join("libbase.a"));
    let worked = |command: &mut Command| matches!(command.status(), Ok(status) if status.success());
    if worked(Command::new("gcc").args(["-O3", "-fPIC", "-Wall", "-c", "base.c", "-o"]).arg(&object))
        && worked(Command::new("ar").arg("crs").args([&archive, &object]))
    {
        println!("cargo:rustc-link-search=native={}", out.display());
        println!("cargo:rustc-link-lib=static=base");
        println!("cargo:rustc-cfg=feature=\"base\"");
    }
}
