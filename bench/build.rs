// Links the two archives that `make bench` leaves in the folder TL_LIB_DIR, and libfdt where it is installed (cfg libfdt).
use std::path::PathBuf;
use std::process::Command;

fn main() {
    let dir = std::env::var("TL_LIB_DIR").expect("TL_LIB_DIR: set by make bench");
    println!("cargo:rustc-link-search=native={dir}");
    println!("cargo:rerun-if-env-changed=TL_LIB_DIR");
    for name in ["transfer_list", "timed"] {
        println!("cargo:rustc-link-lib=static={name}");
        println!("cargo:rerun-if-changed={dir}/lib{name}.a");
    }
    println!("cargo:rustc-check-cfg=cfg(libfdt)");
    // a file that is not there makes cargo look again each time
    println!("cargo:rerun-if-changed=/usr/include/libfdt.h");
    if let Some((kind, file)) = installed("static", "libfdt.a").or_else(|| installed("dylib", "libfdt.so")) {
        println!("cargo:rustc-link-search=native={}", file.parent().unwrap().display());
        println!("cargo:rustc-link-lib={kind}=fdt");
        println!("cargo:rustc-cfg=libfdt");
    }
}

/// Where the C compiler finds a library; it answers the bare name where it finds none.
fn installed(kind: &'static str, name: &str) -> Option<(&'static str, PathBuf)> {
    let answer = Command::new("cc").arg(format!("-print-file-name={name}")).output().ok()?;
    let file = PathBuf::from(String::from_utf8(answer.stdout).ok()?.trim());
    file.is_absolute().then_some((kind, file))
}
