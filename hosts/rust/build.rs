//! Where libfairexec.a stands: in FAIREXEC_OUT, or in hosts/out, where tools/host-library lays it. If FAIREXEC_UNPROVED is set,
//! libfairexec_unproved.a takes its place, which tools/host-library --unproved makes there.

use std::path::PathBuf;

fn main() {
    println!("cargo:rerun-if-env-changed=FAIREXEC_OUT");
    println!("cargo:rerun-if-env-changed=FAIREXEC_UNPROVED");
    let beside = PathBuf::from(env!("CARGO_MANIFEST_DIR")).join("../out");
    let out = std::env::var_os("FAIREXEC_OUT").map_or(beside, PathBuf::from);
    let is_proved = std::env::var_os("FAIREXEC_UNPROVED").map_or(true, |it| it.is_empty());
    let (name, how) = if is_proved { ("fairexec", "tools/host-library") } else { ("fairexec_unproved", "tools/host-library --unproved") };
    let archive = out.join(format!("lib{name}.a"));
    println!("cargo:rerun-if-changed={}", archive.display());
    if !archive.is_file() {
        println!("cargo:warning=there is no {}: {how} makes it, or FAIREXEC_OUT names the folder that has it", archive.display());
    }
    if !is_proved {
        println!("cargo:warning={} isn't proved", archive.display());
        println!("cargo:rustc-link-lib=static=fairexec:{name}");
    }
    println!("cargo:rustc-link-search=native={}", out.display());
}
