//! Links the static libraries that `rt lib` has written and .ci/run has copied to target/staticlib.
//! Without them the reference and its unit tests still build. Compiles the benchmark's plain C with
//! each compiler that there is.

use std::env;
use std::path::{Path, PathBuf};
use std::process::Command;

/// The crates whose exports the tests in tests/ call.
const LIBRARIES: [&str; 2] = ["polar", "probe"];

/// The compilers of bench/plain.c; an environment variable of the same name in capitals may name
/// another one, with flags.
const COMPILERS: [&str; 2] = ["gcc", "clang"];

fn main() {
    link_libraries();
    println!("cargo:rerun-if-changed=bench");
    println!("cargo:rustc-check-cfg=cfg(plain_c, values(\"gcc\", \"clang\"))");
    for name in COMPILERS {
        compile_plain(name);
    }
}

fn link_libraries() {
    let folder = Path::new(env!("CARGO_MANIFEST_DIR")).join("../target/staticlib");
    println!("cargo:rustc-link-search=native={}", folder.display());
    for name in LIBRARIES {
        let archive = folder.join(format!("lib{name}.a"));
        println!("cargo:rerun-if-changed={}", archive.display());
        if archive.exists() {
            println!("cargo:rustc-link-lib=static={name}");
        } else {
            println!(
                "cargo:warning=no lib{name}.a in target/staticlib: tests that call it need `rt lib` in \
                 crates/{name} first, and a copy of its archive"
            );
        }
    }
}

/// Compiles bench/plain.c into an object whose one symbol is `plain_` and the compiler's name, and
/// tells the program which compiler it was; nothing where there is none.
fn compile_plain(name: &str) {
    let variable = name.to_uppercase();
    println!("cargo:rerun-if-env-changed={variable}");
    let command = env::var(&variable).unwrap_or(name.to_string());
    let version = match object_of(name, &command) {
        Some(object) => {
            println!("cargo:rustc-link-arg={}", object.display());
            println!("cargo:rustc-cfg=plain_c=\"{name}\"");
            version_of(&command)
        }
        None => {
            println!("cargo:warning=`{command}` has not compiled bench/plain.c");
            String::new()
        }
    };
    println!("cargo:rustc-env=PLAIN_{variable}={version}");
}

fn object_of(name: &str, command: &str) -> Option<PathBuf> {
    let object = Path::new(&env::var("OUT_DIR").ok()?).join(format!("plain_{name}.o"));
    let status = compiler(command)
        .args(["-std=c11", "-O3", "-fPIE", "-Wall", "-Wextra", "-pedantic"])
        .args(base_architecture())
        .arg(format!("-DTABLE=plain_{name}"))
        .args(["-c", "bench/plain.c", "-o"])
        .arg(&object)
        .status();
    status
        .is_ok_and(|status| status.success())
        .then_some(object)
}

/// The architecture that `rt` compiles for.
fn base_architecture() -> Option<&'static str> {
    let x86_64 = env::var("CARGO_CFG_TARGET_ARCH").is_ok_and(|of| of == "x86_64");
    x86_64.then_some("-march=x86-64-v2")
}

fn version_of(command: &str) -> String {
    let output = compiler(command).arg("--version").output();
    let text = output.map(|output| output.stdout).unwrap_or_default();
    let text = String::from_utf8_lossy(&text);
    text.lines().next().unwrap_or(command).to_string()
}

/// A compiler from its name and flags.
fn compiler(command: &str) -> Command {
    let mut words = command.split_whitespace();
    let mut compiler = Command::new(words.next().unwrap_or_default());
    compiler.args(words);
    compiler
}
