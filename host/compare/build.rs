// Makes libbaseline.a of host/bench's C engine, with two copies for the tests, one whose sums wrap and one to which verdict 1 is good, and links it;
// links the older library's object, $OLD_OBJECT, into `same`.
use std::env;
use std::path::{Path, PathBuf};
use std::process::Command;

const CALLS: [&str; 10] = [
    "check",
    "start",
    "offered",
    "offered_bits",
    "try",
    "settle",
    "list",
    "turn",
    "log",
    "log_index",
];

fn main() {
    let bench = Path::new(&env::var("CARGO_MANIFEST_DIR").unwrap()).join("../bench");
    let out = PathBuf::from(env::var("OUT_DIR").unwrap());
    let source = bench.join("baseline.c");
    let objects = ["baseline.o", "wrapping.o", "lenient.o"].map(|name| out.join(name));
    let faults = [("wrapping", "-DWRAPS=1"), ("lenient", "-DGOOD=1")];
    run(&mut gcc(&source, &objects[0]));
    for (object, (name, fault)) in objects[1..].iter().zip(faults) {
        let renamed = CALLS.map(|call| format!("-Dbase_{call}={name}_{call}"));
        run(gcc(&source, object).arg(fault).args(renamed));
    }
    let library = out.join("libbaseline.a");
    run(Command::new("ar").arg("rcs").arg(library).args(&objects));
    for file in ["baseline.c", "baseline.h", "../../include/yard.h"] {
        println!("cargo:rerun-if-changed={}", bench.join(file).display());
    }
    println!("cargo:rustc-link-search=native={}", out.display());
    println!("cargo:rustc-link-lib=static=baseline");
    println!("cargo:rerun-if-env-changed=OLD_OBJECT");
    if let Ok(object) = env::var("OLD_OBJECT") {
        println!("cargo:rerun-if-changed={object}");
        println!("cargo:rustc-link-arg-bin=same={object}");
    }
}

fn gcc(source: &Path, object: &Path) -> Command {
    let mut gcc = Command::new("gcc");
    gcc.args(["-O3", "-fPIC", "-Wall", "-Wextra", "-Werror", "-c", "-o"])
        .arg(object)
        .arg(source);
    gcc
}

fn run(command: &mut Command) {
    let status = command.status();
    assert!(
        status.as_ref().is_ok_and(|s| s.success()),
        "{command:?}: {status:?}"
    );
}
