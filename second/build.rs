//! With the feature `first`, links a first implementation into `compare`,
//! `compare_calls`, `bench_check` and `bench_calls`: SECOND_FIRST_DIR is the folder
//! of its static library, SECOND_FIRST_LIB the file in it (by default its only `*.a`).
//! The library has the calls of include/flowcheck.h that bin/first declares; but
//! `compare_runs`, `compare_calls` and `bench_run` take `flow_run` from librunner_c.a of
//! the same folder.

fn main() {
    println!("cargo:rerun-if-changed=build.rs");
    println!("cargo:rerun-if-env-changed=SECOND_FIRST_DIR");
    println!("cargo:rerun-if-env-changed=SECOND_FIRST_LIB");
    if std::env::var_os("CARGO_FEATURE_FIRST").is_none() {
        return;
    }
    let dir = std::env::var("SECOND_FIRST_DIR").expect("SECOND_FIRST_DIR: the library's folder");
    let dir = std::fs::canonicalize(dir).expect("SECOND_FIRST_DIR is a folder");
    let library = match std::env::var("SECOND_FIRST_LIB") {
        Ok(name) => dir.join(name),
        Err(_) => {
            let mut found = Vec::new();
            for entry in std::fs::read_dir(&dir).expect("SECOND_FIRST_DIR can be read") {
                let path = entry.expect("an entry").path();
                if path.extension().is_some_and(|e| e == "a") {
                    found.push(path);
                }
            }
            assert!(found.len() == 1, "SECOND_FIRST_LIB: one of {found:?}");
            found.remove(0)
        }
    };
    println!("cargo:rerun-if-changed={}", library.display());
    for program in ["compare", "compare_calls", "bench_check", "bench_calls"] {
        println!("cargo:rustc-link-arg-bin={program}={}", library.display());
    }
    let runner = dir.join("librunner_c.a");
    println!("cargo:rerun-if-changed={}", runner.display());
    for program in ["compare_runs", "compare_calls", "bench_run"] {
        println!("cargo:rustc-link-arg-bin={program}={}", runner.display());
    }
}
