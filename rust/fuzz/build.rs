// Links libFuzzer where the environment variable LIBFUZZER names its archive (the one without a main); then cfg `guided` is on.
fn main() {
    println!("cargo::rustc-check-cfg=cfg(guided)");
    println!("cargo::rerun-if-changed=build.rs");
    println!("cargo::rerun-if-env-changed=LIBFUZZER");
    if let Ok(archive) = std::env::var("LIBFUZZER") {
        println!("cargo::rustc-cfg=guided");
        println!("cargo::rustc-link-arg-bins={archive}");
        println!("cargo::rustc-link-arg-bins=-lstdc++");
    }
}
