//! Links the proved archive: PETRIZOLU_ARCHIVE is the folder that holds libpetrizolu.a (`./archive` prints it).

fn main() {
    println!("cargo::rerun-if-env-changed=PETRIZOLU_ARCHIVE");
    let folder = std::env::var("PETRIZOLU_ARCHIVE").expect("PETRIZOLU_ARCHIVE names the folder of libpetrizolu.a");
    println!("cargo::rerun-if-changed={folder}/libpetrizolu.a");
    println!("cargo::rustc-link-search=native={folder}");
    println!("cargo::rustc-link-lib=static=petrizolu");
}
