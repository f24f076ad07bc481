//! Puts the original's files into OUT_DIR, each exactly as published, two of them with a tail appended, beside stand-ins for the modules that
//! the harness does not need. The folder of the published files is named by PETRIZOLU_ORIGINAL.
use std::path::{Path, PathBuf};
use std::{env, fs};

/// The published files that are compiled, with a digest of each (FNV-1a of 64 bits), so that a run says what it was compared with.
const PUBLISHED: [(&str, u64); 10] = [
    ("demux.rs", 0xA27A_EAB5_990A_8703),
    ("collect/mod.rs", 0x05A1_0A52_A314_0340),
    ("collect/eit.rs", 0x0358_99C1_F12A_80A6),
    ("tables/mod.rs", 0xA229_2095_875F_793D),
    ("tables/pat.rs", 0x7E9C_5F96_F978_CF01),
    ("tables/eit.rs", 0xC80F_D6D6_2F58_A5BF),
    ("tables/registry.rs", 0x7457_74A4_5652_CB69),
    ("error.rs", 0x1592_FE15_DEA8_C5CA),
    ("traits.rs", 0x024E_8F28_DF98_4857),
    ("wire.rs", 0x78CD_4F3B_09AE_1080),
];

/// What is appended: a way to the private `consider`, and the helpers that the published tables/mod.rs takes from elsewhere.
const TAILS: [&str; 2] = ["demux.rs", "tables/mod.rs"];

/// Modules that are no part of the port, and the crate's root.
const STANDINS: [&str; 5] = ["lib.rs", "descriptors.rs", "collect/nit.rs", "collect/bat.rs", "collect/sdt.rs"];

fn main() {
    let here = PathBuf::from(env::var("CARGO_MANIFEST_DIR").unwrap());
    let published = PathBuf::from(env::var("PETRIZOLU_ORIGINAL").expect("PETRIZOLU_ORIGINAL names the folder of the original's sources"));
    let out = PathBuf::from(env::var("OUT_DIR").unwrap()).join("dvb-si");
    println!("cargo:rerun-if-env-changed=PETRIZOLU_ORIGINAL");
    fs::create_dir_all(out.join("collect")).unwrap();
    fs::create_dir_all(out.join("tables")).unwrap();
    for (name, digest) in PUBLISHED {
        let text = read(&published.join(name));
        let found = fnv(&text);
        assert!(found == digest, "{name} is not the text of dvb-si 12.0.1: its digest is {found:#018X}");
        let mut whole = text.clone();
        if TAILS.contains(&name) {
            whole.extend(read(&here.join("tails").join(name.replace('/', "_"))));
        }
        fs::write(out.join(name), whole).unwrap();
        assert!(read(&out.join(name)).starts_with(&text), "the copy of {name} differs");
    }
    for name in STANDINS {
        fs::write(out.join(name), read(&here.join("standins").join(name.replace('/', "_")))).unwrap();
    }
}

fn read(path: &Path) -> Vec<u8> {
    println!("cargo:rerun-if-changed={}", path.display());
    fs::read(path).unwrap_or_else(|e| panic!("{}: {e} (PETRIZOLU_ORIGINAL names the folder of the original's sources)", path.display()))
}

fn fnv(bytes: &[u8]) -> u64 {
    bytes.iter().fold(0xCBF2_9CE4_8422_2325, |h, &b| (h ^ u64::from(b)).wrapping_mul(0x100_0000_01B3))
}
