//! Links the mirror's archive, and an earlier one where it is given. Then the mirror's code is in front in every other
//! four of the programs, which drivers.py names, and the earlier one's in the rest. What the earlier one lacks is a cfg.

/// The functions that came after version 1.4.0.
const LATER: [&str; 1] = ["pool_mirror_split"];

fn archive(name: &str) -> Option<String> {
    println!("cargo:rerun-if-env-changed={name}");
    let path = std::env::var(name).ok()?;
    println!("cargo:rerun-if-changed={path}");
    Some(path)
}

/// Whether no name in the earlier archive is the function's.
fn lacks(before: &str, function: &str) -> bool {
    let (bytes, name) = (std::fs::read(before).expect("BEFORE_ARCHIVE"), format!("before_{function}\0"));
    !bytes.windows(name.len()).any(|text| text == name.as_bytes())
}

fn main() {
    println!("cargo:rustc-check-cfg=cfg(before)");
    println!("cargo:rustc-check-cfg=cfg(lacks, values({}))", LATER.map(|name| format!("{name:?}")).join(", "));
    let mirror = archive("MIRROR_ARCHIVE").expect("MIRROR_ARCHIVE");
    let Some(before) = archive("BEFORE_ARCHIVE") else {
        return println!("cargo:rustc-link-arg-bins={mirror}");
    };
    println!("cargo:rustc-cfg=before");
    LATER.iter().filter(|name| lacks(&before, name)).for_each(|name| println!("cargo:rustc-cfg=lacks={name:?}"));
    for k in 0..16 {
        let order = if k % 8 < 4 { [&mirror, &before] } else { [&before, &mirror] };
        order.iter().for_each(|path| println!("cargo:rustc-link-arg-bin=bench_{}={path}", 272 * k));
    }
}
