"""Builds what is timed: the mirror's static library, and programs of it and the original Rust or an earlier library."""
import concurrent.futures
import filecmp
import os
import shutil
import subprocess
import sys
import tempfile

ROOT = os.path.dirname(os.path.dirname(os.path.abspath(__file__)))
sys.path.insert(0, os.path.join(ROOT, "oracle"))
import binary
import prepare

LIBRARY = os.path.join(ROOT, "target/staticlib/libpool_mirror.a")
OUT = os.path.join(ROOT, "target/bench")
BEFORE = os.path.join(OUT, "libbefore.a")
SETTINGS = (52, 604800, 1)          # E, EPOCH_DURATION, UNLOCKING_DURATION
FOUR = range(0, 64, 16)
KINDS = {                           # what cargo is told, and by how many bytes the code of each program is moved
    "release": ({}, FOUR),
    "lto": ({"CARGO_PROFILE_RELEASE_LTO": "fat", "CARGO_PROFILE_RELEASE_CODEGEN_UNITS": "1"}, FOUR),
    "before": ({"BEFORE_ARCHIVE": BEFORE}, range(0, 16 * 272, 272)),
}


def newest():
    """The time of the last change to the crates; what rt keeps of a crate, in its out/, is none."""
    times = [os.stat(os.path.join(ROOT, "crates.txt")).st_mtime]
    for crate in os.scandir(os.path.join(ROOT, "crates")):
        for folder, folders, names in os.walk(crate):
            own = folder == crate.path
            if own and "out" in folders:
                folders.remove("out")
            times += [os.stat(os.path.join(folder, name)).st_mtime for name in names + ["."] * (not own)]
    return max(times)


def build_mirror():
    if not os.path.exists(LIBRARY) or os.stat(LIBRARY).st_mtime <= newest():
        subprocess.run([os.path.join(ROOT, "build"), "library"], check=True, stdout=sys.stderr)


def rename(library):
    """A copy of the earlier library, its functions with a prefix, so that both can be linked. Its time stays if it is the same, which saves a rebuild."""
    os.makedirs(OUT, exist_ok=True)
    listed = subprocess.run(["nm", "--defined-only", "--extern-only", "--format=posix", library],
                            check=True, stdout=subprocess.PIPE, text=True).stdout
    names = [line.split()[0] for line in listed.splitlines() if len(line.split()) > 2]
    with tempfile.TemporaryDirectory() as folder:
        table, made = os.path.join(folder, "names"), os.path.join(folder, "made")
        with open(table, "w") as f:
            f.writelines(f"{name} before_{name}\n" for name in names)
        subprocess.run(["objcopy", "--enable-deterministic-archives", f"--redefine-syms={table}", library, made], check=True)
        if not os.path.exists(BEFORE) or not filecmp.cmp(made, BEFORE, shallow=False):
            shutil.copyfile(made, BEFORE)


def compile_rust(p, kind, package):
    """The programs for P seats, a constant of the Rust, which the oracle's code lays out; or a package that they need."""
    folder = os.path.join(OUT, f"p{p}")
    source = os.path.join(folder, "source")
    given, shifts = KINDS[kind]
    names = [f"bench_{n}" for n in shifts]
    prepare.prepare(binary.sources(), source, p, *SETTINGS, (names, os.path.join(ROOT, "bench/driver")))
    cargo = os.path.join(folder, kind)
    subprocess.run(
        ["cargo", "build", "--release", "--offline", "--quiet", "--package", package,
         "--manifest-path", os.path.join(source, "Cargo.toml"), "--target-dir", cargo],
        check=True, stdout=sys.stderr, env={**os.environ, "MIRROR_ARCHIVE": LIBRARY, **given})
    return [os.path.join(cargo, "release", name) for name in names]


def build(sizes, kind):
    """The programs of each P, by P. The original is compiled while the mirror is proved."""
    with concurrent.futures.ThreadPoolExecutor(os.cpu_count()) as workers:
        mirror = workers.submit(build_mirror)
        list(workers.map(lambda p: compile_rust(p, kind, "integrity_pool"), sizes))
        mirror.result()
        return dict(zip(sizes, workers.map(lambda p: compile_rust(p, kind, "driver"), sizes)))
