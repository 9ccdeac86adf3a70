"""The oracle's binaries, one for each P, E, epoch length and unlocking length.

A binary stands in target/NAME with a digest of all that went into it; where the digest is still
the same, nothing is built.
"""
import fcntl
import functools
import hashlib
import os
import subprocess
import sys

import prepare

HERE = prepare.HERE
TARGET = os.path.join(HERE, "target")
WORD = 2**64


def sources():
    return os.environ.get("POOL_SOURCES") or os.path.join(HERE, "../../shared/docs/src")


def inputs():
    own = [prepare.__file__, __file__]
    for folder in ("driver", "standins", "templates"):
        for at, _, names in sorted(os.walk(os.path.join(HERE, folder))):
            own += [os.path.join(at, n) for n in sorted(names)]
    return own + [os.path.join(sources(), s) for s in prepare.SOURCES]


@functools.cache
def digest():
    all_of_them = hashlib.sha256()
    for path in inputs():
        prepare.need(os.path.exists(path), f"no {path} (POOL_SOURCES names the Rust's folder)")
        with open(path, "rb") as f:
            all_of_them.update(hashlib.sha256(f.read()).digest())
    return all_of_them.hexdigest()


def compile_in(folder, size):
    """Each has a cargo folder of its own: cargo takes packages at like places for the same."""
    prepare.prepare(sources(), os.path.join(folder, "source"), *size)
    subprocess.run(
        ["cargo", "build", "--release", "--offline", "--quiet", "--package", "driver",
         "--manifest-path", os.path.join(folder, "source/Cargo.toml"),
         "--target-dir", os.path.join(folder, "cargo")],
        check=True, stdout=sys.stderr)
    made = os.path.join(folder, "oracle.new")
    with open(os.path.join(folder, "cargo/release/oracle"), "rb") as f, open(made, "wb") as g:
        g.write(f.read())
    os.chmod(made, 0o755)
    os.replace(made, os.path.join(folder, "oracle"))


@functools.cache
def binary(p, e, seconds, unlocking):
    """Its path; built if it is missing or anything that it is made of has changed. Looked at once in a run."""
    name = f"p{p}-e{e}-s{seconds}-u{unlocking}"
    folder = os.path.join(TARGET, name)
    os.makedirs(folder, exist_ok=True)
    path, stamp, now = (os.path.join(folder, n) for n in ("oracle", "digest", "lock"))
    with open(now, "w") as lock:
        fcntl.flock(lock, fcntl.LOCK_EX)
        wanted = digest()
        if not os.path.exists(path) or not os.path.exists(stamp) or prepare.read(stamp) != wanted:
            compile_in(folder, (p, e, seconds, unlocking))
            with open(stamp, "w") as f:
                f.write(wanted)
    return path
