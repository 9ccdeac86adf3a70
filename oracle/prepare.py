"""Lays the original Rust out for cargo, with the stand-ins, and proves what was left unchanged.

The files of integrity-pool go over whole, but for the lines of EDITS; of positions.rs and of
publisher-caps go over the line ranges of PARTS. Everything stands on its own line number, so that
a panic's place is the sources'. `check` reads back what was written, holds it against the sources
line by line, and writes the report.
"""
import hashlib
import os

HERE = os.path.dirname(os.path.abspath(__file__))
POOL = "staking/programs/integrity-pool/src/"
POSITIONS = "staking/programs/staking/src/state/positions.rs"
CAPS = "staking/programs/publisher-caps/src/lib.rs"

WHOLE = ["lib.rs", "context.rs", "error.rs", "state/pool.rs", "state/event.rs",
         "state/delegation_record.rs", "state/slash.rs", "utils/types.rs", "utils/clock.rs",
         "utils/constants.rs"]
SOURCES = [POOL + name for name in WHOLE] + [POSITIONS, CAPS]

# first line, last line, and the text that must stand on them
PARTS = {
    POSITIONS: [
        (201, 213, "    pub fn has_target_with_parameters_exposure(", "    }"),
        (491, 602, "/// This represents a staking position, i.e. an amount that someone has staked"
                   " to a particular", "}"),
    ],
    CAPS: [
        (35, 36, "pub const PUBLISHER_STAKE_CAPS_MESSAGE_DISCRIMINATOR: u8 = 2;",
         "pub const MAX_CAPS: usize = 1024;"),
        (132, 202, "#[repr(C)]", "}"),
    ],
}

# lines that driver/refusal.rs knows by number
PLACES = {
    ("lib.rs", 50): "pool_data.last_updated_epoch = get_current_epoch()? - 1;",
    ("lib.rs", 327): "pool_data.claimable_rewards -= delegator_reward + publisher_reward;",
    ("state/pool.rs", 377): "* u128::from(pool_reward_custody_balance - self.claimable_rewards))",
}

# what the handlers ask for the epoch, so that epochs beyond the clock's seconds can be given too
GIVEN_CLOCK = """use anchor_lang::prelude::*;

pub fn get_current_epoch() -> Result<u64> {
    Ok(anchor_lang::given::EPOCH.with(|e| e.get()))
}
"""


def edits(p, e, seconds):
    """file: {line: (the sources' text, the text that takes its place)}"""
    return {
        "utils/constants.rs": {
            1: ("pub const MAX_PUBLISHERS: usize = 1024;",
                f"pub const MAX_PUBLISHERS: usize = {p};"),
            2: ("pub const MAX_EVENTS: usize = 52;", f"pub const MAX_EVENTS: usize = {e};"),
        },
        "utils/clock.rs": {
            9: ("pub const EPOCH_DURATION: u64 = 60 * 60 * 24 * 7; // 1 week",
                f"pub const EPOCH_DURATION: u64 = {seconds};"),
        },
        "lib.rs": {
            10: ("        clock::get_current_epoch,", "        given_clock::get_current_epoch,"),
        },
    }


def need(condition, what):
    if not condition:
        raise SystemExit(f"prepare: {what}")


def read(path):
    with open(path, newline="") as f:
        return f.read()


class Workspace:
    def __init__(self, sources, out, p, e, seconds, unlocking, program):
        self.sources, self.out, self.unlocking, self.program = sources, out, unlocking, program
        self.edits = edits(p, e, seconds)

    def source(self, path):
        full = os.path.join(self.sources, path)
        need(os.path.exists(full), f"no {path} in the sources (POOL_SOURCES)")
        return read(full)

    def put(self, path, text):
        full = os.path.join(self.out, path)
        os.makedirs(os.path.dirname(full), exist_ok=True)
        if not os.path.exists(full) or read(full) != text:   # an old time stamp saves a rebuild
            with open(full, "w", newline="") as f:
                f.write(text)

    def part(self, path, k):
        first, last, head, tail = PARTS[path][k]
        lines = self.source(path).split("\n")
        need(lines[first - 1] == head and lines[last - 1] == tail, f"{path}: other lines")
        return "\n".join(lines[first - 1:last]) + "\n"

    def write_pool(self):
        for name in WHOLE:
            lines = self.source(POOL + name).split("\n")
            for n, (old, new) in self.edits.get(name, {}).items():
                need(lines[n - 1] == old, f"{name}:{n}: other text")
                lines[n - 1] = new
            self.put("integrity_pool/src/" + name, "\n".join(lines))
        for folder, names in (("state", "delegation_record event pool slash"),
                              ("utils", "clock constants given_clock types")):
            modules = "".join(f"pub mod {m};\n" for m in names.split())
            self.put(f"integrity_pool/src/{folder}/mod.rs", modules)
        self.put("integrity_pool/src/utils/given_clock.rs", GIVEN_CLOCK)
        # the accounts' structs are private to lib.rs; the driver fills them in through this door
        self.put("integrity_pool/src/accounts_door.rs", "pub use crate::context::*;\n")
        self.put("integrity_pool/src/root.rs", 'include!("lib.rs");\n\npub mod accounts_door;\n')

    def write_parts(self):
        def at(text, line, start=1):
            """Empty lines behind `text`, which begins on `start`, up to `line`."""
            fill = line - start - text.count("\n")
            need(fill >= 0, "a template is too long")
            return text + "\n" * fill

        head = read(f"{HERE}/templates/positions_head.rs")
        inner = at(self.part(POSITIONS, 0) + "}\n", PARTS[POSITIONS][1][0], PARTS[POSITIONS][0][0])
        self.put("staking/src/state/positions.rs",
                 at(head, PARTS[POSITIONS][0][0]) + inner + self.part(POSITIONS, 1))
        head = read(f"{HERE}/templates/caps_head.rs")
        inner = at(self.part(CAPS, 0), PARTS[CAPS][1][0], PARTS[CAPS][0][0])
        self.put("publisher_caps/src/lib.rs",
                 at(head, PARTS[CAPS][0][0]) + inner + self.part(CAPS, 1))
        door = read(f"{HERE}/templates/staking_lib.rs").replace("@U@", str(self.unlocking))
        self.put("staking/src/lib.rs", door)

    def manifest(self, name, edition, needs, rest=""):
        text = (f'[package]\nname = "{name}"\nversion = "0.0.0"\nedition = "{edition}"\n'
                f"publish = false\n{rest}\n[dependencies]\n")
        standins = os.path.relpath(f"{HERE}/standins", os.path.join(self.out, name))
        for d in needs.split():
            here = os.path.isdir(f"{HERE}/standins/{d}")
            text += f'{d} = {{ path = "{standins if here else ".."}/{d}" }}\n'
        self.put(name + "/Cargo.toml", text)

    def write_manifests(self):
        self.manifest("staking", "2018", "anchor_lang borsh")
        self.manifest("publisher_caps", "2018", "anchor_lang arrayref bytemuck")
        # epoch seconds 0 are a setting too: the division by them is never asked for
        self.manifest("integrity_pool", "2018",
                      "anchor_lang anchor_spl borsh bytemuck publisher_caps staking",
                      '\n[lib]\npath = "src/root.rs"\n\n[lints.rust]\n'
                      'unused_imports = "allow"\nunconditional_panic = "allow"\n')
        names, folder = self.program
        at = os.path.relpath(folder, os.path.join(self.out, "driver"))
        programs = "".join(f'\n[[bin]]\nname = "{name}"\npath = "{at}/main.rs"\n' for name in names)
        build = f'build = "{at}/build.rs"\n' if os.path.exists(f"{folder}/build.rs") else ""
        library = f'\n[lib]\npath = "{at}/lib.rs"\n' if os.path.exists(f"{folder}/lib.rs") else ""
        self.manifest("driver", "2021",
                      "anchor_lang anchor_spl integrity_pool publisher_caps staking",
                      build + library + programs)
        self.put("Cargo.toml", '[workspace]\nresolver = "2"\nmembers = ["driver", "integrity_pool",'
                 ' "publisher_caps", "staking"]\n\n[profile.release]\noverflow-checks = true\n'
                 'panic = "unwind"\nopt-level = 3\n')

    def check_whole(self, name):
        was = self.source(POOL + name).split("\n")
        now = read(os.path.join(self.out, "integrity_pool/src", name)).split("\n")
        need(len(was) == len(now), f"{name}: another number of lines")
        changed = [n + 1 for n in range(len(was)) if was[n] != now[n]]
        wanted = [n for n, (old, new) in self.edits.get(name, {}).items() if old != new]
        need(changed == wanted, f"{name}: changed lines {changed}, wanted {wanted}")
        for n in changed:       # a constant or a name in a `use`, never a line of a function body
            text = now[n - 1].strip()
            need(text.startswith("pub const ") or text == "given_clock::get_current_epoch,",
                 f"{name}:{n}: {text}")
        for (file, n), text in PLACES.items():
            need(file != name or now[n - 1].strip() == text, f"{name}:{n}: not the place known")
        digest = hashlib.sha256(self.source(POOL + name).encode()).hexdigest()
        lines = ", ".join(map(str, changed)) or "none"
        return f"{POOL}{name}: {len(was) - 1} lines, changed: {lines}; sha256 {digest}"

    def check_parts(self, path, written):
        was = self.source(path).split("\n")
        now = read(os.path.join(self.out, written)).split("\n")
        for first, last, _, _ in PARTS[path]:
            need(was[first - 1:last] == now[first - 1:last], f"{path}: {first} to {last} differ")
            yield f"{path}: lines {first} to {last} unchanged"

    def check(self):
        report = [self.check_whole(name) for name in WHOLE]
        report += self.check_parts(POSITIONS, "staking/src/state/positions.rs")
        report += self.check_parts(CAPS, "publisher_caps/src/lib.rs")
        self.put("UNCHANGED.txt", "\n".join(report) + "\n")


def prepare(sources, out, p, e, seconds, unlocking, program=(["oracle"], f"{HERE}/driver")):
    """`program` is the program over them: the names that it is compiled under, and its folder, with main.rs and perhaps lib.rs and build.rs."""
    w = Workspace(sources, out, p, e, seconds, unlocking, program)
    w.write_pool()
    w.write_parts()
    w.write_manifests()
    w.check()
