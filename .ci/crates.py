"""The crates of crates.txt, and the words by which `rt ci` has one checked from nothing. .ci/try-edits and .ci/build-archive use it."""
import functools
import os
import pathlib
import re
import subprocess

ROOT = pathlib.Path(__file__).resolve().parent.parent
PARTS = ("src", "specs", "proofs")


@functools.lru_cache(maxsize=None)
def kit():
    """The folder of the toolchain, in which the page lies that `rt doc` names."""
    return pathlib.Path(subprocess.run(["rt", "doc"], capture_output=True, text=True, check=True).stdout.strip()).parent


@functools.lru_cache(maxsize=None)
def listed():
    """The libraries that each crate uses, and the names of the static libraries."""
    uses, static = {}, set()
    for line in (ROOT / "crates.txt").read_text(encoding="utf-8").splitlines():
        name, _, deps = line.partition("#")[0].partition(":")
        name, *kind = name.split() or [""]
        if name:
            uses[name] = deps.split()
            static.update([name] * (kind == ["staticlib"]))
    return uses, static


def below(crate):
    """The crates below this one, each once."""
    found = {}
    for it in listed()[0][crate]:
        if it in listed()[0]:
            found.update(dict.fromkeys([*below(it), it]))
    return list(found)


def rlib(crate):
    return ROOT / "crates" / crate / "out" / "rlib" / f"{crate}.rlib"


def words(crate):
    """The words of a check of the crate over the libraries below it as they lie in their out/; it runs in the crate's folder or in a copy."""
    uses, static = listed()
    is_program = (ROOT / "crates" / crate / "src" / "main.rt").is_file()
    said = ["--crate-name", crate, "src/main.rt" if is_program else "src/lib.rt"]
    for it in ["std", *uses[crate]]:
        said += ["--extern", f"{it}={rlib(it) if it in uses else kit() / 'rlibs' / f'{it}.rlib'}"]
    for folder in [kit() / "rlibs", *[rlib(it).parent for it in below(crate)]]:
        said += ["-L", f"dependency={folder}"]
    said += ["--antt-project", f"{kit()}/rattle/logic/antt-project.json", "--logic-built", f"{kit()}/logic_built", "--jobs", "1", "--links", f"{crate}="]
    return said + ["--crate-type", "staticlib"] * (crate in static)


def rattle(verb, said, folder):
    """What the compiler prints when it is run with these words in a folder, and its status."""
    ran = subprocess.run(
        [f"{kit()}/bin/rattle", verb, *said], cwd=folder, stdin=subprocess.DEVNULL, stdout=subprocess.PIPE, stderr=subprocess.STDOUT, text=True, errors="replace"
    )
    return ran.stdout, ran.returncode


def files_of(crate):
    """The files of the crate that a check reads, in order."""
    return sorted(path for part in PARTS for path in (ROOT / "crates" / crate / part).rglob("*") if path.is_file())


def processors():
    return len(os.sched_getaffinity(0))


def free_memory():
    """In bytes."""
    return 1024 * int(re.search(r"MemAvailable:\s+(\d+)", pathlib.Path("/proc/meminfo").read_text())[1])
