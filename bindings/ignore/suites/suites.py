#!/usr/bin/env python3
"""Fetches ripgrep, fd and globwalk by Debian's packages, puts this crate in the original's place,
and runs their own suites; one line a suite. It needs a network, dpkg-dev, cargo, and half an hour.
usage: suites.py [--original] [--keep FOLDER] [NAME..]
    --original      leaves the original crate in its place
    --keep FOLDER   fetches and builds there, and leaves it: a later run fetches nothing
    NAME            ripgrep, fd-find, globwalk; all, where none is given
IGNORE_PROVED_DIR names the folder of libignore_proved.a, as for the crate.
"""
import glob
import os
import re
import shutil
import subprocess
import sys
import tempfile

CRATE = os.path.dirname(os.path.dirname(os.path.abspath(__file__)))
DEBIAN = "http://deb.debian.org/debian bookworm main"
KEY = "signed-by=/usr/share/keyrings/debian-archive-keyring.gpg"
NAMES = ["ripgrep", "fd-find", "globwalk"]
# What isn't fetched with the programs: the third one, the original, and what tests use.
CRATES = [
    "globwalk", "ignore", "diff", "filetime", "tempfile", "test-case", "docmatic", "backtrace",
]
LIMIT = 3600
# A feature that cargo refuses, since Debian's crate `grep` doesn't have it.
LOST_FEATURE = re.compile(r'^simd-accel = \["grep/simd-accel"\]\n', re.M)
DEPENDENCY = re.compile(r"^\[dependencies\.ignore\]\nversion = .*\n", re.M)
RESULT = re.compile(r"^test result: \w+\. (\d+) passed; (\d+) failed", re.M)
FAILED = re.compile(r"^test (\S+) \.\.\. FAILED$", re.M)


def run(words, **how):
    """Runs a command, and returns what it wrote; ends where it fails."""
    ran = subprocess.run(
        words, stdin=subprocess.DEVNULL, stdout=subprocess.PIPE, stderr=subprocess.STDOUT,
        text=True, errors="replace", **how)
    if ran.returncode:
        sys.exit(f"{' '.join(words[:4])} .. failed:\n{ran.stdout[-3000:]}")
    return ran.stdout


def fetch(top):
    """Puts the sources and all crates that they need into a folder, without installing anything."""
    for name in ("lists/partial", "cache", "debs/partial", "sources"):
        os.makedirs(f"{top}/{name}", exist_ok=True)
    with open(f"{top}/sources.list", "w", encoding="utf-8") as file:
        file.write(f"deb [{KEY}] {DEBIAN}\ndeb-src [{KEY}] {DEBIAN}\n")
    settings = {
        "Dir::Etc::sourcelist": f"{top}/sources.list", "Dir::Etc::sourceparts": "/dev/null",
        "Dir::State::lists": f"{top}/lists", "Dir::Cache": f"{top}/cache",
        "Dir::Cache::archives": f"{top}/debs", "APT::Sandbox::User": "root",
        "Debug::NoLocking": "1",
    }
    apt = ["apt-get", "-q", "-y"]
    for name, value in settings.items():
        apt += ["-o", f"{name}={value}"]
    run([*apt, "update"])
    packages = ["rust-ripgrep", "rust-fd-find"]
    run([*apt, "source", "--download-only", *packages], cwd=f"{top}/sources")
    only = ["--download-only", "--no-install-recommends"]
    run([*apt, *only, "build-dep", *packages])
    run([*apt, *only, "--reinstall", "install", *[f"librust-{name}-dev" for name in CRATES]])
    for deb in glob.glob(f"{top}/debs/librust-*.deb"):
        run(["dpkg", "-x", deb, f"{top}/root"])


def unpack(top, name):
    """Unpacks the source of a program anew. Of globwalk Debian has its crate's package alone."""
    folder = f"{top}/{name}"
    shutil.rmtree(folder, ignore_errors=True)
    if name == "globwalk":
        [found] = glob.glob(f"{top}/root/usr/share/cargo/registry/globwalk-*")
        shutil.copytree(found, folder)
    else:
        [found] = glob.glob(f"{top}/sources/rust-{name}_*.dsc")
        run(["dpkg-source", "-x", found, folder])
    return folder


def put_in(top, folder, is_original):
    """Has a program built offline, over this crate."""
    if os.path.exists(f"{folder}/Cargo.lock"):
        os.remove(f"{folder}/Cargo.lock")
    with open(f"{folder}/Cargo.toml", encoding="utf-8") as file:
        text = LOST_FEATURE.sub("", file.read())
    if not is_original:
        text, count = DEPENDENCY.subn(f'[dependencies.ignore]\npath = "{CRATE}"\n', text)
        if count != 1:
            sys.exit(f"{folder}/Cargo.toml has another form")
    with open(f"{folder}/Cargo.toml", "w", encoding="utf-8") as file:
        file.write(text)
    os.makedirs(f"{folder}/.cargo", exist_ok=True)
    with open(f"{folder}/.cargo/config.toml", "w", encoding="utf-8") as file:
        file.write(
            '[source.crates-io]\nreplace-with = "debian"\n[source.debian]\n'
            f'directory = "{top}/root/usr/share/cargo/registry"\n')


def suite(top, name, is_original):
    """Runs a suite, and says what passed. Examples in docstrings aren't tried: globwalk's name
    crates that it doesn't use."""
    folder = unpack(top, name)
    put_in(top, folder, is_original)
    target = f"{top}/target{'-original' if is_original else ''}"
    ran = subprocess.run(
        ["cargo", "test", "--offline", "--no-fail-fast", "--tests"], cwd=folder, timeout=LIMIT,
        stdin=subprocess.DEVNULL, stdout=subprocess.PIPE, stderr=subprocess.STDOUT, text=True,
        errors="replace", env={**os.environ, "CARGO_TARGET_DIR": target})
    log = f"{top}/{name}{'-original' if is_original else ''}.log"
    with open(log, "w", encoding="utf-8") as file:
        file.write(ran.stdout)
    results = [(int(passed), int(failed)) for passed, failed in RESULT.findall(ran.stdout)]
    if not results:
        print(f"{name}: isn't built\n{ran.stdout[-3000:]}", flush=True)
        return
    passed, failed = (sum(it) for it in zip(*results))
    which = "".join(f" {it}" for it in FAILED.findall(ran.stdout))
    print(f"{name}: {passed} passed, {failed} failed{which}", flush=True)


def main(words):
    is_original = "--original" in words
    words = [it for it in words if it != "--original"]
    kept = None
    if "--keep" in words:
        at = words.index("--keep")
        kept = os.path.abspath(words[at + 1])
        del words[at:at + 2]
    if any(it not in NAMES for it in words):
        print(__doc__, end="", file=sys.stderr)
        return 2
    with tempfile.TemporaryDirectory() as room:
        top = kept or room
        os.makedirs(top, exist_ok=True)
        if not os.path.isdir(f"{top}/root"):
            fetch(top)
        for name in words or NAMES:
            suite(top, name, is_original)
    return 0


if __name__ == "__main__":
    sys.exit(main(sys.argv[1:]))
