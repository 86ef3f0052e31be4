"""The library for C: the archive of the crate `ignore_c`, made over the libraries that `rt ci` or
`rt lib` has built, and the shared object, the header and the pkg-config file that go with it. The
crate itself is proved once more for it, in a copy; the crates below it are taken as built. The
archive is kept in `crates/ignore_c/out` with a record of what it was made of, and is taken from
there as long as the record fits.
"""
import hashlib
import os
import re
import shutil
import subprocess
import tempfile

from checks import Stop, kit, logic
from repo import PARTS, TOP, Crates, read, version

CRATE = "ignore_c"
NAME = "ignore_proved"
HEADER = f"{TOP}/include/{NAME}.h"
# What the verdict line of the archive says that it rests on besides the proofs.
AXIOMS = re.compile(r"^logic=proved .*\baxioms=(\d+)\b", re.M)
# The shared object shows the library's own names alone.
SHOWN = "{ global: ignore_*; local: *; };\n"
PC = """\
prefix=${{pcfiledir}}
Name: {name}
Description: Gitignore rules, proved
Version: {version}
Cflags: -I${{prefix}}
Libs: -L${{prefix}} -l{name}
"""


def compiler():
    """The C compiler's command."""
    return os.environ.get("CC", "cc").split()


def run(words, **how):
    """Runs a command; ends by Stop, with its last lines, where it fails."""
    how = {"stderr": subprocess.STDOUT, **how}
    if "input" not in how:
        how["stdin"] = subprocess.DEVNULL
    try:
        ran = subprocess.run(words, stdout=subprocess.PIPE, text=True, errors="replace", **how)
    except FileNotFoundError:
        raise Stop(f"{words[0]} isn't there") from None
    if ran.returncode:
        raise Stop(f"{' '.join(words[:3])} .. failed: " + "\n".join(ran.stdout.split("\n")[-12:]))
    return ran.stdout


def built(crates, where):
    """Builds the archive of the crate there, over the libraries below it, and returns the last line
    of its check."""
    home, crate = kit(), crates[CRATE]
    below = crates.below(crate)
    words = [f"{home}/bin/rattle", "build", "--crate-name", CRATE, "src/lib.rt"]
    for it in ["std", *crate.uses]:
        library = crates[it].library if it in below else f"{home}/rlibs/{it}.rlib"
        words += ["--extern", f"{it}={library}"]
    for it in [f"{home}/rlibs", *[os.path.dirname(crates[it].library) for it in below]]:
        words += ["-L", f"dependency={it}"]
    words += ["--antt-project", f"{home}/rattle/logic/antt-project.json"]
    words += ["--logic-built", f"{home}/logic_built", "--links", f"{CRATE}="]
    words += ["--crate-type", "staticlib", "--toolchain", f"{home}/toolchain"]
    words += ["--backend", "llvm", "--jobs", "2", "-o", f"{where}/lib{CRATE}.a"]
    for it in below:
        if not os.path.isdir(crates[it].library):
            raise Stop(f"the library {it} isn't built: rt ci, or rt lib in crates/{CRATE}")
    with tempfile.TemporaryDirectory() as room:
        for part in PARTS:
            shutil.copytree(f"{crate.folder}/{part}", f"{room}/{part}")
        said = run(words, cwd=room)
    if not AXIOMS.search(said):
        raise Stop(f"{CRATE} isn't proved: {said[-500:]}")
    return said.strip().split("\n")[-1]


def key(crates):
    """A sum of the kit's logic and of all that the archive is made of and proved by."""
    crate = crates[CRATE]
    found = hashlib.sha256(logic().encode("utf-8"))
    for name in sorted([*crates.below(crate), CRATE]):
        folder = crates[name].folder
        for part in PARTS:
            for at, folders, files in os.walk(f"{folder}/{part}"):
                folders.sort()
                for file in sorted(files):
                    with open(f"{at}/{file}", "rb") as it:
                        own = hashlib.sha256(it.read()).hexdigest()
                    found.update(f"{os.path.relpath(f'{at}/{file}', TOP)} {own}\n".encode("utf-8"))
    return found.hexdigest()


def places(crates):
    """Where an archive that was made is kept, and its record."""
    out = f"{crates[CRATE].folder}/out"
    return f"{out}/{NAME}.a", f"{out}/{NAME}.proved"


def keep(crates, made, said):
    """Keeps an archive with a record of what it was made of, for tools/release."""
    archive, record = places(crates)
    os.makedirs(os.path.dirname(archive), exist_ok=True)
    shutil.copy(made, archive)
    with open(archive, "rb") as file:
        own = hashlib.sha256(file.read()).hexdigest()
    with open(record, "w", encoding="utf-8") as file:
        file.write(f"sha256 {own}\nkey {key(crates)}\nsaid {said}\n")


def kept(crates):
    """The archive that is kept and what its check said, if its record fits it and the sources."""
    archive, record = places(crates)
    try:
        words = dict(line.split(" ", 1) for line in read(record).splitlines())
        with open(archive, "rb") as file:
            own = hashlib.sha256(file.read()).hexdigest()
    except (OSError, ValueError):
        return None
    fits = words.get("sha256") == own and words.get("key") == key(crates)
    return (archive, words.get("said", "")) if fits else None


def archive_of_crate(room):
    """Puts the archive of the crate into a folder: the one that is kept, or one that is made and
    kept. Returns the last line of its check."""
    crates = Crates()
    path = f"{room}/lib{CRATE}.a"
    found = kept(crates)
    if found:
        shutil.copy(found[0], path)
        return f"{found[1]} (kept)"
    said = built(crates, room)
    keep(crates, path, said)
    return said


def make(where, version, archive=None):
    """Makes the files of the library in a folder, and returns the last line of the check of
    `ignore_c`. A ready archive of the crate may be given."""
    with tempfile.TemporaryDirectory() as room:
        if archive:
            shutil.copy(archive, f"{room}/lib{CRATE}.a")
            said = f"(the archive {archive}, as given)"
        else:
            said = archive_of_crate(room)
        # Both archives as one: the crate, and the three functions by which it takes memory.
        script = f"CREATE {where}/lib{NAME}.a\nADDLIB {room}/lib{CRATE}.a\n"
        script += f"ADDLIB {kit()}/c/liblibc_c.a\nSAVE\nEND\n"
        run(["ar", "-M"], input=script)
        with open(f"{room}/shown", "w", encoding="utf-8") as file:
            file.write(SHOWN)
        soname = f"lib{NAME}.so.{version.split('.')[0]}"
        words = ["-shared", "-o", f"{where}/lib{NAME}.so", f"-Wl,-soname,{soname}"]
        words += [f"-Wl,--version-script={room}/shown", "-Wl,--whole-archive"]
        words += ["-Wl,--build-id=none"]
        run([*compiler(), *words, f"{where}/lib{NAME}.a", "-Wl,--no-whole-archive"])
    os.symlink(f"lib{NAME}.so", f"{where}/{soname}")
    shutil.copy(HEADER, where)
    with open(f"{where}/{NAME}.pc", "w", encoding="utf-8") as file:
        file.write(PC.format(name=NAME, version=version))
    return said
