"""The repository: its crates, their files, and its version."""
import os
import re
import shutil
import subprocess

TOP = os.path.dirname(os.path.dirname(os.path.abspath(__file__)))
# What a crate is made of, as the prover reads it.
PARTS = ("src", "specs", "proofs")


def read(file):
    with open(file, encoding="utf-8") as it:
        return it.read()


# The version

# The file that has it, and where else it stands, in which words. C has it as a number, which Rattle
# writes in groups of three digits; a mutant has the number of the next version.
VERSION = "VERSION"
VERSIONED = {
    "README.md": ["The version is {version}."],
    "man/ig.1": ['"ig {version}"'],
    "man/igwalk.1": ['"igwalk {version}"'],
    "include/ignore_proved.h": ["/* The version of this header, {version}, as", "#define IGNORE_VERSION {number}\n"],
    "bindings/python/pyproject.toml": ['\nversion = "{version}"\n'],
    "bindings/python/ignore_proved/__init__.py": ['\n__version__ = "{version}"\n'],
    "bindings/rust/Cargo.toml": ['\nversion = "{version}"\n'],
    "crates/ig_options/src/words.rt": ['VERSION: &str = "{version}"'],
    "crates/igwalk/src/main.rt": ['VERSION: &str = "igwalk {version}\\n"'],
    "crates/ignore_c/src/version.rt": ["result ≡ {number} }", "\n    {grouped}\n"],
    "crates/ignore_c/mutants/version_of_the_next_release.edit": ["old:     {grouped}\n", "new:     {next}\n"],
}
# What each of these is, as a pattern.
FIELDS = {"version": r"\d+\.\d+\.\d+", "number": r"\d+", "grouped": r"\d+_\d+", "next": r"\d+_\d+"}
# How CHANGELOG begins, which is written by hand.
CHANGES = "# Changes\n\n## {version} ("


def version():
    """The version."""
    return read(f"{TOP}/{VERSION}").strip()


def said(form):
    """What a form says of the version."""
    first, second, third = map(int, version().split("."))
    number = 10_000 * first + 100 * second + third
    values = {"version": version(), "number": number, "grouped": f"{number:_}", "next": f"{number + 100:_}"}
    return re.sub(r"\{(\w+)}", lambda it: str(values[it[1]]), form)


def without_version():
    """The files that don't say the version, as they are to."""
    forms = {**VERSIONED, "CHANGELOG.md": [CHANGES]}
    return [name for name, its in forms.items() if any(said(it) not in read(f"{TOP}/{name}") for it in its)]


def write_version():
    """Writes the version into each of these files, in place of the one that stands there."""
    for name, forms in VERSIONED.items():
        text = read(f"{TOP}/{name}")
        for form in forms:
            pattern = re.escape(form)
            for field, kind in FIELDS.items():
                pattern = pattern.replace(re.escape(f"{{{field}}}"), kind)
            text = re.sub(pattern, said(form).replace("\\", r"\\"), text)
        with open(f"{TOP}/{name}", "w", encoding="utf-8") as it:
            it.write(text)


# Its files


def own_files():
    """The names of the repository's own files."""
    words = ["git", "-C", TOP, "ls-files", "-z", "--cached", "--others", "--exclude-standard"]
    ran = subprocess.run(words, stdout=subprocess.PIPE, stderr=subprocess.DEVNULL, text=True)
    if not ran.returncode:
        return [name for name in ran.stdout.split("\0") if os.path.isfile(f"{TOP}/{name}")]
    names = []
    for at, folders, files in os.walk(TOP):
        folders[:] = [name for name in folders if name not in (".git", "out", "dist")]
        names += [os.path.relpath(f"{at}/{name}", TOP) for name in files]
    return names


def copy_of(folder):
    """Copies the repository's own files into a folder, as a fresh clone has them."""
    for name in own_files():
        os.makedirs(os.path.dirname(f"{folder}/{name}"), exist_ok=True)
        shutil.copy2(f"{TOP}/{name}", f"{folder}/{name}")


# Crates


class Crate:
    """A crate of the repository."""

    def __init__(self, name, uses):
        self.name, self.uses = name, uses
        self.folder = f"{TOP}/crates/{name}"
        self.library = f"{self.folder}/out/rlib/{name}.rlib"

    def root(self):
        """The file that a check is given."""
        return "src/main.rt" if os.path.isfile(f"{self.folder}/src/main.rt") else "src/lib.rt"


class Crates(dict):
    """The crates of `crates.txt`, by name."""

    def __init__(self):
        super().__init__()
        for line in read(f"{TOP}/crates.txt").split("\n"):
            head, found, tail = line.partition("#")[0].partition(":")
            if found and head.split():
                name = head.split()[0]
                self[name] = Crate(name, tail.split())

    def below(self, crate):
        """The names of the crates that this one stands on, each after those that it stands on."""
        found = []
        for name in crate.uses:
            if name in self:
                found += [it for it in [*self.below(self[name]), name] if it not in found]
        return found


def files_of(crate, part):
    """The files of a part of a crate, by their paths in it."""
    found = []
    for at, _, names in os.walk(f"{crate.folder}/{part}"):
        found += [os.path.relpath(f"{at}/{it}", crate.folder) for it in names]
    return sorted(it for it in found if it.endswith((".rt", ".antt", ".edit")))
