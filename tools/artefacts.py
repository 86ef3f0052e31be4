#!/usr/bin/env python3
"""Makes the packages of tools/packages.py in a temporary folder, twice, and uses each as a stranger
does: in an empty root, with an empty home, without the kit and without this repository. Each check
writes a line, and the last line counts them. `tools/first_minute` makes the same checks, of the
programs that it has and of the library that tools/callers has kept.
usage: tools/artefacts.py IG IGWALK LIBRARY    the two programs, and the folder of the library for C
"""
import filecmp
import os
import re
import shutil
import subprocess
import sys
import tempfile

sys.dont_write_bytecode = True
import archive
import packages
from checks import Stop
from repo import TOP, Crates, copy_of, read

LIMIT = 900
USES = """\
from ignore_proved import Rules, __version__, pathspec, walk
print(__version__, Rules("", ["*.o"]).is_ignored("a.o"), sorted(it.name for it in walk("r")))
print(pathspec.GitIgnoreSpec.from_lines(["*.o"]).match_file("a.o"))
"""


class Stranger:
    """A room with an empty home and a folder to list, and the commands that are run there."""

    def __init__(self, room):
        self.room = room
        for name in ("home", "r/.git", "packages", "again"):
            os.makedirs(f"{room}/{name}")
        files = {"r/.gitignore": "*.o\n", "r/a.o": "", "r/b.c": "", "rules": "*.o\n"}
        for name, text in files.items():
            packages.put(f"{room}/{name}", text)
        self.env = {"PATH": "/usr/local/bin:/usr/bin:/bin", "HOME": f"{room}/home"}
        self.env["LC_ALL"] = "C.UTF-8"

    def run(self, *words, status=0, **env):
        """Runs a command there, which must end with this status, and returns what it wrote."""
        ran = subprocess.run(words, cwd=self.room, env={**self.env, **env}, timeout=LIMIT,
                             stdin=subprocess.DEVNULL, stdout=subprocess.PIPE,
                             stderr=subprocess.STDOUT, text=True, errors="replace")
        assert ran.returncode == status, \
            f"{words[0]} ended with {ran.returncode}: {ran.stdout[-800:]!r}"
        return ran.stdout

    def lists(self, folder):
        """The programs in a folder list what no rule ignores."""
        for words in (["ig", "--files", "r"], ["igwalk", "list", "r"]):
            said = self.run(f"{folder}/{words[0]}", *words[1:])
            wanted = "r/b.c\n" if words[0] == "ig" else "r\nr/b.c\n"
            assert said == wanted, f"{words[0]} wrote {said!r}"


def same_twice(it, makers, made):
    """Makes each package twice, and compares the bytes."""
    names = [maker(made, f"{it.room}/packages") for maker in makers]
    for maker in makers:
        maker(made, f"{it.room}/again")
    flat = [name for found in names for name in ([found] if isinstance(found, str) else found)]
    one, other = f"{it.room}/packages", f"{it.room}/again"
    found = packages.files_below(one)
    assert found == packages.files_below(other), "the second time there are other files"
    files = [name for name in found if os.path.isfile(f"{one}/{name}")]
    wrong = filecmp.cmpfiles(one, other, files, shallow=False)[1:]
    assert wrong == ([], []), f"the second time {wrong} differ"
    return ", ".join(flat)


def package(it, end):
    """The package whose name ends so."""
    names = [name for name in os.listdir(f"{it.room}/packages") if name.endswith(end)]
    assert len(names) == 1, f"of {end} there are {names}"
    return f"{it.room}/packages/{names[0]}"


def tarball(it):
    """Unpacks the tarball, installs it, once more, by default, below a relative prefix, and removes
    it; another program of that name, and a prefix that can't be written, are refused."""
    path = package(it, ".tar.gz")
    folder = os.path.basename(path)[: -len(".tar.gz")]
    it.run("tar", "-xzf", path)
    installs, prefix = f"{it.room}/{folder}/install.sh", f"{it.room}/a prefix"
    for _ in range(2):
        it.run(installs, prefix)
    it.lists(f"{prefix}/bin")
    it.run(installs)
    it.lists(f"{it.room}/home/.local/bin")
    it.run(f"{folder}/install.sh", "relative")
    it.lists("relative/bin")
    for name in ("man/man1/ig.1", "bash-completion/completions/ig", "doc/ig-proved/LICENSE"):
        assert os.path.isfile(f"{prefix}/share/{name}"), f"{name} isn't installed"
    packages.put(f"{prefix}/bin/mine", "mine")
    it.run(installs, "--remove", prefix)
    it.run(installs, "--remove", prefix, status=1)
    left = [name for name in packages.files_below(prefix) if os.path.isfile(f"{prefix}/{name}")]
    assert left == ["bin/mine"], f"after --remove there are {left}"
    packages.put(f"{it.room}/other/bin/ig", "another")
    said = it.run(installs, f"{it.room}/other", status=1)
    assert "another program" in said and packages.files_below(f"{it.room}/other") == [
        "bin", "bin/ig"], f"of another program it says {said!r}"
    it.run(installs, "--force", "other")
    it.lists("other/bin")
    for wrong in (f"{it.room}/{folder}", "/dev/null/x", ""):
        it.run(installs, wrong, status=1)
    it.run(installs, status=1, HOME="")


def first_block(it):
    """Does what the first block of README.md says, beside a clone, and sees what it says there."""
    blocks = re.findall(r"(?:^    .*\n)+", read(f"{TOP}/README.md"), re.M)
    steps = re.findall(r"^    \$ (.*)\n((?:    (?!\$ ).*\n)*)", blocks[0], re.M)
    assert len(steps) > 3, f"the block has {len(steps)} commands"
    room = f"{it.room}/readme"
    copy_of(f"{room}/buzandevo")
    packages.put(f"{room}/buzandevo/.git/HEAD", "")
    shutil.copy(package(it, ".tar.gz"), room)
    script = "\n".join(f"{command}\nprintf '\\f\\n'" for command, _ in steps)
    home = f"{it.room}/home of readme"
    found = it.run("sh", "-c", f"cd readme\n{script}", HOME=home,
                   PATH=f"{home}/.local/bin:{it.env['PATH']}").split("\f\n")
    assert len(found) == len(steps) + 1, f"it wrote {found}"
    for (command, said), answer in zip(steps, found):
        wanted = "".join(line[4:] for line in said.splitlines(True))
        assert answer == wanted or not wanted, f"{command} wrote {answer!r}"


def wheel(it):
    """Installs the wheel into a virtual environment, and asks three lines of Python."""
    path, python = package(it, ".whl"), f"{it.room}/venv/bin/python"
    try:
        it.run(sys.executable, "-m", "venv", f"{it.room}/venv")
        it.run(python, "-m", "pip", "install", "-q", "--no-index", "--no-deps", path)
        said = ""
    except AssertionError as error:
        # (where Python has no pip of its own, as Debian's, the wheel is unpacked)
        assert "ensurepip" in str(error), error
        it.run(sys.executable, "-m", "zipfile", "-e", path, f"{it.room}/unpacked")
        python, said = sys.executable, "unpacked, since there is no pip"
        it.env = {**it.env, "PYTHONPATH": f"{it.room}/unpacked"}
    answer = it.run(python, "-c", USES)
    wanted = f"{archive.version()} True ['b.c']\nTrue\n"
    assert answer == wanted, f"Python wrote {answer!r}"
    if not said:
        it.run(python, "-m", "pip", "check")
        it.run(python, "-m", "pip", "uninstall", "-q", "-y", "ignore-proved")
        it.run(python, "-c", "import ignore_proved", status=1)
        left = [name for name in packages.files_below(f"{it.room}/venv") if "ignore_proved" in name]
        assert not left, f"after pip uninstall there are {left}"
    return said


def installed(it, path, root):
    """Installs a Debian package in an empty root."""
    os.makedirs(f"{root}/var/lib/dpkg/info", exist_ok=True)
    for name in ("status", "available"):
        packages.put(f"{root}/var/lib/dpkg/{name}", "")
    os.makedirs(f"{root}/var/lib/dpkg/updates", exist_ok=True)
    if shutil.which("dpkg") and os.geteuid() == 0:
        it.run("dpkg", f"--root={root}", "--force-depends", "--force-script-chrootless", "-i", path,
               PATH=f"{it.env['PATH']}:/usr/sbin:/sbin")
        return "dpkg -i"
    it.run("dpkg-deb", "-x", path, root)
    return "unpacked"


def deb_of_programs(it):
    """Installs the programs in an empty root, and lists a folder."""
    root = f"{it.room}/root"
    said = installed(it, package(it, f"ig-proved_{archive.version()}_amd64.deb"), root)
    it.lists(f"{root}/usr/bin")
    it.run("gzip", "-t", f"{root}/usr/share/man/man1/ig.1.gz")
    return said


def deb_of_library(it):
    """Installs the library in an empty root, and compiles the example in C with it, both ways."""
    root = f"{it.room}/lib root"
    said = installed(it, package(it, f"libignore-proved_{archive.version()}_amd64.deb"), root)
    folder = f"{root}/usr/lib/{packages.TRIPLET}"
    flags = [f"-I{root}/usr/include", f"-L{folder}", "-lignore_proved"]
    if shutil.which("pkg-config", path=it.env["PATH"]):
        found = it.run("pkg-config", "--cflags", "--libs", "ignore_proved",
                       PKG_CONFIG_PATH=f"{folder}/pkgconfig", PKG_CONFIG_ALLOW_SYSTEM_CFLAGS="1",
                       PKG_CONFIG_ALLOW_SYSTEM_LIBS="1")
        wanted = f"-I/usr/include -L/usr/lib/{packages.TRIPLET} -lignore_proved"
        assert found.split() == wanted.split(), f"pkg-config wrote {found!r}"
    example = f"{TOP}/bindings/c/example.c"
    ways = {"shared": flags, "static": [flags[0], f"{folder}/libignore_proved.a"]}
    for name, words in ways.items():
        it.run(*archive.compiler(), "-o", f"{it.room}/{name}", example, *words)
        answer = it.run(f"{it.room}/{name}", "rules", "a.o", LD_LIBRARY_PATH=folder)
        assert answer == "ignore a.o by *.o of rules\n", f"the example wrote {answer!r}"
    return said


def well_made(it):
    """lintian, where it is there, finds no error in the Debian packages."""
    if not shutil.which("lintian"):
        return "not tried, since there is no lintian"
    found = [f"{it.room}/packages/{name}" for name in os.listdir(f"{it.room}/packages")
             if name.endswith(".deb")]
    it.run("lintian", "--allow-root", "--fail-on", "error", *found)
    return ""


def crates(it):
    """Runs an example of the crate for Rust, out of its folder, without the repository."""
    cargo = shutil.which("cargo")
    if not cargo:
        return "not tried, since there is no cargo"
    own = {name: os.environ[name] for name in ("CARGO_HOME", "RUSTUP_HOME") if name in os.environ}
    own.setdefault("CARGO_HOME", os.path.expanduser("~/.cargo"))
    own.setdefault("RUSTUP_HOME", os.path.expanduser("~/.rustup"))
    folder = f"{it.room}/packages"
    name = next(name for name in os.listdir(folder) if name.startswith("ignore-proved-"))
    words = ["run", "-q", "--offline", "--manifest-path", f"{folder}/{name}/Cargo.toml"]
    answer = it.run(cargo, *words, "--example", "ask", "rules", "a.o",
                    CARGO_TARGET_DIR=f"{it.room}/target", **own)
    assert answer == "ignore a.o by *.o\n", f"the example wrote {answer!r}"
    return ""


def check_all(check, room, programs, library):
    """Makes the checks: `check(name, does)` of each. A library that is None isn't tried."""
    os.environ.setdefault("SOURCE_DATE_EPOCH", "1600000000")
    os.environ.setdefault("DEBFULLNAME", "A Stranger")
    os.environ.setdefault("DEBEMAIL", "stranger@example.com")
    it, made = Stranger(room), packages.Made(archive.version(), programs, library)
    has_deb = shutil.which("dpkg-deb") is not None
    makers = {tarball: packages.tarball}
    if has_deb:
        makers[deb_of_programs] = packages.deb_of_programs
    if library:
        makers[wheel] = packages.wheel
        makers[crates] = packages.cargo_folders
    if library and has_deb:
        makers[deb_of_library] = packages.deb_of_library
    left = [] if library else ["no library is kept"]
    left += [] if has_deb else ["there is no dpkg-deb"]
    check("packages: the same bytes twice", lambda: "; ".join(
        [same_twice(it, list(makers.values()), made), *left]))
    for does in [*makers, first_block, *([well_made] if has_deb else [])]:
        check(f"packages: {does.__name__.replace('_', ' ')}", lambda does=does: does(it))


def kept_library(folder):
    """Makes the library of the archive that tools/callers has kept; None where there is none."""
    if archive.kept(Crates()) is None:
        return None
    os.makedirs(folder)
    archive.make(folder, archive.version())
    return folder


def main(words):
    if len(words) != 3:
        print(__doc__, end="", file=sys.stderr)
        return 2
    counts = [0, 0]

    def check(name, does):
        try:
            said, well = does() or "", True
        except (AssertionError, OSError, Stop, subprocess.SubprocessError) as error:
            said, well = str(error) or repr(error), False
        counts[not well] += 1
        print(f"{'passed' if well else 'FAILED'} {name}{': ' if said else ''}{said}", flush=True)

    with tempfile.TemporaryDirectory() as room:
        programs = dict(zip(packages.PROGRAMS, map(os.path.abspath, words)))
        check_all(check, f"{room}/a room", programs, os.path.abspath(words[2]))
    print(f"{counts[0]} passed, {counts[1]} failed")
    return int(counts[1] > 0)


if __name__ == "__main__":
    sys.exit(main(sys.argv[1:]))
