"""Packages of what was proved: a tarball of the programs, a wheel of the Python package, two Debian
packages, folders for cargo. The same files give the same bytes: names are sorted, owners and modes
fixed, and each time is that of SOURCE_DATE_EPOCH, which is the commit's where it isn't set.
"""
import base64
import dataclasses
import gzip
import hashlib
import os
import re
import subprocess
import tarfile
import tempfile
import time
import zipfile

from checks import Stop
from repo import TOP, read

PROGRAMS = ["ig", "igwalk"]
LICENCES = ["LICENSE", "LICENSE-ignore"]
TRIPLET = "x86_64-linux-gnu"
INSTALL = r"""#!/bin/sh
# Copies ig and igwalk, their manual pages and completions below a prefix, by default ~/.local, or
# takes them away there.
# usage: ./install.sh [--force | --remove] [PREFIX]
#   --force   also where bin/ig or bin/igwalk is another program, which is lost by that
#   --remove  removes what it copies, and nothing else
set -eu
umask 022
mark=share/doc/ig-proved/LICENSE
part=
trap '[ -z "$part" ] || rm -f -- "$part"' EXIT
trap 'exit 130' HUP INT TERM

stop() {
    echo "install.sh: $*" >&2
    exit 1
}

does=install
case ${1-} in
    --help | -h)
        sed -n '2,6s/^# //p' "$0"
        exit
        ;;
    --force | --remove)
        does=${1#--}
        shift
        ;;
    -*) stop "there is no option $1 (--help has the options)" ;;
esac
[ $# -le 1 ] || stop "one prefix is wanted, and not $#"
prefix=${1-}
[ $# -eq 1 ] || prefix=${HOME:+$HOME/.local}
[ -n "$prefix" ] || stop "the prefix is empty, or HOME isn't set: give a prefix"
case $prefix in
    /*) ;;
    *) prefix=$PWD/$prefix ;;
esac
here=$(CDPATH='' cd -- "$(dirname -- "$0")" && pwd -P) || exit
[ "$(CDPATH='' cd -- "$prefix" 2>/dev/null && pwd -P)" != "$here" ] ||
    stop "$prefix is the folder of these files: give another prefix"
# (the mark comes first, so that a copy that was cut off is known as such)
files="$mark $(cd "$here" && find bin share -type f | LC_ALL=C sort)"

if [ "$does" = remove ]; then
    [ -e "$prefix/$mark" ] || stop "in $prefix nothing is installed"
    for it in $files; do
        [ "$it" = "$mark" ] || rm -f -- "$prefix/$it" || stop "$prefix/$it isn't removed"
    done
    rm -f -- "$prefix/$mark" || stop "$prefix/$mark isn't removed"
    rmdir -- "$prefix/${mark%/*}" 2>/dev/null || :
    echo "removed from $prefix"
    exit
fi
for it in bin/ig bin/igwalk; do
    if [ "$does" = install ] && [ -e "$prefix/$it" ] && [ ! -e "$prefix/$mark" ]; then
        stop "$prefix/$it is another program: give another prefix, or --force, by which it is lost"
    fi
done
for it in $files; do
    mkdir -p -- "$prefix/${it%/*}" || stop "nothing is copied to $prefix/${it%/*}"
    [ ! -d "$prefix/$it" ] || stop "$prefix/$it is a folder"
    part=$prefix/$it.part
    cp -- "$here/$it" "$part" || stop "$prefix/$it isn't written"
    mv -f -- "$part" "$prefix/$it" || stop "$prefix/$it isn't written"
    part=
done
echo "installed in $prefix: bin/ig, bin/igwalk, their manual pages and completions"
found=$(command -v ig) || found=none
[ "$found" = "$prefix/bin/ig" ] || echo "on the PATH ig is $found: put $prefix/bin first there"
"""
#: Where the completions of `ig` are looked for, below a prefix.
COMPLETIONS = {
    "ig.bash": "share/bash-completion/completions/ig",
    "_ig": "share/zsh/site-functions/_ig",
    "ig.fish": "share/fish/vendor_completions.d/ig.fish",
}
SHORT = "gitignore rules, proved"
LONG = {
    "ig-proved": """\
 ig lists the files that gitignore rules keep, and says why a path is
 ignored; igwalk is the smaller program beside it. Both are proved to do
 what their definitions say.
""",
    "libignore-proved": """\
 The library that ig is made of, for C and for what calls C: gitignore
 rules, matchers of single paths, walks. Each of its calls is proved to
 do what the definitions say.
""",
}


@dataclasses.dataclass
class Made:
    """What the packages are made of: the version, the programs by name, and the folder of the
    library for C, as tools/archive.py makes it.
    """

    version: str
    programs: dict
    library: str

    @property
    def shared(self):
        """The shared object."""
        return f"{self.library}/libignore_proved.so"


def epoch():
    """The time that is written into packages: SOURCE_DATE_EPOCH, or that of the commit."""
    given = os.environ.get("SOURCE_DATE_EPOCH")
    if given:
        return int(given)
    words = ["git", "-C", TOP, "log", "-1", "--format=%ct"]
    ran = subprocess.run(words, stdout=subprocess.PIPE, stderr=subprocess.DEVNULL, text=True)
    if ran.returncode or not ran.stdout.strip():
        raise Stop("SOURCE_DATE_EPOCH isn't set, and there is no commit whose time would do")
    return int(ran.stdout)


def maintainer():
    """Who is named in the Debian packages: DEBFULLNAME and DEBEMAIL, or who made the commit."""
    name, mail = os.environ.get("DEBFULLNAME"), os.environ.get("DEBEMAIL")
    if name and mail:
        return f"{name} <{mail}>"
    return run("git", "-C", TOP, "log", "-1", "--format=%an <%ae>").strip()


def run(*words, **how):
    """Runs a command; ends by Stop where it fails."""
    try:
        how = {"stdout": subprocess.PIPE, "stderr": subprocess.STDOUT, "text": True, **how}
        ran = subprocess.run(words, **how)
    except FileNotFoundError:
        raise Stop(f"{words[0]} isn't there") from None
    if ran.returncode:
        raise Stop(f"{' '.join(words[:3])} .. failed: {ran.stdout[-500:]}")
    return ran.stdout


def glibc_of(*files):
    """The greatest version of glibc that files ask for, as its two numbers."""
    found = {(2, 0)}
    for file in files:
        found |= {(int(major), int(minor)) for major, minor in
                  re.findall(r"\bGLIBC_(\d+)\.(\d+)", run("objdump", "-T", file))}
    return max(found)


def put(path, content, mode=0o644):
    """Writes a file, and the folders above it."""
    os.makedirs(os.path.dirname(path), exist_ok=True)
    with open(path, "wb") as file:
        file.write(content if isinstance(content, bytes) else content.encode("utf-8"))
    os.chmod(path, mode)


def copy(source, path, mode=0o644):
    """Copies a file, and makes the folders above it."""
    with open(source, "rb") as file:
        put(path, file.read(), mode)


def files_below(folder):
    """The paths of the files and folders below a folder, relative to it, sorted."""
    found = []
    for at, folders, names in os.walk(folder):
        found += [os.path.relpath(f"{at}/{name}", folder) for name in (*folders, *names)]
    return sorted(found)


# The tarball


def lay_out_programs(made, prefix, compressed=False):
    """Copies the programs, their manual pages and completions below a prefix."""
    for name in PROGRAMS:
        copy(made.programs[name], f"{prefix}/bin/{name}", 0o755)
        page = f"{prefix}/share/man/man1/{name}.1"
        if compressed:
            put(f"{page}.gz", zipped(read(f"{TOP}/man/{name}.1")))
        else:
            copy(f"{TOP}/man/{name}.1", page)
    for name, place in COMPLETIONS.items():
        copy(f"{TOP}/completions/{name}", f"{prefix}/{place}")


def zipped(text):
    """A text by gzip, without a time."""
    return gzip.compress(text.encode("utf-8"), mtime=0)


def tarball(made, out):
    """Makes the tarball of the programs, with a script that installs them, and returns its name."""
    name = f"ig-{made.version}-x86_64-linux"
    with tempfile.TemporaryDirectory() as room:
        lay_out_programs(made, f"{room}/{name}")
        for it in LICENCES:
            copy(f"{TOP}/{it}", f"{room}/{name}/share/doc/ig-proved/{it}")
        put(f"{room}/{name}/install.sh", INSTALL, 0o755)
        with open(f"{out}/{name}.tar.gz", "wb") as file:
            with gzip.GzipFile("", "wb", 9, file, epoch()) as packed:
                pack_tar(room, packed)
    return f"{name}.tar.gz"


def pack_tar(folder, file):
    """Writes what is in a folder as a tar, without owners, with one time."""
    when = epoch()
    with tarfile.open(fileobj=file, mode="w|", format=tarfile.USTAR_FORMAT) as archive:
        for name in files_below(folder):
            info = archive.gettarinfo(f"{folder}/{name}", name)
            info.mtime, info.uid, info.gid, info.uname, info.gname = when, 0, 0, "root", "root"
            info.mode = 0o755 if info.isdir() or info.mode & 0o100 else 0o644
            with open(f"{folder}/{name}" if info.isfile() else os.devnull, "rb") as content:
                archive.addfile(info, content if info.isfile() else None)


# The wheel

METADATA = """\
Metadata-Version: 2.1
Name: ignore-proved
Version: {version}
Summary: Gitignore rules, proved: the rules of ripgrep's crate ignore, by a proved library
License: MIT OR Unlicense
Requires-Python: >=3.9
Classifier: Operating System :: POSIX :: Linux
Classifier: Typing :: Typed
Description-Content-Type: text/markdown
{licences}

{readme}"""
WHEEL = """\
Wheel-Version: 1.0
Generator: tools/release
Root-Is-Purelib: false
Tag: {tag}
"""


def wheel(made, out):
    """Makes the wheel of the Python package, with the library in it, and returns its name."""
    tag = "py3-none-manylinux_{}_{}_x86_64".format(*glibc_of(made.shared))
    package = f"{TOP}/bindings/python/ignore_proved"
    info = f"ignore_proved-{made.version}.dist-info"
    files = {}
    for name in files_below(package):
        if name.endswith((".py", ".typed")):
            with open(f"{package}/{name}", "rb") as file:
                files[f"ignore_proved/{name}"] = file.read()
    with open(made.shared, "rb") as file:
        files["ignore_proved/libignore_proved.so"] = file.read()
    readme = read(f"{TOP}/bindings/README.md")
    said = "\n".join(f"License-File: {it}" for it in LICENCES)
    texts = {it: read(f"{TOP}/{it}") for it in LICENCES}
    texts["METADATA"] = METADATA.format(version=made.version, licences=said, readme=readme)
    texts["WHEEL"] = WHEEL.format(tag=tag)
    files.update({f"{info}/{it}": text.encode("utf-8") for it, text in texts.items()})
    rows = [f"{name},sha256={sum_of(data)},{len(data)}\n" for name, data in sorted(files.items())]
    files[f"{info}/RECORD"] = "".join([*rows, f"{info}/RECORD,,\n"]).encode("utf-8")
    name = f"ignore_proved-{made.version}-{tag}.whl"
    pack_zip(files, f"{out}/{name}")
    return name


def sum_of(data):
    """A checksum as a wheel writes it."""
    return base64.urlsafe_b64encode(hashlib.sha256(data).digest()).rstrip(b"=").decode("ascii")


def pack_zip(files, path):
    """Writes files, by their names, as a zip with one time; RECORD comes last."""
    when = time.gmtime(max(epoch(), 315532800))[:6]
    with zipfile.ZipFile(path, "w") as whole:
        for name in sorted(files, key=lambda it: (it.endswith("/RECORD"), it)):
            info = zipfile.ZipInfo(name, when)
            info.external_attr = (0o100755 if name.endswith(".so") else 0o100644) << 16
            info.create_system = 3
            whole.writestr(info, files[name], zipfile.ZIP_DEFLATED, 9)


# The Debian packages

CONTROL = """\
Package: {name}
Version: {version}
Architecture: amd64
Maintainer: {maintainer}
Installed-Size: {size}
Depends: libc6 (>= {glibc})
Section: {section}
Priority: optional
Description: {short}
{long}"""
COPYRIGHT = """\
Format: https://www.debian.org/doc/packaging-manuals/copyright-format/1.0/
Upstream-Name: ignore_proved

Files: *
Copyright: the authors of ignore_proved; of the crate ignore: Andrew Gallant
License: MIT or Unlicense
{text}
"""
CHANGELOG = """\
{name} ({version}) unstable; urgency=medium

  * CHANGELOG.md of the repository has what changed.

 -- {maintainer}  {date}
"""
#: Why tags of lintian don't apply.
OVERRIDES = {
    "ig-proved": """\
# These are the bytes that the gate proved and tried, by their checksums: nothing is stripped.
ig-proved: unstripped-binary-or-object
""",
    "libignore-proved": """\
# One package has the library and what a program is compiled with.
libignore-proved: non-dev-pkg-with-shlib-symlink
libignore-proved: package-name-doesnt-match-sonames libignore-proved1
""",
}
PC = """\
prefix=/usr
includedir=${{prefix}}/include
libdir=${{prefix}}/lib/{triplet}

Name: ignore_proved
Description: Gitignore rules, proved
Version: {version}
Cflags: -I${{includedir}}
Libs: -L${{libdir}} -lignore_proved
"""


def deb_of_programs(made, out):
    """Makes the Debian package of the programs, and returns its name."""
    with tempfile.TemporaryDirectory() as root:
        lay_out_programs(made, f"{root}/usr", compressed=True)
        zsh = f"{root}/usr/share/zsh"
        os.rename(f"{zsh}/site-functions", f"{zsh}/vendor-completions")
        files = [made.programs[name] for name in PROGRAMS]
        return pack_deb(made, "ig-proved", "utils", root, files, out)


def deb_of_library(made, out):
    """Makes the Debian package of the library for C, and returns its name."""
    major = made.version.split(".")[0]
    with tempfile.TemporaryDirectory() as root:
        folder = f"{root}/usr/lib/{TRIPLET}"
        name = f"libignore_proved.so.{made.version}"
        copy(made.shared, f"{folder}/{name}")
        run("strip", "--strip-unneeded", "--remove-section=.comment", f"{folder}/{name}")
        os.symlink(name, f"{folder}/libignore_proved.so.{major}")
        os.symlink(name, f"{folder}/libignore_proved.so")
        copy(f"{made.library}/libignore_proved.a", f"{folder}/libignore_proved.a")
        copy(f"{made.library}/ignore_proved.h", f"{root}/usr/include/ignore_proved.h")
        config = PC.format(version=made.version, triplet=TRIPLET)
        put(f"{folder}/pkgconfig/ignore_proved.pc", config)
        put(f"{root}/DEBIAN/triggers", "activate-noawait ldconfig\n")
        shlibs = f"libignore_proved {major} libignore-proved (>= {made.version})\n"
        put(f"{root}/DEBIAN/shlibs", shlibs)
        return pack_deb(made, "libignore-proved", "libs", root, [made.shared], out)


def pack_deb(made, name, section, root, files, out):
    """Makes a Debian package of what lies below a root, and returns its name."""
    doc = f"{root}/usr/share/doc/{name}"
    licences = "".join(read(f"{TOP}/{it}") for it in LICENCES)
    text = "\n".join(f" {line}" if line.strip() else " ." for line in licences.splitlines())
    put(f"{doc}/copyright", COPYRIGHT.format(text=text))
    date = time.strftime("%a, %d %b %Y %H:%M:%S +0000", time.gmtime(epoch()))
    said = {"name": name, "version": made.version, "maintainer": maintainer()}
    said["date"] = date
    put(f"{doc}/changelog.gz", gzip.compress(CHANGELOG.format(**said).encode(), 9, mtime=0))
    put(f"{root}/usr/share/lintian/overrides/{name}", OVERRIDES[name])
    sums, size = "", 0
    for path in files_below(root):
        whole = f"{root}/{path}"
        if os.path.isfile(whole) and not os.path.islink(whole) and not path.startswith("DEBIAN"):
            with open(whole, "rb") as file:
                sums += f"{hashlib.md5(file.read()).hexdigest()}  {path}\n"
            size += os.path.getsize(whole)
    put(f"{root}/DEBIAN/md5sums", sums)
    said.update(section=section, short=SHORT, long=LONG[name], size=size // 1024 + 1)
    glibc = "{}.{}".format(*glibc_of(*files))
    put(f"{root}/DEBIAN/control", CONTROL.format(glibc=glibc, **said))
    for path in ["", *files_below(root)]:
        if os.path.isdir(f"{root}/{path}") and not os.path.islink(f"{root}/{path}"):
            os.chmod(f"{root}/{path}", 0o755)
    package = f"{name}_{made.version}_amd64.deb"
    env = {**os.environ, "SOURCE_DATE_EPOCH": str(epoch())}
    words = ["--root-owner-group", "--threads-max=1", "-Zxz", "--build", root, f"{out}/{package}"]
    run("dpkg-deb", *words, env=env)
    return package


# The folders for cargo


def cargo_folders(made, out):
    """Copies the crates for Rust into folders of their own, each with the archive in it, and
    returns their names."""
    names = []
    for folder in ("rust", "ignore"):
        source = f"{TOP}/bindings/{folder}"
        if not os.path.isfile(f"{source}/Cargo.toml"):
            continue
        said = read(f"{source}/Cargo.toml")
        found = [re.search(rf'^{word} = "(.*)"$', said, re.M)[1] for word in ("name", "version")]
        name = "-".join(found)
        for path in files_below(source):
            is_made = path.split("/")[0] in ("target", "Cargo.lock")
            if os.path.isfile(f"{source}/{path}") and not is_made:
                copy(f"{source}/{path}", f"{out}/{name}/{path}")
        copy(f"{made.library}/libignore_proved.a", f"{out}/{name}/libignore_proved.a")
        for it in LICENCES:
            copy(f"{TOP}/{it}", f"{out}/{name}/{it}")
        names.append(name)
    return names


def make_all(made, out):
    """Makes all packages in a folder, and returns their names."""
    makers = [tarball, wheel, deb_of_programs, deb_of_library]
    return [*(maker(made, out) for maker in makers), *cargo_folders(made, out)]
