"""What tools/against_kernel boots: Debian's kernel, its modules, dm-dust, dmsetup and the guest's
program.

All of it is made in one folder of $DMLAB_KERNEL_CACHE or ~/.cache/dmlab/kernel, and kept there.
Nothing is installed, and no device of the host is touched. The packages come from Debian by
apt-get, which checks their signatures, with lists and settings of its own in that folder. dm-dust,
which Debian doesn't build, is compiled from Debian's kernel source.
"""

from __future__ import annotations

import contextlib
import fcntl
import hashlib
import lzma
import os
import platform
import re
import shutil
import subprocess
from typing import Any, Callable, Dict, Iterator, Tuple

TOOLS = os.path.dirname(os.path.abspath(__file__))
# How the folder is filled; it gets another number with another way, so that no two ways share one
# folder.
WAY = "1"
CACHE = os.path.abspath(
    os.environ.get("DMLAB_KERNEL_CACHE") or os.path.expanduser("~/.cache/dmlab/kernel")
)
CACHE = os.path.join(CACHE, WAY)
FOLDERS = ("apt", "packages", "kernel", "guest", "qemu", "dust", "fio")
KEYS = "/usr/share/keyrings/debian-archive-keyring.gpg"
SUITES = ("bookworm", "bookworm-backports")
SERIES = "6.12"
# The modules, each behind those that it needs, with the words it is given. 253 is the number that
# dmlab tells.
MODULES = (
    ("fs/configfs/configfs", ""),
    ("drivers/block/null_blk/null_blk", "nr_devices=0"),
    ("drivers/md/dm-mod", "major=253"),
    ("drivers/md/dm-zero", ""),
    ("drivers/md/dm-flakey", ""),
    ("drivers/md/dm-delay", ""),
)
NEEDED = ("apt-get", "dpkg-deb", "gcc", "make", "tar", "xz")

# Files by name: the bytes of each, and whether it is a program.
Files = Dict[str, Tuple[bytes, bool]]


class Missing(Exception):
    """What the host lacks, or what went wrong in a step, in words for the user."""


def at(*names: str) -> str:
    """A path in the cache."""
    return os.path.join(CACHE, *names)


def run(words: list[str], step: str, **more: Any) -> str:
    """Runs a program and gives its output; where it fails, its last lines are told."""
    done = subprocess.run(
        words, stdout=subprocess.PIPE, stderr=subprocess.STDOUT, text=True, check=False, **more
    )
    if done.returncode != 0:
        raise Missing(f"{step}: {words[0]} failed\n" + "\n".join(done.stdout.splitlines()[-8:]))
    return done.stdout


def write(path: str, text: str) -> None:
    """A file in the cache, and the folders above it."""
    os.makedirs(os.path.dirname(path), exist_ok=True)
    with open(path, "w", encoding="ascii") as file:
        file.write(text)


def apt(program: str, *words: str) -> str:
    """apt with lists and settings of its own, which finds nothing installed and installs nothing."""
    return run(
        [program, "-c", at("apt", "conf"), *words],
        "fetching Debian's packages",
        cwd=at("packages"),
    )


def host_source() -> str:
    """Where the host's own apt takes Debian's packages from."""
    words = [
        "apt-get",
        "indextargets",
        "--format",
        "$(RELEASE) $(REPO_URI)",
        "Created-By: Packages",
    ]
    for line in run(words, "asking apt for the host's sources").splitlines():
        suite, _, place = line.partition(" ")
        if suite == SUITES[0]:
            return place
    raise Missing(f"apt has no source of Debian's {SUITES[0]} on this host")


def write_settings() -> None:
    """The settings of apt: its own folders, Debian's two suites from where the host takes them, and
    none of the host's commands behind an update.
    """
    settings = {
        "Dir::State": at("apt", "state"),
        "Dir::State::status": at("apt", "status"),
        "Dir::Cache": at("apt", "cache"),
        "Dir::Etc::sourcelist": at("apt", "sources.list"),
        "Dir::Etc::sourceparts": "-",
        "Dir::Etc::preferences": "-",
        "Dir::Etc::preferencesparts": "-",
        "APT::Sandbox::User": "",
        "APT::Architecture": "amd64",
        "APT::Install-Recommends": "0",
    }
    hooks = (
        "APT::Update::Pre-Invoke",
        "APT::Update::Post-Invoke",
        "APT::Update::Post-Invoke-Success",
        "DPkg::Pre-Install-Pkgs",
        "DPkg::Post-Invoke",
    )
    write(
        at("apt", "conf"),
        "".join(
            [
                *(f'{name} "{value}";\n' for name, value in settings.items()),
                *(f"#clear {hook};\n" for hook in hooks),
            ]
        ),
    )
    place = host_source()
    write(
        at("apt", "sources.list"),
        "".join(f"deb [signed-by={KEYS}] {place} {suite} main\n" for suite in SUITES),
    )
    write(at("apt", "status"), "")


def update_lists() -> None:
    """Fetches the lists of Debian's packages."""
    for folder in ("apt/state/lists/partial", "apt/cache/archives/partial", "packages"):
        os.makedirs(at(folder), exist_ok=True)
    write_settings()
    apt("apt-get", "-q", "update")


def newest_kernel() -> str:
    """The newest version of the series that has a source, such as 6.12.95+deb12."""
    told = apt("apt-cache", "show", f"linux-source-{SERIES}")
    found = re.search(rf"^Version: ({re.escape(SERIES)}\.[0-9]+)-", told, re.M)
    if not found:
        raise Missing(f"Debian has no linux-source-{SERIES} any more")
    return found.group(1) + "+deb12"


def unpack(name: str, folder: str) -> None:
    """Unpacks the package of a name that was fetched."""
    for file in os.listdir(at("packages")):
        if file.startswith(name + "_") and file.endswith(".deb"):
            run(["dpkg-deb", "-x", at("packages", file), at(folder)], f"unpacking {name}")


def fetch_kernel(release: str) -> None:
    """Fetches and unpacks the kernel, its headers and what their programs need, and fetches the
    kernel's source.
    """
    names = [
        f"linux-image-{release}-amd64",
        f"linux-headers-{release}-amd64",
        f"linux-headers-{release}-common",
        f"linux-kbuild-{release}",
        "libelf1",
        "zlib1g",
    ]
    apt("apt-get", "-q", "download", *names, f"linux-source-{SERIES}")
    for name in names:
        unpack(name, "kernel")


def fetch_program(package: str, folder: str) -> None:
    """Fetches and unpacks a program with all that it needs, its C library too, so that any host
    can run it.
    """
    archives = at("apt", "cache", "archives")
    apt("apt-get", "-q", "-y", "--download-only", "install", package)
    for file in sorted(os.listdir(archives)):
        if file.endswith(".deb"):
            run(["dpkg-deb", "-x", os.path.join(archives, file), at(folder)], f"unpacking {file}")
            os.remove(os.path.join(archives, file))


def take_source(name: str) -> None:
    """Takes one file out of the kernel's source."""
    package = next(file for file in os.listdir(at("packages")) if file.startswith("linux-source-"))
    os.makedirs(at("dust"), exist_ok=True)
    inner = f"./usr/src/linux-source-{SERIES}.tar.xz"
    steps = (
        f"dpkg-deb --fsys-tarfile '{at('packages', package)}' | tar -xO {inner} |"
        f" tar -xJO --occurrence=1 linux-source-{SERIES}/{name} > '{at('dust', os.path.basename(name))}'"
    )
    subprocess.run(["sh", "-c", steps], stderr=subprocess.DEVNULL, check=False)
    if os.path.getsize(at("dust", os.path.basename(name))) == 0:
        raise Missing(f"linux-source-{SERIES} has no {name}")


def build_dust(release: str) -> None:
    """Compiles dm-dust, unchanged, against the kernel's headers."""
    take_source("drivers/md/dm-dust.c")
    headers = at("kernel", "usr", "src", f"linux-headers-{release}-amd64")
    common = at("kernel", "usr", "src", f"linux-headers-{release}-common")
    write(os.path.join(headers, "Makefile"), f"include {common}/Makefile\n")
    write(at("dust", "Makefile"), "obj-m := dm-dust.o\n")
    run(
        [
            "make",
            "-C",
            headers,
            f"M={at('dust')}",
            "CC=gcc",
            "CONFIG_DEBUG_INFO_BTF_MODULES=",
            "modules",
        ],
        "compiling dm-dust",
        env={**os.environ, "LD_LIBRARY_PATH": library_path("kernel")},
    )


def library_path(folder: str) -> str:
    """Where the libraries of an unpacked folder are."""
    places = ("lib/x86_64-linux-gnu", "usr/lib/x86_64-linux-gnu", "usr/lib/x86_64-linux-gnu/ceph")
    return ":".join(at(folder, place) for place in places)


def loader(folder: str) -> list[str]:
    """The words that run a program of an unpacked folder with that folder's own libraries."""
    return [at(folder, "lib64/ld-linux-x86-64.so.2"), "--library-path", library_path(folder)]


def libraries(folder: str, program: str) -> list[str]:
    """The files of the libraries that a program of an unpacked folder needs."""
    listed = run(
        [*loader(folder), "--list", at(folder, program)], f"listing the libraries of {program}"
    )
    return re.findall(r"=> (\S+) \(", listed)


def entry(name: str, mode: int, body: bytes = b"") -> bytes:
    """A file or folder of an archive in cpio's format newc."""
    words = name.encode() + b"\0"
    fields = (0, mode, 0, 0, 1, 0, len(body), 0, 0, 0, 0, len(words), 0)
    head = b"070701" + b"".join(b"%08x" % field for field in fields) + words
    return head + b"\0" * (-len(head) % 4) + body + b"\0" * (-len(body) % 4)


def archive(files: Files) -> bytes:
    """A cpio archive of files by name: the bytes of each, and whether it is a program. Folders
    come by themselves.
    """
    folders = sorted(
        {
            "/".join(name.split("/")[:depth])
            for name in files
            for depth in range(1, name.count("/") + 1)
        }
    )
    parts = [entry(folder, 0o040755) for folder in folders]
    parts += [
        entry(name, 0o100755 if is_program else 0o100644, body)
        for name, (body, is_program) in files.items()
    ]
    return b"".join(parts) + entry("TRAILER!!!", 0)


def content(path: str) -> bytes:
    """The bytes of a file, those behind its compression where it ends in .xz."""
    if path.endswith(".xz"):
        with lzma.open(path) as packed:
            return packed.read()
    with open(path, "rb") as file:
        return file.read()


def module_files(release: str) -> Files:
    """The modules and the list of them that the guest's program reads."""
    folder = at("kernel", "lib", "modules", f"{release}-amd64", "kernel")
    files, lines = {}, []
    for name, words in MODULES:
        base = os.path.basename(name)
        files[f"modules/{base}.ko"] = (content(os.path.join(folder, name + ".ko.xz")), False)
        lines.append(f"/modules/{base}.ko {words}".strip() + "\n")
    files["modules/dm-dust.ko"] = (content(at("dust", "dm-dust.ko")), False)
    files["modules/list"] = ("".join([*lines, "/modules/dm-dust.ko\n"]).encode(), False)
    return files


def guest_files() -> Files:
    """dmsetup, its libraries and folders to mount on."""
    files = {"sbin/dmsetup": (content(at("guest", "sbin", "dmsetup")), True)}
    for path in libraries("guest", "sbin/dmsetup"):
        files["lib/x86_64-linux-gnu/" + os.path.basename(path)] = (content(path), True)
        if "ld-linux" in path:
            files["lib64/ld-linux-x86-64.so.2"] = (content(path), True)
    for folder in ("dev", "proc", "sys", "tmp"):
        files[folder + "/.here"] = (b"", False)
    return files


def build_init() -> bytes:
    """Compiles the guest's program, which needs no library, unless it is compiled already."""
    names = ("kernel_guest.c", "kernel_logs.c", "kernel_digest.c", "kernel_guest.h")
    sources = [os.path.join(TOOLS, name) for name in names]
    digest = hashlib.sha256(b"".join(map(content, sources))).hexdigest()
    path = at(f"init.{digest[:16]}")
    if not os.path.exists(path):
        words = ["gcc", "-O2", "-Wall", "-static", "-pthread", "-o", path + ".new", *sources[:3]]
        run(words, "compiling the guest's program")
        os.rename(path + ".new", path)
    return content(path)


def image() -> bytes:
    """The archive that every boot begins with."""
    with locked():
        release = content(at("made")).decode().strip()
        return archive({"init": (build_init(), True), **guest_files(), **module_files(release)})


def qemu() -> list[str]:
    """The words that start QEMU: the host's, or Debian's with its own libraries."""
    found = shutil.which("qemu-system-x86_64")
    if found:
        return [found]
    data = [at("qemu", "usr/share", name) for name in ("qemu", "seabios")]
    options = [word for folder in data for word in ("-L", folder)]
    return [*loader("qemu"), at("qemu", "usr/bin/qemu-system-x86_64"), *options]


def qemu_environment() -> dict[str, str]:
    """The environment in which QEMU finds its own parts."""
    modules = at("qemu", "usr/lib/x86_64-linux-gnu/qemu")
    return (
        {**os.environ, "QEMU_MODULE_DIR": modules} if os.path.isdir(modules) else dict(os.environ)
    )


@contextlib.contextmanager
def locked() -> Iterator[None]:
    """While this lasts no other run changes the folder."""
    os.makedirs(CACHE, exist_ok=True)
    with open(at("lock"), "w", encoding="ascii") as file:
        fcntl.flock(file, fcntl.LOCK_EX)
        yield


def look_at_host() -> None:
    """Tells what the host lacks, if it lacks something."""
    lacking = [name for name in NEEDED if not shutil.which(name)]
    if not os.path.exists(KEYS):
        lacking.append(f"{KEYS} of the package debian-archive-keyring")
    if lacking:
        raise Missing(f"the host has no {', '.join(lacking)}")
    if platform.machine() != "x86_64":
        raise Missing(
            f"the host is of {platform.machine()}, and the guest's program is compiled for x86_64"
        )
    if not re.fullmatch(r"[A-Za-z0-9_./+-]+", CACHE):
        raise Missing(
            f"make takes no folder with such a name: {CACHE}; DMLAB_KERNEL_CACHE may name another"
        )


def forget_packages() -> None:
    """Takes away what was fetched, once it is unpacked."""
    for folder in ("apt", "packages"):
        shutil.rmtree(at(folder), ignore_errors=True)


def fetch(say: Callable[[str], None]) -> None:
    """Fetches, unpacks and compiles all from nothing."""
    look_at_host()
    for folder in FOLDERS:
        shutil.rmtree(at(folder), ignore_errors=True)
    say("fetching Debian's lists")
    update_lists()
    release = newest_kernel()
    say(f"fetching Linux {release} and its source, about 275 MB")
    fetch_kernel(release)
    fetch_program("dmsetup", "guest")
    if not shutil.which("qemu-system-x86_64"):
        say("fetching QEMU, about 45 MB")
        fetch_program("qemu-system-x86", "qemu")
    say("compiling dm-dust")
    build_dust(release)
    shutil.copy(at("kernel", "boot", f"vmlinuz-{release}-amd64"), at("vmlinuz"))
    forget_packages()
    write(at("made"), release + "\n")


def unpack_kernel() -> None:
    """Unpacks the kernel, where the host has zstd, so that the guest needn't at each boot."""
    packed = content(at("vmlinuz"))
    start = packed.find(b"\x28\xb5\x2f\xfd")
    if start < 0 or not shutil.which("zstd"):
        return
    # Behind the kernel's end zstd finds what it doesn't know, and fails.
    done = subprocess.run(
        ["zstd", "-dc"], input=packed[start:], capture_output=True, check=False
    ).stdout
    if done.startswith(b"\x7fELF"):
        with open(at("vmlinux.new"), "wb") as file:
            file.write(done)
        os.rename(at("vmlinux.new"), at("vmlinux"))


def kernel() -> str:
    """The kernel that is booted: unpacked if it could be."""
    return at("vmlinux") if os.path.exists(at("vmlinux")) else at("vmlinuz")


def prepare(say: Callable[[str], None]) -> None:
    """Makes what isn't there yet."""
    with locked():
        if not os.path.exists(at("made")):
            fetch(say)
        if not os.path.exists(at("vmlinux")):
            unpack_kernel()
