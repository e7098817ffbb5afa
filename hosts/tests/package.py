"""The release archive that tools/package makes, in an empty prefix: its sums, and the listings of docs/EMBEDDING.md, which pkg-config and CMake
compile from there alone."""
import hashlib
import os
import shutil
from pathlib import Path

from builds import ROOT, call, ended

CMAKE = """cmake_minimum_required(VERSION 3.10)
project(listing C CXX)
find_package(fairexec 0.1.0 EXACT REQUIRED)
add_executable(listing {file})
set_target_properties(listing PROPERTIES C_STANDARD 99 CXX_STANDARD 17)
target_link_libraries(listing PRIVATE fairexec::fairexec)
"""


def installed(room, archive):
    """The prefix, or what is wrong."""
    flag = "--unproved" if archive.name == "libfairexec_unproved.a" else "--library"
    made = call([ROOT / "tools/package", flag, f"{room}/packages"])
    if made.returncode:
        return None, made.stdout
    file, = Path(f"{room}/packages").glob("*.tar.gz")
    total, name = Path(f"{file}.sha256").read_text().split()
    if (total, name) != (hashlib.sha256(file.read_bytes()).hexdigest(), file.name):
        return None, f"the sum of {file.name} is wrong"
    prefix = Path(f"{room}/prefix")
    prefix.mkdir()
    said = call(["tar", "-xzf", file, "--strip-components=1", "-C", prefix])
    return (prefix, "") if said.returncode == 0 else (None, said.stdout)


def sums(prefix):
    """What SHA256SUMS doesn't say of the files that are there."""
    said = dict(reversed(line.split("  ", 1)) for line in (prefix / "share/doc/fairexec/SHA256SUMS").read_text().splitlines())
    there = {str(it.relative_to(prefix)): hashlib.sha256(it.read_bytes()).hexdigest() for it in prefix.rglob("*") if it.is_file() and not it.is_symlink()}
    there = {name: it for name, it in there.items() if not name.startswith("share/fairexec/out/")}
    return sorted({name for name, _ in set(said.items()) ^ set(there.items())} - {"share/doc/fairexec/SHA256SUMS"})


def by_pkg_config(room, prefix, language, text):
    file, to = Path(f"{room}/by_pkg_config.{language}"), f"{room}/by_pkg_config_{language}"
    file.write_text(text)
    flags = call(["pkg-config", "--cflags", "--libs", "fairexec"], env={**os.environ, "PKG_CONFIG_LIBDIR": f"{prefix}/lib/pkgconfig"})
    compiler = {"c": ["cc", "-std=c99"], "cpp": ["c++", "-std=c++17"]}[language]
    made = flags if flags.returncode else call([*compiler, "-Wall", "-Werror", file, *flags.stdout.split(), "-o", to])
    return made if made.returncode else call([to])


def by_cmake(room, prefix, language, text):
    folder = Path(f"{room}/by_cmake_{language}")
    folder.mkdir()
    (folder / f"listing.{language}").write_text(text)
    (folder / "CMakeLists.txt").write_text(CMAKE.format(file=f"listing.{language}"))
    for words in (["-S", folder, "-B", folder / "out", f"-DCMAKE_PREFIX_PATH={prefix}"], ["--build", folder / "out"]):
        made = call(["cmake", *words])
        if made.returncode:
            return made
    return call([folder / "out/listing"])


HOW = {"c": [("pkg-config", by_pkg_config), ("cmake", by_cmake)], "cpp": [("pkg-config", by_pkg_config), ("cmake", by_cmake)]}


def tasks_of_package(room, archive, listings, wanted):
    """One task: the others need the prefix."""
    room = f"{room}/package"
    Path(room).mkdir()

    def task():
        what = "the release archive of tools/package"
        prefix, wrong = installed(room, archive)
        if prefix is None:
            return f"{what}: {wrong.strip()}" if "isn't made from these sources" in wrong else (what, wrong, "")
        found = {"sums": sums(prefix)}
        changed = prefix / "include/fairexec.h"
        text = changed.read_text()
        changed.write_text(text + "\n")
        found["a file that is changed"] = sums(prefix)
        changed.write_text(text)
        expected = {"sums": [], "a file that is changed": ["include/fairexec.h"]}
        for language, ways in HOW.items():
            for tool, build in ways:
                if not shutil.which(tool):
                    return f"{what}: there is no {tool}"
                name = f"the listing in {language} by {tool}"
                said = build(room, prefix, language, listings[language][-1])
                found[name], expected[name] = (ended(said), said.stdout), (0, wanted[language][-1])
        return what, found, expected

    return [task]
