"""The tarball, the Debian packages and the wheel are made twice, compared, unpacked and installed into empty folders,
and the programs run there. All of it happens in a copy of the repository (support/installed.py)."""
import email
import gzip
import hashlib
import io
import json
import os
import pathlib
import re
import shutil
import subprocess
import sys
import tarfile
import tomllib
import zipfile
from typing import Any, NamedTuple

import pytest
from support.installed import (BETWEEN, LIBRARY, NEW, OLD, PLACES, PROGRAM, SHARED, VERSION, VERSIONED, Copy,
                               assert_completions_are_found, assert_runs, assert_same_files, assert_usual_modes,
                               contents_of)
from support.needs import require_module, tool
from support.tools import TOP, Done, imported, output_of, run_tool, write_script

# so that the copy and the packages are made once
pytestmark = [pytest.mark.xdist_group("packages"), pytest.mark.seconds(60)]
LIBPFS = SHARED.replace(".so.", "")
PACKAGES = ["pfs", LIBPFS, "libpfs-dev", "python3-pfs"]
DEBIAN_PAGES = {"copyright", "changelog.gz", "changelog.Debian.gz"}
LIBRARIES = "usr/lib/x86_64-linux-gnu"
MODULES = "usr/lib/python3/dist-packages"
PROGRAMS = ["pfs-experiments", "pfs-gantt", "pfs-plan", "pfs-web"]
INSTALL = (TOP / "docs" / "INSTALL.md").read_text()
SYMBOLS = (TOP / "debian" / f"{LIBPFS}.symbols").read_text()
WHEEL = f"pfs-{BETWEEN.replace('.014640', '.14640')}-py3-none-linux_x86_64.whl"
# What is made, in the order in which it is printed.
NAMES = [f"pfs-{BETWEEN}-linux-x86_64.tar.gz",
         *(f"{package}_{BETWEEN}-1_{'all' if 'python' in package else 'amd64'}.deb"
           for package in ("libpfs-dev", LIBPFS, "pfs", "python3-pfs")),
         "Packages", "Release", "Containerfile", WHEEL, f"pfs-{BETWEEN}.spdx.json", "SHA256SUMS"]
NOTED = f"tools/dist: this isn't the release {VERSION}, which has the tag v{VERSION}: it becomes {BETWEEN}\n"


class Made(NamedTuple):
    """What `make dist` has made, and of what."""
    folder: pathlib.Path
    copy: Copy

    def path(self, part: str) -> pathlib.Path:
        """The one file whose name has this part, or begins with it after a slash."""
        [path] = [path for path in self.folder.iterdir() if part in f"/{path.name}"]
        return path


def line_of_install(pattern: str) -> str:
    return str(re.findall(pattern, INSTALL, re.MULTILINE)[0])


@pytest.fixture(scope="module")
def made(copy: Copy, tmp_path_factory: pytest.TempPathFactory) -> Made:
    for command in ("apt-ftparchive", "dh", "dh_python3", "dpkg-buildpackage"):
        tool(command)
    folder = tmp_path_factory.mktemp("first")
    assert copy.make("dist", f"DIST={folder}") == Done(0, "".join(f"{folder}/{name}\n" for name in NAMES), NOTED)
    return Made(folder, copy)


@pytest.fixture(scope="module")
def extracted(made: Made, tmp_path_factory: pytest.TempPathFactory) -> pathlib.Path:
    """A root with the content of all packages."""
    folder = tmp_path_factory.mktemp("extracted")
    for package in PACKAGES:
        output_of(["dpkg-deb", "--extract", made.path(f"/{package}_"), "."], folder)
    return folder


def test_made_again_all_has_the_same_bytes_and_is_signed(made: Made, tmp_path_factory: pytest.TempPathFactory) -> None:
    """Later, from newer sources, with another umask, language, Python and folder, from which what an earlier version
    listed is removed, and the signature. The page's lines accept the sums and the signature, and reject others."""
    folder, top = tmp_path_factory.mktemp("second é b"), made.copy.top
    (folder / "SHA256SUMS").write_text(f"{'0' * 64}  pfs_0.deb\n{'0' * 64}  ../second.txt\n")
    kept = [folder / "mine", folder.with_name("second.txt")]
    for path in (folder / "SHA256SUMS.asc", folder / "pfs_0.deb", *kept):
        path.touch()
    output_of([tool("ssh-keygen"), "-q", "-t", "ed25519", "-N", "", "-f", "key"], folder.parent)
    write_script(folder.parent / "bin" / "python3", "#!/bin/sh\nexit 9\n")
    env = made.copy.env | {"SIGN": f"{folder.parent}/key", "TZ": "Asia/Tokyo", "LC_ALL": "C.UTF-8",
                           "TMPDIR": str(folder.parent), "PATH": f"{folder.parent}/bin:{made.copy.env['PATH']}"}
    old = os.umask(0o077)
    os.utime(top / "crates.txt", (NEW + 1, NEW + 1))
    made.copy.built()
    try:
        got = run_tool([top / "tools" / "dist", folder], folder.parent, env=env)
    finally:
        os.umask(old)
        os.utime(top / "crates.txt", (OLD, OLD))
    assert got == Done(0, "".join(f"{folder}/{name}\n" for name in (*NAMES, "SHA256SUMS.sig")), NOTED)
    assert made.copy.built() == [] and kept[1].exists()
    sums = [{path.name: hashlib.sha256(path.read_bytes()).hexdigest() for path in each.iterdir()}
            for each in (made.folder, folder)]
    assert sums[1].pop("SHA256SUMS.sig") and sums[1].pop("mine")
    assert sums[0] == sums[1] and sorted(sums[0]) == sorted(NAMES)
    (folder / "signers").write_text(f"pfs {(folder.parent / 'key.pub').read_text()}")
    lines = ["ssh-keygen -Y verify .*$", "sha256sum --check .*$"]
    for line in lines:
        output_of(["bash", "-c", line_of_install(f"^{line}")], folder)
    listed = (folder / "SHA256SUMS").read_text()
    assert re.findall("  (.*)\n", listed) == NAMES[:-1]
    (folder / "SHA256SUMS").write_text(listed.replace("a", "b"))
    for line in lines:
        assert run_tool(["bash", "-c", line_of_install(f"^{line}")], folder).status != 0


def test_the_sums_are_signed_by_gnupg(top: pathlib.Path, folder: pathlib.Path, monkeypatch: pytest.MonkeyPatch) -> None:
    gpg = tool("gpg")
    monkeypatch.setenv("GNUPGHOME", str(folder / "home"))
    monkeypatch.setenv("SIGN", "A Tester")
    (folder / "home").mkdir(mode=0o700)
    (folder / "SHA256SUMS").write_text("0123  a file\n")
    try:
        words = [gpg, "--batch", "--quiet", "--passphrase", "", "--quick-generate-key", "A Tester", "ed25519"]
        output_of(words, folder)
        assert imported(top / "tools" / "dist").sign(folder / "SHA256SUMS") == [folder / "SHA256SUMS.asc"]
        line = line_of_install("^gpg --verify .*$")
        output_of(["bash", "-c", line], folder)
        (folder / "SHA256SUMS").write_text("4567  a file\n")
        assert run_tool(["bash", "-c", line], folder).status != 0
    finally:
        run_tool(["gpgconf", "--kill", "all"], folder)


# The version

def source(copy: Copy, top: pathlib.Path, monkeypatch: pytest.MonkeyPatch, **env: str) -> tuple[Any, ...]:
    """What tools/dist of a source tree says of it."""
    monkeypatch.delenv("SOURCE_DATE_EPOCH", raising=False)
    for name, value in (copy.env | env).items():
        monkeypatch.setenv(name, value)
    return tuple(imported(top / "tools" / "dist").source())


def test_a_release_is_its_tagged_commit_without_changes(copy: Copy, folder: pathlib.Path,
                                                        monkeypatch: pytest.MonkeyPatch) -> None:
    """Also in an archive of it, and next to what examples of the pages leave."""
    head, left, who = copy.git("rev-parse", "HEAD"), copy.top / "report", "A Tester <tester@example.org>"
    assert source(copy, copy.top, monkeypatch, TZ="Asia/Tokyo") == (BETWEEN, head, OLD, who)
    copy.git("tag", f"v{VERSION}")
    left.touch()
    folders = ("crates/pfs_base/src", "debian", "docs", "examples", "lib", "python", "share", "tools")
    try:
        assert source(copy, copy.top, monkeypatch) == (VERSION, head, OLD, who)
        for path in (copy.top / "README.md", *(copy.top / each / "another" for each in folders)):
            path.write_text("another text\n")
            assert source(copy, copy.top, monkeypatch) \
                == (BETWEEN, f"{head}, with changes that are not committed", OLD, who), path
            path.unlink() if path.name == "another" else copy.git("checkout", "-q", path.name)
        output_of(["bash", "-c", f"git archive HEAD | tar -x -C {folder}"], copy.top, env=copy.env)
        assert source(copy, folder, monkeypatch) == (VERSION, f"{head}, in a source archive", OLD, who)
        given = source(copy, folder, monkeypatch, MAINTAINER="B <b@host>", SOURCE_DATE_EPOCH="7")
        assert given[2:] == (7, "B <b@host>")
    finally:
        copy.git("tag", "-d", f"v{VERSION}")
        left.unlink()


USAGE = "usage: tools/dist [wheel] [FOLDER]"


@pytest.mark.parametrize(("words", "missing", "env", "said"), [
    ("made", "", {"RT_VERSION": "kit logic 0123456789abcdef"},
     "crates/pfs/out/pfs was built with another version of the kit"),
    ("made", "", {"RT_VERSION": "kit logic 0", "MAINTAINER": "B <b@noreply.host>"}, "MAINTAINER='A Name <name@host>'"),
    ("made", "", {"GIT_CONFIG_COUNT": "0", "GIT_TEST_ASSUME_DIFFERENT_OWNER": "1"},
     "git config --global --add safe.directory"),
    ("made", "", {"GIT_DIR": "/nowhere"}, "not a git repository"), ("made", ".git", {}, "clone the repository"),
    ("made", SHARED, {}, f"lib/out/{SHARED} is missing: run `make run lib`"), ("made other", "", {}, USAGE),
    ("made", "libpfs.a", {}, "lib/out/libpfs.a is missing"), ("--help", "", {}, USAGE),
    ("wheel made b", "", {}, USAGE)])
def test_without_a_commit_or_what_was_built_nothing_is_made(words: str, missing: str, env: dict[str, str], said: str,
                                                            copy: Copy, folder: pathlib.Path) -> None:
    shutil.copytree(copy.top, folder / "tree", ignore=shutil.ignore_patterns("docs", "tests", missing))
    env = copy.env | env | {"HOME": str(folder)}
    got = run_tool([folder / "tree" / "tools" / "dist", *words.split()], folder, env=env)
    assert got.status == 1 and said in got.stderr and list(folder.glob("made/*")) == []


# What is made

def element(name: str, version: str, licence: str, **more: str) -> dict[str, Any]:
    """A package of the SPDX file, of which little is known."""
    unknown = dict.fromkeys(("supplier", "downloadLocation", "copyrightText"), "NOASSERTION")
    return {"SPDXID": f"SPDXRef-{name.replace('_', '-')}", "name": name, "versionInfo": version, **unknown,
            "filesAnalyzed": False, "licenseConcluded": licence, "licenseDeclared": licence, **more}


def test_the_spdx_file_and_the_notices_list_what_is_built_in(made: Made, top: pathlib.Path) -> None:
    kit, wheel, licence = made.copy.env["RT_VERSION"], made.path(".whl"), "MIT OR Apache-2.0"
    crates = {"clap", "itoa", "rand_core", "rand_pcg", "thiserror"}
    packages = [element("pfs", BETWEEN, licence, supplier="Person: A Tester (tester@example.org)",
                        sourceInfo=f"built from the commit {made.copy.git('rev-parse', 'HEAD')}",
                        primaryPackagePurpose="APPLICATION"),
                element("rattle-kit", kit, "NOASSERTION"), element("libc6", ">= 2.34", "NOASSERTION"),
                *(element(crate, f"port in {kit}", licence) for crate in sorted(crates))]
    paths = [made.copy.top / name for name in (PROGRAM, f"lib/out/{SHARED}", "lib/out/libpfs.a")] + [wheel]
    files = [{"SPDXID": f"SPDXRef-file-{path.name}".replace("_", "-").replace("+", "-"), "fileName": f"./{path.name}",
              "checksums": [{"algorithm": name.upper(),
                             "checksumValue": hashlib.new(name, path.read_bytes()).hexdigest()}
                            for name in ("sha1", "sha256")],
              "licenseConcluded": licence, "licenseInfoInFiles": ["NOASSERTION"], "copyrightText": "NOASSERTION"}
             for path in paths]
    bill = json.loads(made.path(".spdx.json").read_text())
    sums = "-".join(hashlib.sha256(path.read_bytes()).hexdigest()[:16] for path in (paths[0], wheel))
    names = {each["SPDXID"]: each.get("fileName", each.get("name")).removeprefix("./") for each in (*packages, *files)}
    links = {(names.get(each["spdxElementId"]), each["relationshipType"], names[each["relatedSpdxElement"]])
             for each in bill.pop("relationships")}
    assert bill == {
        "SPDXID": "SPDXRef-DOCUMENT", "spdxVersion": "SPDX-2.3", "dataLicense": "CC0-1.0", "name": f"pfs-{BETWEEN}",
        "documentNamespace": f"https://spdx.org/spdxdocs/pfs-{BETWEEN}-{sums}", "packages": packages, "files": files,
        "creationInfo": {"created": "2001-09-09T01:46:40Z", "creators": ["Tool: pfs tools/dist"]}}
    assert len(names) == 12 and all(re.fullmatch("SPDXRef-[A-Za-z0-9.-]+", each) for each in names)
    assert links == {(None, "DESCRIBES", "pfs"), ("rattle-kit", "BUILD_TOOL_OF", "pfs"),
                     (wheel.name, "CONTAINS", SHARED), ("pfs", "STATIC_LINK", "clap"),
                     *((each, "GENERATED_FROM", "pfs") for each in ("pfs", SHARED, "libpfs.a", wheel.name)),
                     *((each, "DYNAMIC_LINK", "libc6") for each in ("pfs", SHARED)),
                     *((each, "STATIC_LINK", crate) for each in ("pfs", SHARED, "libpfs.a")
                       for crate in crates - {"clap"})}
    text = (top / "debian" / "copyright").read_text()
    assert {crate for crate in crates if crate not in text} == set()
    licence = (top / "LICENSE-MIT").read_text().split("\n\n", 1)[1]
    assert "".join(f" {line or '.'}\n" for line in licence.splitlines()) in text


def names_in(tar: tarfile.TarFile, owner: str) -> list[str]:
    """What isn't a folder in an archive. All is root's, as old as the commit."""
    members = tar.getmembers()
    assert {(it.uid, it.gid, it.uname, it.gname, it.mtime) for it in members} == {(0, 0, owner, owner, OLD)}
    return [it.name for it in members if not it.isdir()]


def test_the_tarball_has_the_installed_files_runs_and_is_removed(made: Made, folder: pathlib.Path) -> None:
    """With its notices, its sums, and the commit and the kit."""
    assert made.path(".tar.gz").read_bytes().startswith(b"\x1f\x8b\x08\0\0\0\0\0\x02\x03"), "most packed, with no date"
    with tarfile.open(made.path(".tar.gz")) as tar:
        names = [name.split("/") for name in names_in(tar, "")]
        assert names == sorted(names)
        tar.extractall(folder / "all")
    [unpacked] = (folder / "all").iterdir()
    assert_usual_modes(unpacked)
    assert_runs(unpacked / "bin" / "pfs", folder)
    found = contents_of(unpacked)
    sums = found.pop("share/doc/pfs/SHA256SUMS").decode().splitlines()
    assert sums == [f"{hashlib.sha256(found[path]).hexdigest()}  {path}" for path in sorted(found)]
    assert found.pop("share/doc/pfs/PROVED").decode() == (
        f"pfs {BETWEEN}\nproved at the commit {made.copy.git('rev-parse', 'HEAD')}\n"
        f"with the kit {made.copy.env['RT_VERSION']}\n")
    assert found.pop("share/doc/pfs/NOTICES") == (made.copy.top / "debian" / "copyright").read_bytes()
    assert found.pop(VERSIONED[0]).decode().startswith("prefix=${pcfiledir}/../..\n") and found.pop(VERSIONED[1])
    assert_same_files(found, {place: (made.copy.top / file).read_bytes() for place, file in (PLACES | LIBRARY).items()})
    local = folder / "usr" / "local"
    for name in ("bin", "include", "lib", "man", "share"):
        (local / name).mkdir(parents=True)
    (local / "share").chmod(0o2775)
    (local / "share" / "man").symlink_to("../man")
    before = sorted(local.rglob("*"))
    for pattern in ("^sudo tar .*$", r"^cd .*share/doc/pfs/SHA256SUMS .*\n.*$"):
        line = line_of_install(pattern)
        assert "/usr/local" in line
        output_of(["bash", "-c", line.replace("sudo ", "").replace("/usr/local", str(local))], made.folder)
        assert (local / "share" / "man").is_symlink() and (local / "share").stat().st_mode & 0o7777 == 0o2775
        assert ((local / "man" / "man1" / "pfs.1").exists()) == ("tar" in pattern[:12])
    assert sorted(local.rglob("*")) == before


# Which files a package has, by their paths; `pfs` has all others.
HELD = {LIBPFS: rf"{LIBRARIES}/{SHARED}", "libpfs-dev": rf"usr/include/|{LIBRARIES}/|usr/share/man/man3/",
        "python3-pfs": r"usr/bin/pfs-|(usr/)?lib/|usr/share/man/man1/pfs-|usr/share/bash-completion/completions/pfs-"}


def holder_of(name: str) -> str:
    """The package that has this file, by its name if it is about the package."""
    about = re.match(r"usr/share/(?:doc|lintian/overrides)/([^/]+)", name)
    return about[1] if about else next((each for each, found in HELD.items() if re.match(found, name)), "pfs")


def test_the_packages_have_their_files_where_debian_looks(extracted: pathlib.Path, made: Made) -> None:
    """With the bytes that were built, packed manual pages and changelogs, and the licences in the file copyright."""
    places = {f"usr/{place}": file for place, file in (PLACES | LIBRARY).items()
              if "LICENSE" not in place}
    places = {path.replace("usr/lib/", f"{LIBRARIES}/").replace("zsh/site-functions", "zsh/vendor-completions"): file
              for path, file in places.items()}
    pages = "usr/share/doc/python3-pfs"
    places |= {f"usr/share/man/man1/{name}.1": f"python/{name}.1" for name in PROGRAMS} \
        | {f"{pages}/README.md": "python/README.md", "lib/systemd/system/pfs-web.service": "debian/pfs-web.service"} \
        | {f"usr/share/lintian/overrides/{name}": f"debian/{name}.lintian-overrides" for name in PACKAGES}
    for folder, to in (("python/src/pfs", f"{MODULES}/pfs"), ("python/examples", f"{pages}/examples")):
        places |= {f"{to}/{name}": f"{folder}/{name}" for name in contents_of(TOP / folder) if "cache" not in name}
    found, holders = contents_of(extracted), dict[str, str]()
    for package in PACKAGES:
        held = {name: found.pop(f"usr/share/doc/{package}/{name}") for name in DEBIAN_PAGES}
        assert gzip.decompress(held["changelog.gz"]) == (made.copy.top / "CHANGELOG.md").read_bytes()
        assert gzip.decompress(held["changelog.Debian.gz"]).decode() == (
            f"pfs ({BETWEEN}-1) unstable; urgency=medium\n\n  * Version {BETWEEN}: see changelog.gz.\n\n"
            " -- A Tester <tester@example.org>  Sun, 09 Sep 2001 01:46:40 +0000\n")
        assert held["copyright"] == (made.copy.top / "debian" / "copyright").read_bytes()
        data = subprocess.check_output(["dpkg-deb", "--fsys-tarfile", made.path(f"/{package}_")])
        with tarfile.open(fileobj=io.BytesIO(data)) as tar:
            holders |= dict.fromkeys((name.removeprefix("./") for name in names_in(tar, "root")), package)
        kinds = output_of(["ar", "t", made.path(f"/{package}_")], extracted)
        assert kinds == "debian-binary\ncontrol.tar.gz\ndata.tar.gz\n"
    assert {name: holder for name, holder in holders.items() if holder != holder_of(name)} == {}
    for path in [path for path in found if "/man/" in path]:
        found[path.removesuffix(".gz")] = gzip.decompress(found.pop(path))
    for path in ("usr/share/doc/pfs/PROVED", *(f"{LIBRARIES}/{name.removeprefix('lib/')}" for name in VERSIONED),
                 *(f"usr/bin/{name}" for name in PROGRAMS)):
        assert found.pop(path)
    assert found.pop(f"{MODULES}/pfs/base/version.py").decode().endswith(f'VERSION = "{BETWEEN}"\n')
    found = {path: text for path, text in found.items() if ".dist-info/" not in path}
    wanted = {place: (made.copy.top / file).read_bytes() for place, file in places.items()}
    del wanted[f"{MODULES}/pfs/base/version.py"]
    assert_same_files(found, wanted)
    assert_usual_modes(extracted)


# What a package depends on, by what it was built with.
DEPENDS = {"pfs": "libc6 (>= 2.34)", LIBPFS: "libc6 (>= 2.14)", "libpfs-dev": f"{LIBPFS} (= {BETWEEN}-1)",
           "python3-pfs": f"{LIBPFS} (>= {VERSION}~), python3-numpy, python3-tomli | python3 (>> 3.11), "
                          "python3:any (>= 3.10~)"}


def test_debians_tools_accept_the_packages(made: Made, folder: pathlib.Path) -> None:
    """Lintian, whose overrides have their reasons. Other packages depend on the library as it says."""
    got = run_tool([tool("lintian"), "--allow-root", "--fail-on", "error,warning",
                    *(made.path(f"/{package}_") for package in PACKAGES)], made.folder)
    assert (got.status, got.stdout) == (0, "")
    others = ["Breaks", "Provides", "Replaces"]
    for package, wanted in DEPENDS.items():
        words = ["dpkg-deb", "--field", str(made.path(f"/{package}_"))]
        assert sorted(output_of([*words, *others, "Depends", "Maintainer", "Version"], folder).splitlines()) == sorted([
            f"Depends: {wanted}", "Maintainer: A Tester <tester@example.org>", f"Version: {BETWEEN}-1",
            *(f"{other}: pfs-tools" for other in others if "python" in package)])
    offered = output_of([*words, "Depends", "Recommends", "Suggests"], folder)
    for path in (TOP / "python" / "src").rglob("*.py"):
        needed = {f"python3-{module}" for module in re.findall(r'optional\("(\w+)"', path.read_text())}
        assert [module for module in needed if module not in offered] == [], path
    for package in (LIBPFS, "python3-pfs"):
        output_of(["dpkg-deb", "--control", made.path(f"/{package}_"), package], folder)
    assert (folder / LIBPFS / "symbols").read_text() == SYMBOLS
    write_script(folder / "bin" / "deb-systemd-helper", '#!/bin/sh\necho "$*"\n[ "$1" = update-state ]\n')
    got = run_tool(["/bin/sh", folder / "python3-pfs" / "postinst", "configure"], folder, env={"PATH": f"{folder}/bin"})
    assert got == Done(0, "debian-installed pfs-web.service\n", ""), "the unit isn't enabled by an installation"


def test_a_symbol_has_the_version_that_the_header_states(top: pathlib.Path) -> None:
    """Functions of which the header states none, or an earlier one, are of the first version of this library."""
    since = dict[str, str]()
    for comment in re.split(r"^/\*\*", (top / "lib" / "pfs.h").read_text(), flags=re.MULTILINE):
        for name in re.findall(r"^[a-z].*\b(pfs_\w+)\(", comment, re.MULTILINE):
            stated = re.findall(r"\.[ *\n]+Since[ *\n]+version ([\d.]+)\.\s", comment.partition("*/")[0])
            since[name] = max(["2.0.0", *stated])
    lines = [f" {name}@PFS_1 {version}\n" for name, version in sorted(since.items())]
    assert SYMBOLS == (f"{SHARED} {LIBPFS} #MINVER#\n* Build-Depends-Package: libpfs-dev\n PFS_1@PFS_1 2.0.0\n"
                       + "".join(lines))


def test_apt_installs_from_the_folder(made: Made, folder: pathlib.Path) -> None:
    """By the page's line, in a dry run with own lists. And in a container, where all that apt brought is removed."""
    assert made.path("/Release").read_text().startswith("Date: Sun, 09 Sep 2001 01:46:40 +0000\nOrigin: pfs\nMD5Sum:\n")
    _, base, copied, runs = made.path("/Containerfile").read_text().splitlines()
    assert (base, copied) == ("FROM debian:bookworm-slim", "COPY *.deb /tmp/")
    write_script(folder / "bin" / "apt-get", '#!/bin/sh\necho "$*"\n')
    for name in ("tmp/a.deb", "tmp/b.deb", "var/lib/apt/lists/c"):
        write_script(folder / name, "")
    got = output_of(["sh", "-c", re.sub(" (?=/(?:tmp|var)/)", f" {folder}", runs.removeprefix("RUN "))],
                    folder, env={"PATH": f"{folder}/bin:/bin"})
    assert got == f"update\ninstall -y --no-install-recommends {folder}/tmp/a.deb {folder}/tmp/b.deb\n"
    assert [path.name for path in folder.glob("*/**/*") if path.parent.name != "bin"] == ["lib", "apt", "lists"]
    line = line_of_install("^echo '(deb .*)' >").replace("/srv/pfs", str(made.folder))
    (folder / "sources").write_text(f"{line}\n")
    (folder / "lists" / "partial").mkdir(parents=True)
    words = ["apt-get", "-oDir::Etc::SourceParts=/dev/null", "-oAPT::Sandbox::User=", f"-oDir::Cache={folder}",
             f"-oDir::Etc::SourceList={folder}/sources", f"-oDir::State::Lists={folder}/lists"]
    output_of([*words, "update"], folder)
    got = output_of([*words, "--simulate", "--no-install-recommends", "install", "pfs", "python3-pfs"], folder)
    assert {(name, f"{BETWEEN}-1") for name in PACKAGES if name != "libpfs-dev"} \
        <= set(re.findall(r"^Inst (\S+) \((\S+) ", got, re.MULTILINE))
    assert "release o=pfs" in output_of(["apt-cache", *words[1:], "policy"], folder)


@pytest.mark.usefixtures("matplotlib")
def test_the_programs_of_the_packages_run(extracted: pathlib.Path, made: Made, folder: pathlib.Path) -> None:
    """And shells complete them, and pages lead to pages that are there."""
    env = dict(os.environ, PYTHONPATH=str(extracted / MODULES), PYTHONDONTWRITEBYTECODE="1",
               LD_LIBRARY_PATH=str(extracted / LIBRARIES), PATH=f"{extracted}/usr/bin:/usr/bin:/bin")
    assert_runs(extracted / "usr" / "bin" / "pfs", folder)
    (folder / "times.csv").write_text("job [min],saw,drill\nchair,3,2\ntable,2,5\n")
    got = output_of(["pfs-plan", "times.csv", "--chart", "chart.html", "--chart", "chart.svg"], folder, env=env)
    assert got == "makespan 9 min\nbound 9 min\noptimal\n1 table\n2 chair\n"
    assert output_of(["pfs-plan", "--version"], folder, env=env) == f"pfs {BETWEEN}\n"
    (folder / "table").write_text("table 1 1\n1 0 5\nmakespan 5\n")
    output_of(["pfs-gantt", "table", "gantt.svg"], folder, env=env)
    assert "<svg" in (folder / "gantt.svg").read_text() and (folder / "chart.html").stat().st_size > 10_000
    output_of(["pfs-experiments", "taillard", "all"], folder, env=env)
    assert len(list((folder / "all").iterdir())) == 120
    assert_completions_are_found(extracted, extracted / "usr", folder)
    for page in (extracted / "usr/share/doc/pfs").rglob("*.md"):
        named = [name for name in re.findall(r"\]\(([^)#]+)\)", page.read_text()) if "://" not in name]
        assert [name for name in named if not (page.parent / name).exists()] == [], page.name


# The wheel

def test_a_wheel_holds_the_package_and_the_library(made: Made) -> None:
    """With the licences of what is built into the library. It needs what the settings and README say."""
    top = made.copy.top
    with zipfile.ZipFile(made.path(".whl")) as archive:
        modes = {each.filename: each.external_attr >> 16 & 0o777 for each in archive.infolist()}
        # Without the version in front of what is about the wheel.
        found = {re.sub(r"^pfs-[^/]*\.(?=dist-info|data)", "", name): archive.read(name) for name in modes}
    # All users can read each file, and only its owner or group writes it.
    assert {name: mode for name, mode in modes.items() if mode & 0o444 != 0o444 or mode & 0o002} == {}
    about = {name: found.pop(name) for name in list(found) if name.startswith("dist-info/")}
    wanted = {f"pfs/{name}": text for name, text in contents_of(TOP / "python" / "src" / "pfs").items()
              if "cache" not in name}
    wanted |= {f"pfs/{SHARED}": (top / f"lib/out/{SHARED}").read_bytes(),
               "pfs/base/version.py": wanted["pfs/base/version.py"].replace(VERSION.encode(), BETWEEN.encode())}
    wanted |= {f"data/data/share/man/man1/{name}.1": (top / "python" / f"{name}.1").read_bytes() for name in PROGRAMS}
    assert_same_files(found, wanted)
    fields = email.message_from_string(about["dist-info/METADATA"].decode())
    project = tomllib.loads((top / "python" / "pyproject.toml").read_text())["project"]
    assert (fields["Name"], fields["Version"]) == ("pfs", BETWEEN.replace(".014640", ".14640"))
    needed, due = ([re.sub("[ ()'\"]", "", str(each)) for each in lines] for lines in
                   (fields.get_all("Requires-Dist") or [], project["dependencies"]))
    assert [each for each in needed if "extra" not in each] == due and "numpy>=1.24" in due
    readme = (top / "python" / "README.md").read_text()
    assert str(fields.get_payload()).strip() == readme.strip()
    pythons = re.findall(r"needs Python ([\d.]+) or newer and NumPy", readme)
    assert [f">={python}" for python in pythons] == [fields["Requires-Python"]] == [project["requires-python"]]
    licences = {"LICENSE-APACHE": "LICENSE-APACHE", "LICENSE-MIT": "LICENSE-MIT", "NOTICES": "debian/copyright"}
    assert fields.get_all("License-File") == list(licences)
    assert {name: about[f"dist-info/{name}"] for name in licences} \
        == {name: (top / file).read_bytes() for name, file in licences.items()}


def test_pip_replaces_a_wheel_by_one_of_a_later_commit(made: Made, folder: pathlib.Path) -> None:
    """In a clean environment, where NumPy is the system's. A wheel needs no program. Its folder is `dist` if none is
    named, and a release there stays."""
    if sys.prefix != sys.base_prefix:
        pytest.skip("an environment inside another one has no packages of the system")
    require_module("pip")
    output_of([sys.executable, "-m", "venv", "--system-site-packages", "--without-pip", "clean"], folder)
    (folder / "dist").mkdir()
    for name in ("SHA256SUMS", "SHA256SUMS.asc"):
        (folder / "dist" / name).write_text(f"{'0' * 64}  SHA256SUMS\n")
    shutil.copytree(made.copy.top, folder / "tree", ignore=shutil.ignore_patterns("docs", "pfs"))
    shutil.copytree(made.copy.top / "python", folder / "tree" / "python", dirs_exist_ok=True)
    env = made.copy.env | {"SOURCE_DATE_EPOCH": "900000000"}
    output_of([folder / "tree" / "tools" / "dist", "wheel"], folder, env=env)
    env = {name: value for name, value in os.environ.items() if name not in ("PFS_LIBRARY", "PYTHONPATH")}
    older, *kept = sorted((folder / "dist").iterdir(), reverse=True)
    assert [path.name for path in kept] == ["SHA256SUMS.asc", "SHA256SUMS"]
    for wheel, version in ((older, f"{VERSION}+19980709.160000"), (made.path(".whl"), BETWEEN)):
        words = ["clean/bin/python3", "-m", "pip", "--disable-pip-version-check", "install", "-q", "--no-index"]
        output_of([*words, wheel], folder, env=env)
        assert output_of(["clean/bin/pfs-plan", "--version"], folder, env=env) == f"pfs {version}\n"
    (folder / "times.csv").write_text("job [min],saw,drill\nchair,3,2\ntable,2,5\n")
    got = output_of(["clean/bin/pfs-plan", "times.csv"], folder, env=env)
    assert got == "makespan 9 min\nbound 9 min\noptimal\n1 table\n2 chair\n"
    got = output_of(["clean/bin/python3", "-c", "from pfs.binding.library import PATH; print(PATH)"], folder, env=env)
    assert pathlib.Path(got).is_relative_to(folder / "clean")
