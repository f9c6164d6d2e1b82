"""A release without publishing it: what it refuses, what it has, its sums and its signature."""

from __future__ import annotations

import datetime
import json
import os
import pathlib
import re
import shutil
import subprocess
import tempfile
from collections.abc import Iterator

import pytest
from tree import TOP, copy_tree, run, output

VERSION = (TOP / "VERSION").read_text().strip()
NAMES = sorted(["BUILT", "NOTES", "SHA256SUMS", "SHA256SUMS.minisig", "verify", f"portal-{VERSION}-x86_64-linux", f"portal-{VERSION}.spdx.json",
                f"portal-{VERSION}.tar.gz", f"portal_{VERSION}_amd64.deb"])
pytestmark = pytest.mark.package


def git(top: pathlib.Path, *words: str) -> None:
    day = "2026-01-02T03:04:05Z"
    run("git", "-C", top, "-c", "user.name=x", "-c", "user.email=x@example.com", *words, ok=True,
        env={**os.environ, "GIT_AUTHOR_DATE": day, "GIT_COMMITTER_DATE": day, "GIT_CONFIG_GLOBAL": "/dev/null"})


def make_repository(goal: pathlib.Path) -> pathlib.Path:
    """A copy that is clean, and whose program is taken for shipped."""
    top = copy_tree(goal)
    (top / "tests").mkdir()
    (top / "tests/shipped").write_text("#!/bin/sh\necho \"$(cat \"$0.says\")\"\ntest ! -s \"$0.says\"\n")
    (top / "tests/shipped").chmod(0o755)
    (top / "tests/shipped.says").write_text("")
    (top / ".gitignore").write_text("out/\n__pycache__/\n")
    (top / "CHANGELOG.md").write_text(f"# Changelog\n\n## Unreleased\n\n## {VERSION}\n\n### Added\n\n- all\n")
    git(top, "init", "-q", "-b", "main")
    git(top, "add", "-A")
    git(top, "commit", "-q", "-m", "all")
    return top


@pytest.fixture(scope="module")
def one_repository(room: pathlib.Path) -> pathlib.Path:
    return make_repository(room / "release")


@pytest.fixture
def repository(one_repository: pathlib.Path) -> Iterator[pathlib.Path]:
    """As it is committed; a test may change it."""
    first = run("git", "-C", one_repository, "rev-parse", "HEAD", ok=True).stdout.strip()
    yield one_repository
    git(one_repository, "reset", "-q", "--hard", first)
    git(one_repository, "clean", "-q", "-f", "-d")


@pytest.fixture(scope="module")
def key(room: pathlib.Path) -> pathlib.Path:
    run("minisign", "-G", "-W", "-s", room / "key", "-p", room / "key.pub", ok=True)
    return room / "key"


@pytest.fixture(scope="module")
def made(room: pathlib.Path, one_repository: pathlib.Path, key: pathlib.Path) -> pathlib.Path:
    """The release's folder."""
    done = run(one_repository / "tools/release", "--key", key, VERSION, room / "out")
    assert done.returncode == 0, f"a release is made  [{output(done)}]"
    return room / "out"


# What is refused

def check_refusal(top: pathlib.Path, what: str, word: str, version: str = VERSION) -> None:
    done = run(top / "tools/release", "--key", "/dev/null", version, top / "deb/out/refused")
    assert done.returncode == 1 and word in done.stderr and not (top / "deb/out/refused").exists(), (
        f"a release is refused: {what}  [{output(done)}]")


def test_another_version_is_refused(repository: pathlib.Path) -> None:
    check_refusal(repository, "a version that VERSION does not have", "VERSION says", "9.9.9")


@pytest.mark.parametrize("what, name, text", [
    pytest.param("a file that is not in git", "left", "x", id="file"),
    pytest.param("a change that is not in git", "VERSION", VERSION + "\n\n", id="change")])
def test_what_is_not_in_git_is_refused(repository: pathlib.Path, what: str, name: str, text: str) -> None:
    (repository / name).write_text(text)
    check_refusal(repository, what, "not clean")


@pytest.mark.parametrize("what, word, name, text", [
    pytest.param("no entry in CHANGELOG.md", "no entry", "CHANGELOG.md",
                 "# Changelog\n\n## Unreleased\n\n## 0.9.0\n\n- x\n", id="no_entry"),
    pytest.param("changes that are under Unreleased", "under Unreleased", "CHANGELOG.md",
                 f"# Changelog\n\n## Unreleased\n\n- new\n\n## {VERSION}\n\n- x\n", id="unreleased"),
    pytest.param("a program of other sources", "not of these sources", "tests/shipped.says", "other sources\n",
                 id="program")])
def test_what_is_in_git_is_refused(repository: pathlib.Path, what: str, word: str, name: str, text: str) -> None:
    (repository / name).write_text(text)
    git(repository, "commit", "-q", "-a", "-m", "change")
    check_refusal(repository, what, word)


def test_a_package_that_differs_is_refused(repository: pathlib.Path) -> None:
    build, line = repository / "deb/build", 'put 644 "$here/copyright"'
    text = build.read_text()
    assert line in text
    build.write_text(text.replace(line, f'date +%N >"$root/usr/share/moment"; {line}'))
    git(repository, "commit", "-q", "-a", "-m", "change")
    check_refusal(repository, "a package that differs when it is built twice", "differs when it is made twice")


# What is made

def test_files(made: pathlib.Path) -> None:
    names = sorted(path.name for path in made.iterdir())
    assert names == NAMES, "it has package, sources, bare program, SPDX list, sums and signature, and no key"


def test_made_again(room: pathlib.Path, made: pathlib.Path, key: pathlib.Path) -> None:
    again = run(make_repository(room / "release-again") / "tools/release", "--key", key, VERSION, room / "out-again", cwd="/",
                umask=0o027)
    assert again.returncode == 0, f"a release is made again  [{output(again)}]"
    differ = [name for name in NAMES if name != "SHA256SUMS.minisig"
              and (made / name).read_bytes() != (room / "out-again" / name).read_bytes()]
    assert not differ, "made again from another clone: the same bytes of all but the signature"


def test_sources_and_program(made: pathlib.Path) -> None:
    sources, package = made / f"portal-{VERSION}.tar.gz", made / f"portal_{VERSION}_amd64.deb"
    packed = run("tar", "-xzOf", sources, f"portal-{VERSION}/VERSION").stdout.strip()
    inside = subprocess.run(f"dpkg-deb --fsys-tarfile {package} | tar -xO ./usr/bin/portal", shell=True, capture_output=True)
    assert packed == VERSION and inside.stdout == (made / f"portal-{VERSION}-x86_64-linux").read_bytes(), (
        "the sources are this version's, and the bare program is the package's")


def test_sums(made: pathlib.Path) -> None:
    sums = run("sha256sum", "--check", "--strict", "SHA256SUMS", cwd=made)
    listed = [line.split(None, 1)[1] for line in (made / "SHA256SUMS").read_text().splitlines()]
    every = sorted(path.name for path in made.iterdir() if not path.name.startswith("SHA256SUMS"))
    assert sums.returncode == 0 and sorted(listed) == every, "SHA256SUMS has every file"


def verify(folder: pathlib.Path, key: pathlib.Path, wanted: str = VERSION) -> subprocess.CompletedProcess[str]:
    """What the script of the tree says of a release, for a public key and a version."""
    return run(TOP / "tools/verify", "--key", key, "--version", wanted, folder)


def sign_sums(folder: pathlib.Path, key: pathlib.Path) -> None:
    """Makes the sums of a release anew, and their signature, by this key."""
    for name in ("SHA256SUMS", "SHA256SUMS.minisig"):
        (folder / name).unlink()
    sums = run("sha256sum", *sorted(path.name for path in folder.iterdir()), cwd=folder, ok=True).stdout
    (folder / "SHA256SUMS").write_text(sums)
    run("minisign", "-S", "-s", key, "-c", "signature of a release of portal", "-m", folder / "SHA256SUMS", ok=True)


@pytest.fixture
def copy(made: pathlib.Path) -> Iterator[pathlib.Path]:
    """The release's folder, which a test may change."""
    with tempfile.TemporaryDirectory() as folder:
        shutil.copytree(made, goal := pathlib.Path(folder) / "release")
        yield goal


@pytest.fixture
def current(copy: pathlib.Path, made: pathlib.Path, one_repository: pathlib.Path, key: pathlib.Path) -> pathlib.Path:
    """The list of the current release, in the folder above."""
    done = run(one_repository / "tools/current", "--key", key, VERSION, copy.parent)
    assert done.returncode == 0, f"the list of the current release is made and signed  [{output(done)}]"
    return copy.parent / "CURRENT"


def test_verification(room: pathlib.Path, made: pathlib.Path, key: pathlib.Path) -> None:
    done = verify(made, key.with_suffix(".pub"))
    by_words = run(made / "verify", "--key", key.with_suffix(".pub").read_text().split()[-1], "--version", VERSION, made)
    assert done.returncode == by_words.returncode == 0 and f"portal {VERSION}: " in done.stdout, (
        f"a release is verified by its key, also by the script in it  [{output(done)}]")
    run("minisign", "-G", "-W", "-s", room / "other", "-p", room / "other.pub", ok=True)
    done = verify(made, room / "other.pub")
    assert done.returncode == 1 and "not signed by this key" in done.stderr, f"and by no other key  [{output(done)}]"


@pytest.mark.parametrize("place", [0.5, 0.1])
@pytest.mark.parametrize("name", NAMES)
def test_a_changed_byte_is_refused(copy: pathlib.Path, key: pathlib.Path, name: str, place: float) -> None:
    data = bytearray((copy / name).read_bytes())
    data[int(len(data) * place)] ^= 1
    (copy / name).write_bytes(data)
    done = verify(copy, key.with_suffix(".pub"))
    assert done.returncode == 1, f"one changed byte of {name} is refused  [{output(done)}]"


@pytest.mark.parametrize("name, word", [("left", "does not have left"), ("BUILT", "is missing")])
def test_a_file_more_or_less_is_refused(copy: pathlib.Path, key: pathlib.Path, name: str, word: str) -> None:
    if (copy / name).exists():
        (copy / name).unlink()
    else:
        (copy / name).touch()
    done = verify(copy, key.with_suffix(".pub"))
    assert done.returncode == 1 and word in done.stderr, f"a file more or less is refused  [{output(done)}]"


@pytest.mark.parametrize("name", [f"portal_{VERSION}.amd64.deb", f"ortal_{VERSION}_amd64.deb"], ids=["expression", "part"])
def test_a_name_is_compared_whole(copy: pathlib.Path, key: pathlib.Path, name: str) -> None:
    """`apt install ./*.deb` would take each of them."""
    (copy / name).touch()
    done = verify(copy, key.with_suffix(".pub"))
    assert done.returncode == 1 and "does not have" in done.stderr, f"a further file is refused by its whole name  [{output(done)}]"


def test_a_hidden_file_is_refused(copy: pathlib.Path, key: pathlib.Path) -> None:
    (copy / ".pc").mkdir()
    done = verify(copy, key.with_suffix(".pub"))
    assert done.returncode == 1 and "does not have .pc" in done.stderr, f"a hidden file or folder is refused  [{output(done)}]"


def test_another_program_is_refused_though_it_is_signed(copy: pathlib.Path, key: pathlib.Path) -> None:
    """Whoever signs may have taken another package by mistake."""
    built = copy / "BUILT"
    built.write_text(re.sub("(?m)^sha256: .", "sha256: x", built.read_text()))
    sign_sums(copy, key)
    done = verify(copy, key.with_suffix(".pub"))
    assert done.returncode == 1 and "is not that of BUILT" in done.stderr, (
        f"a package with another program than BUILT says is refused  [{output(done)}]")


# Which version it is

def test_another_version_than_wanted_is_refused(copy: pathlib.Path, key: pathlib.Path) -> None:
    done = verify(copy, key.with_suffix(".pub"), "9.9.9")
    assert done.returncode == 1 and f"this is portal {VERSION}, and not 9.9.9" in done.stderr, (
        f"a release of another version than the wanted one is refused  [{output(done)}]")
    done = run(TOP / "tools/verify", "--key", key.with_suffix(".pub"), copy)
    assert done.returncode == 1 and "give --version" in done.stderr, f"a version has to be wanted  [{output(done)}]"


def by_list(copy: pathlib.Path, key: pathlib.Path) -> subprocess.CompletedProcess[str]:
    """What the script of the tree says of a release, by the list in the folder above."""
    return run(TOP / "tools/verify", "--key", key.with_suffix(".pub"), "--current", copy.parent / "CURRENT", copy)


def test_the_list_of_the_current_release(copy: pathlib.Path, current: pathlib.Path, key: pathlib.Path) -> None:
    today = datetime.datetime.now(datetime.timezone.utc).date()
    assert current.read_text() == f"version: {VERSION}\nday: {today}\n", "the list has version and day"
    done = by_list(copy, key)
    assert done.returncode == 0, f"a release that the list names is verified  [{output(done)}]"
    current.write_text(f"version: 9.9.9\nday: {today}\n")
    done = by_list(copy, key)
    assert done.returncode == 1 and "CURRENT is not signed by this key" in done.stderr, f"a list that was changed is refused  [{output(done)}]"


@pytest.mark.parametrize("version, days, word", [
    pytest.param("9.9.9", 0, f"this is portal {VERSION}, and not 9.9.9", id="newer"),
    pytest.param(VERSION, 93, "get the newest one", id="old"), pytest.param(VERSION, -2, "get the newest one", id="of_later"),
    pytest.param("", 0, "names no version and day", id="no_version"), pytest.param(VERSION, None, "names no version and day", id="no_day")])
def test_a_list_that_does_not_name_it_now_is_refused(copy: pathlib.Path, current: pathlib.Path, key: pathlib.Path, version: str,
                                                     days: int | None, word: str) -> None:
    day = "" if days is None else str(datetime.datetime.now(datetime.timezone.utc).date() - datetime.timedelta(days))
    current.write_text(f"version: {version}\nday: {day}\n")
    run("minisign", "-S", "-s", key, "-m", current, ok=True)
    done = by_list(copy, key)
    assert done.returncode == 1 and word in done.stderr, f"a release that the list does not name now is refused  [{output(done)}]"


def test_a_list_of_92_days_is_taken(copy: pathlib.Path, current: pathlib.Path, key: pathlib.Path) -> None:
    day = datetime.datetime.now(datetime.timezone.utc).date() - datetime.timedelta(92)
    current.write_text(f"version: {VERSION}\nday: {day}\n")
    run("minisign", "-S", "-s", key, "-m", current, ok=True)
    done = by_list(copy, key)
    assert done.returncode == 0, f"a list of 92 days ago is taken  [{output(done)}]"


def test_a_list_without_a_release_is_refused(made: pathlib.Path, one_repository: pathlib.Path, key: pathlib.Path,
                                             copy: pathlib.Path) -> None:
    done = run(one_repository / "tools/current", "--key", key, "9.9.9", copy.parent)
    assert done.returncode == 1 and "there is no tag v9.9.9" in done.stderr and not (copy.parent / "CURRENT").exists(), (
        f"no list is made of a version without a tag  [{output(done)}]")


# By Debian's own commands

def typed(copy: pathlib.Path, key: pathlib.Path) -> subprocess.CompletedProcess[str]:
    """What docs/INSTALL.md says to type in the folder of a release before anything of it runs."""
    page = (TOP / "docs/INSTALL.md").read_text().partition("\n## Get the package\n")[2]
    block = page.partition("```console\n")[2].partition("```")[0]
    lines = [line.removeprefix("$ ") for line in block.splitlines() if "apt install" not in line]
    assert len(lines) == 3 and {line.split()[0] for line in lines} == {"minisign", "sha256sum"}, f"they are Debian's commands  [{lines}]"
    words = key.with_suffix(".pub").read_text().split()[-1]
    return run("bash", "-e", "-c", "\n".join(lines).replace("PUBLICKEY", words), cwd=copy)


def test_commands_of_debian(copy: pathlib.Path, current: pathlib.Path, key: pathlib.Path) -> None:
    done = typed(copy, key)
    assert done.returncode == 0 and f"version: {VERSION}\nday: " in done.stdout and f"Trusted comment: portal {VERSION}\n" in done.stdout, (
        f"Debian's own commands verify a release, and name its version  [{output(done)}]")
    (copy.parent / "CURRENT").write_text("version: 9.9.9\n")
    assert typed(copy, key).returncode == 1, "and refuse a list that the owner did not sign"


def test_a_script_of_an_attacker_is_refused(copy: pathlib.Path, current: pathlib.Path, room: pathlib.Path, key: pathlib.Path) -> None:
    """Who can change the package can change `verify` beside it, and sign both by another key."""
    (copy / "verify").write_text("#!/bin/sh\necho 'portal: signature, files and the program inside are right'\n")
    (copy / f"portal_{VERSION}_amd64.deb").write_bytes(b"another")
    assert run("bash", copy / "verify").returncode == 0, "such a script says what it likes"
    assert typed(copy, key).returncode == 1, "Debian's commands refuse the changed files"
    run("minisign", "-G", "-f", "-W", "-s", room / "evil", "-p", room / "evil.pub", ok=True)
    sign_sums(copy, room / "evil")
    assert typed(copy, key).returncode == 1, "and another key"


def test_the_package_is_named_whole() -> None:
    names = re.findall(r"apt install (\S*portal_\S*)", (TOP / "docs/INSTALL.md").read_text())
    assert names and not [name for name in names if "*" in name], f"the package is installed by its whole name  [{names}]"


def test_notes_and_tag(made: pathlib.Path, one_repository: pathlib.Path) -> None:
    notes = (made / "NOTES").read_text()
    assert notes.startswith(f"# portal {VERSION}\n") and "- all" in notes, f"the notes are the entry's  [{notes}]"
    tags = run("git", "-C", one_repository, "tag", "--points-at", "HEAD").stdout.split()
    assert tags == [f"v{VERSION}"] and run(one_repository / "tools/version").stdout.strip() == VERSION, (
        f"the commit has the tag, and then this version  [{tags}]")


# Between releases

def test_dry_run(room: pathlib.Path, key: pathlib.Path) -> None:
    """Of a commit that no release could be made of."""
    top = make_repository(room / "between")
    (top / "CHANGELOG.md").write_text(f"# Changelog\n\n## Unreleased\n\n- new\n\n## {VERSION}\n\n- all\n")
    git(top, "commit", "-q", "-a", "-m", "change")
    commit = run("git", "-C", top, "rev-parse", "--short=12", "HEAD", ok=True).stdout.strip()
    first, _, last = VERSION.rpartition(".")
    version = f"{first}.{int(last) + 1}~dev20260102030405.{commit}"
    done = run(top / "tools/release", "--dry-run", "--key", key, room / "dry")
    assert done.returncode == 0 and "under Unreleased" in done.stderr, (
        f"a dry run makes all, and says what a release is refused for  [{output(done)}]")
    assert (room / f"dry/portal_{version}_amd64.deb").exists() and "- new" in (room / "dry/NOTES").read_text(), (
        f"its version is the next one with ~dev, the time and the commit  [{version}]")
    assert verify(room / "dry", key.with_suffix(".pub"), version).returncode == 0, "the verification accepts it"
    assert not run("git", "-C", top, "tag").stdout, "and it makes no tag"
    older = run("dpkg", "--compare-versions", version, "lt", f"{first}.{int(last) + 1}")
    newer = run("dpkg", "--compare-versions", version, "gt", VERSION)
    assert older.returncode == newer.returncode == 0, "Debian sorts it between both releases"
    (top / "left").touch()
    assert run(top / "tools/version").stdout.strip() == f"{version}+changed", "with changes it says so"


def test_version_after_a_release(room: pathlib.Path) -> None:
    """Of commits before and after the tag, where nothing is under Unreleased yet."""
    top = make_repository(room / "tagged")
    first, _, last = VERSION.rpartition(".")
    before = run(top / "tools/version").stdout.strip()
    git(top, "tag", f"v{VERSION}")
    assert before.startswith(f"{VERSION}~dev2026") and run(top / "tools/version").stdout.strip() == VERSION, (
        f"before its tag it has ~dev  [{before}]")
    git(top, "commit", "-q", "--allow-empty", "-m", "after")
    after = run(top / "tools/version").stdout.strip()
    assert after.startswith(f"{first}.{int(last) + 1}~dev2026"), f"after a tag it is the next version  [{after}]"
    run("dpkg", "--compare-versions", before, "lt", VERSION, ok=True)
    run("dpkg", "--compare-versions", after, "gt", VERSION, ok=True)


def test_release_without_a_key(repository: pathlib.Path) -> None:
    done = run(repository / "tools/release", VERSION)
    assert done.returncode == 1 and "a release is signed" in done.stderr, f"a release is signed  [{output(done)}]"


def test_spdx_list(made: pathlib.Path) -> None:
    """The fields that SPDX 2.3 demands (sections 6, 7 and 11), and that every relation names what is there."""
    found = json.loads((made / f"portal-{VERSION}.spdx.json").read_text())
    faults = [key for key in ("spdxVersion", "dataLicense", "SPDXID", "name", "documentNamespace", "creationInfo")
              if not found.get(key)]
    ids = [row["SPDXID"] for row in found["packages"]]
    faults += [row["name"] for row in found["packages"]
               if not row.get("downloadLocation") or not re.fullmatch(r"SPDXRef-[A-Za-z0-9.-]+", row["SPDXID"])]
    faults += [link for link in found["relationships"]
               if {link["spdxElementId"], link["relatedSpdxElement"]} - {*ids, "SPDXRef-DOCUMENT"}]
    assert not faults and len(ids) == len(set(ids)), (
        "the SPDX list has each field that is demanded, and no relation to nothing")


def test_spdx_list_names_all(made: pathlib.Path) -> None:
    path = made / f"portal-{VERSION}.spdx.json"
    found = json.loads(path.read_text())
    names = {row["name"] for row in found["packages"]}
    sums = {row.get("packageFileName"): row["checksums"][0]["checksumValue"]
            for row in found["packages"] if "checksums" in row}
    seen = {name: run("sha256sum", made / str(name)).stdout.split()[0] for name in sums}
    assert (sums == seen and len(sums) == 2
            and {"sqlite", "httparse", "libc.so.6", "nftables", "python3-flask", "rattle-kit"} <= names), (
        f"it names package and program by their sums, and the libraries within and beside  [{sorted(sums)}]")


def test_spdx_list_names_licences(made: pathlib.Path, repository: pathlib.Path) -> None:
    """Of the kit's crates as the licence files are there; where the kit has none, that is said (SPDX 2.3, section 7.15)."""
    found = json.loads((made / f"portal-{VERSION}.spdx.json").read_text())
    licences = {name: {row["licenseDeclared"] for row in found["packages"] if row["name"] == name}
                for name in ("portal", "httparse", "sqlite", "matchit", "json")}
    assert licences == {"portal": {"MIT OR Apache-2.0"}, "httparse": {"MIT OR Apache-2.0"}, "sqlite": {"MIT"},
                        "matchit": {"MIT AND BSD-3-Clause"}, "json": {"NONE"}}, (
        f"it names the licence of the product, and of each crate in the program  [{licences}]")
    with (repository / "crates.txt").open("a") as file:
        file.write("portal_more: of_nobody\n")
    program, package = (made / name for name in (f"portal-{VERSION}-x86_64-linux", f"portal_{VERSION}_amd64.deb"))
    done = run(repository / "deb/sbom", VERSION, program, package, env={**os.environ, "SOURCE_DATE_EPOCH": "1764000000"})
    assert (done.returncode, done.stderr) == (1, "deb/sbom: deb/copyright has no licence of of_nobody\n"), (
        f"a crate of the kit whose licence nobody looked at is refused  [{output(done)}]")
