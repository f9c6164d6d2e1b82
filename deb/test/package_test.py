"""The package without installing it: the same bytes each time, lintian, what is in it, manual pages, completion,
catalogues, the changelog, and the questions of set-up."""

from __future__ import annotations

import gettext
import gzip
import os
import pathlib
import re
import shutil
import subprocess
import tomllib
from typing import Any

import pytest
from portal_deb import price_questions, questions
from tree import DEB, TOP, copy_tree, run, output

AT = "1764000000"           # SOURCE_DATE_EPOCH of what is built here
OLD_PATHS = [line for line in (DEB / "old-paths").read_text().splitlines() if not line.startswith("#")]
MOMENT = "2025-11-24 16:00+0000"        # the same, as gettext writes it: no catalogue has the minute of its making
KIT = "usr/share/portal/field"
COMMANDS = {"portal": 1, "portal-setup": 8, "portal-doctor": 8, "portal-backup": 8, "portal-restore": 8, "portal-venues": 8}
RADIUS = '\n[radius]\nlisten = "10.88.0.1"\n[radius.nas.lobby]\naddress = "10.88.0.2"\n'
RADIUS_ENV = """\
FIELD_SETTINGS=/etc/portal/radius.toml
PYTHONPATH=/usr/share/portal/field/radius
RADIUS_CONFIG=/usr/share/portal/field/radius/raddb
RADIUS_RUN=/run/portal-radius
RADIUS_RADACCT=/var/lib/portal-radius/radacct.db
RADIUS_LISTEN=10.88.0.1
RADIUS_AUTH_PORT=1812
RADIUS_ACCT_PORT=1813
RADIUS_REJECT_DELAY=1
"""         # of version 1.0.0, with that table
LATER_UNIT = "[Unit]\nDescription=A part that not every venue uses\n[Service]\nExecStart=/usr/bin/python3 @FIELD@/later/x.py\n"
TWO_ENTRIES = """\
portal (1.1.0) bookworm; urgency=medium

  * one and more

 -- No publisher named <nobody@localhost>  Wed, 03 Feb 2027 00:00:00 +0000

portal (1.0.0) bookworm; urgency=medium

  * the first

 -- No publisher named <nobody@localhost>  Mon, 24 Nov 2025 16:00:00 +0000
"""
COMPLETE = """
_init_completion() { cur=${COMP_WORDS[COMP_CWORD]} prev=${COMP_WORDS[COMP_CWORD-1]} words=("${COMP_WORDS[@]}") cword=$COMP_CWORD; }
_filedir() { COMPREPLY=(a-file); }
source "$1"; shift
COMP_WORDS=("$@") COMP_CWORD=$(($# - 1))
read -r _ _ name _ < <(complete -p "$1")
"$(complete -p "$1" | sed 's/.*-F \\([^ ]*\\).*/\\1/')"
printf '%s\\n' "${COMPREPLY[@]}"
"""

pytestmark = pytest.mark.package


def run_bytes(package: pathlib.Path, name: str) -> bytes:
    """The bytes of a file in a package."""
    tar = subprocess.run(["dpkg-deb", "--fsys-tarfile", package], capture_output=True, check=True).stdout
    return subprocess.run(["tar", "-xO", name], input=tar, capture_output=True, check=True).stdout


def build(out: pathlib.Path, portal: str, top: pathlib.Path = TOP, zone: str = "UTC", words: tuple[str, ...] = (),
          **more: Any) -> pathlib.Path:
    """A package of the program, or of the shipped one where none is named, of the version in VERSION."""
    words = (*words, "--version", (TOP / "VERSION").read_text().strip(), *(("--program", portal) if portal else ()))
    env = {**os.environ, "SOURCE_DATE_EPOCH": AT, "TZ": zone}
    done = run(top / "deb/build", *words, "--out", out, env=env, **more)
    assert done.returncode == 0, f"deb/build makes a package  [{output(done)}]"
    return next(out.glob("*.deb"))


@pytest.fixture(scope="module")
def package(room: pathlib.Path, portal: str) -> pathlib.Path:
    return build(room / "one", portal)


@pytest.fixture(scope="module")
def root(room: pathlib.Path, package: pathlib.Path) -> pathlib.Path:
    """The package, unpacked."""
    run("dpkg-deb", "-x", package, room / "root", ok=True)
    run("dpkg-deb", "-e", package, room / "root/DEBIAN", ok=True)
    return room / "root"


# The package

def test_same_bytes(room: pathlib.Path, portal: str, package: pathlib.Path, monkeypatch: pytest.MonkeyPatch) -> None:
    monkeypatch.setenv("LANG", "tr_TR.UTF-8")
    again = build(room / "again", portal, copy_tree(room / "elsewhere"), "Asia/Tokyo", umask=0o077, cwd="/")
    assert package.read_bytes() == again.read_bytes(), (
        "built again, from another folder, with another umask, time zone and language: the same bytes")


def test_lintian(package: pathlib.Path) -> None:
    words = ("lintian", "--allow-root", "--tag-display-limit", "0") if os.geteuid() == 0 else ("lintian", "--tag-display-limit", "0")
    done = run(*words, package)
    found = [line for line in done.stdout.splitlines() if line.startswith(("E:", "W:"))]
    assert done.returncode == 0 and not found, (
        f"lintian has no errors and no warnings  [{found or output(done)}]")


def test_overrides_have_reasons() -> None:
    reasons = (DEB / "overrides").read_text().splitlines()
    bare = [line for before, line in zip(["", *reasons], reasons) if not line.startswith("#") and not before.startswith("#")
            and not before.startswith("portal:")]
    assert not bare, "each override has its reason"


def files_of(root: pathlib.Path) -> list[str]:
    return sorted(str(path.relative_to(root)) for path in root.rglob("*")
                  if not path.is_dir() and "DEBIAN" not in path.parts)


def test_conffiles(root: pathlib.Path) -> None:
    files = files_of(root)
    conffiles = (root / "DEBIAN/conffiles").read_text().split()
    assert (conffiles == ["/etc/logrotate.d/portal"]
            and [name for name in files if name.startswith("etc/")] == ["etc/logrotate.d/portal"]), (
        "log rotation is the one conffile, and the one file under /etc: no file that a venue edits is "
        "one")


def test_no_leavings(root: pathlib.Path) -> None:
    files = files_of(root)
    odd = [name for name in files if re.search(r"__pycache__|\.pyc|\.po$|/test/|test_|/demo$", name)]
    assert not odd, "no tests, sources of catalogues or leavings are in it"


def test_nothing_is_enabled(package: pathlib.Path, root: pathlib.Path) -> None:
    files = files_of(root)
    enabled = [name for name in files if ".wants/" in name or ".requires/" in name]
    postinst = (root / "DEBIAN/postinst").read_text()
    assert not enabled and "enable" not in postinst, (
        "nothing is enabled by the package itself: nothing starts before set-up does it")
    needed, recommended = (run("dpkg-deb", "-f", package, name).stdout for name in ("Depends", "Recommends"))
    assert "freeradius" not in needed and "prometheus" not in needed and recommended.strip() == "age", (
        "what not every venue uses is suggested: apt brings no server that would begin at once")
    large = [name for name in ("weasyprint", "postgresql", "psycopg", "authlib", "requests") if name in needed]
    assert not large, f"nor what a chain alone uses, nor 0.8 GB for PDF  [{large}]"


def test_all_is_packed(root: pathlib.Path) -> None:
    files = files_of(root)
    folders = {path.name for path in (TOP / "field").iterdir() if path.is_dir()} - {"docs", "test", "units", "__pycache__"}
    folders |= {"portal_deb"} | {line.partition("/")[0] for line in OLD_PATHS}
    packed = {path.name for path in (root / "usr/share/portal/field").iterdir() if path.is_dir()}
    assert packed == folders, f"every folder of the kit is packed  [{packed ^ folders}]"
    left = [name for name in files if name.endswith((".service", ".timer", ".socket", ".py", ".conf")) and re.search(
        "@(FIELD|PORT|VERSION|SCHEMA|LIBC|SIZE|ARCH)@", (root / name).read_text(errors="replace"))
        and "share/portal/field" not in name]
    assert not left, "no word between @ signs is left"
    sums = run("md5sum", "--check", "--quiet", "DEBIAN/md5sums", cwd=root)
    named = [line.split(None, 1)[1] for line in (root / "DEBIAN/md5sums").read_text().splitlines()]
    regular = [name for name in files if not (root / name).is_symlink()]
    assert sums.returncode == 0 and named == regular, f"each file's sum is in md5sums  [{output(sums)}]"


def test_old_paths(root: pathlib.Path) -> None:
    """What a venue's own files may name by the paths of the first version."""
    kit, lost = root / "usr/share/portal/field", []
    for old, new in (line.split() for line in OLD_PATHS):
        if old.endswith(".py"):
            good = f"'-m', '{new}'" in (kit / old).read_text() and (kit / f"{new.replace('.', '/')}.py").is_file()
        else:
            there = sorted(path.name for path in (kit / new).iterdir()) if old.endswith("/") else [""]
            good = all((kit / old / name).resolve() == kit / new / name and (kit / new / name).exists() for name in there)
        lost += [] if good else [old]
    for name in ("setup", "doctor", "backup/portal-backup", "backup/portal-restore"):
        lost += [] if "usage: " in run(kit / name, "--help").stdout else [name]
    assert not lost, f"what earlier versions have at another path is found there  [{lost or len(OLD_PATHS)}]"


def words_of(text: str) -> dict[str, str]:
    return dict(line.split("=", 1) for line in text.splitlines())


def test_radius_env(root: pathlib.Path, tmp_path: pathlib.Path) -> None:
    """The environment of FreeRADIUS's unit after an upgrade, and before set-up has made it anew."""
    kit, python = TOP / "field", ("/usr/bin/python3", "-B")
    file, settings = tmp_path / "etc/portal/radius.env", tmp_path / "field.toml"
    file.parent.mkdir(parents=True)
    file.write_text(RADIUS_ENV)
    settings.write_text((kit / "settings/field.toml").read_text() + RADIUS)
    run(*python, kit / "setup", "--root", tmp_path, "--field", "/usr/share/portal/field", settings, ok=True)
    before, after = words_of(RADIUS_ENV), words_of(file.read_text().replace(str(tmp_path), ""))
    other = {name for name in before | after if before.get(name) != after.get(name)}
    assert other == {"PYTHONPATH"}, f"radius.env is as version 1.0.0 made it, but for Python's path  [{other}]"
    find = "import importlib.util; print(importlib.util.find_spec('portal_field.radius.freeradius').origin)"
    for path in (before["PYTHONPATH"], after["PYTHONPATH"]):
        done = run(*python, "-c", find, env={**os.environ, "PYTHONPATH": f"{root}{path}"}, cwd="/")
        assert done.returncode == 0 and pathlib.Path(done.stdout.strip()).is_file(), (
            f"FreeRADIUS finds its module by radius.env of either version  [{path}: {output(done)}]")


def test_a_part_more(room: pathlib.Path, portal: str) -> None:
    """A folder that the package's own files do not name."""
    copy = copy_tree(room / "with-more")
    later = copy / "field/later"
    for name, text in (("x.py", "pass\n"), ("test.py", "pass\n"), ("settings/later.conf", "x\n"),
                       ("units/portal-later.service", LATER_UNIT)):
        (later / name).parent.mkdir(parents=True, exist_ok=True)
        (later / name).write_text(text)
    package = build(room / "more", portal, copy)
    listed = run("dpkg-deb", "-c", package).stdout
    unit = run("sh", "-c", f"dpkg-deb --fsys-tarfile {package} | tar -xO ./lib/systemd/system/portal-later.service").stdout
    assert ("field/later/x.py" in listed and "field/later/settings/later.conf" in listed
            and "later/test.py" not in listed and "later/units" not in listed
            and "ExecStart=/usr/bin/python3 /usr/share/portal/field/later/x.py" in unit), (
        "a folder more in the kit is packed by rule, its unit too, without its tests")


def test_catalogues(root: pathlib.Path) -> None:
    from babel.messages.pofile import read_po
    differ, count = [], 0
    for path in sorted((TOP / "field/languages").glob("*/*.po")):
        compiled = root / "usr/share/portal/field/languages" / path.parent.name / f"{path.stem}.mo"
        if not compiled.exists():
            differ.append(str(compiled))
            continue
        with compiled.open("rb") as file, path.open("rb") as source:
            words, messages = gettext.GNUTranslations(file), [message for message in read_po(source) if message.id and message.string]
        if words.info().get("pot-creation-date") != MOMENT or words.info().get("po-revision-date", MOMENT) != MOMENT:
            differ.append(f"{path.name}: {words.info()}")
        for message in messages:
            if message.fuzzy:
                continue
            count += 1
            one = message.id if isinstance(message.id, str) else message.id[0]
            said = words.gettext(one) if isinstance(message.id, str) else words.ngettext(message.id[0], message.id[1], 1)
            if said not in ([message.string] if isinstance(message.id, str) else message.string):
                differ.append(f"{path.name}: {one}")
    assert count > 500 and not differ, (
        f"the compiled catalogues say what their sources say, at a moment that is fixed  [{count} "
        f"messages; {differ[:3]}]")


def test_the_pages_read_compiled_catalogues(root: pathlib.Path) -> None:
    program = ("from portal_field.lib import languages; "
               "print(languages.Language('de').catalogue.info()['content-type'], languages.CATALOGUES)")
    done = run("/usr/bin/python3", "-c", program, env={**os.environ, "PYTHONPATH": str(root / "usr/share/portal/field")})
    assert done.returncode == 0 and str(root) in done.stdout, (
        f"the pages of the package read them  [{output(done)}]")


def test_manual(root: pathlib.Path) -> None:
    faults = []
    for name, section in COMMANDS.items():
        page = root / f"usr/share/man/man{section}/{name}.{section}.gz"
        if not page.exists():
            faults.append(f"no page {name}")
            continue
        done = run("man", "--warnings", "-E", "UTF-8", "-l", "-Tutf8", "-Z", page, env={**os.environ, "MANROFFSEQ": "", "MANWIDTH": "80"})
        if done.returncode != 0 or done.stderr:
            faults.append(f"{name}: {output(done)}")
        source = gzip.decompress(page.read_bytes()).decode().replace("\\-", "-")
        if "@" in source:
            faults.append(f"{name}: a word between @ signs is left")
        options = set(re.findall(r"(?<![\w-])--[a-z][a-z-]+", helped(root, name))) - {"--help", "--portal", "--root"}
        faults += [f"{name} {option}: not in the manual page" for option in sorted(options) if option not in source]
        for option in sorted(options):
            if name != "portal" and option not in completed(root, name, option):
                faults.append(f"{name} {option}: not completed")
    assert not faults, (
        "each command has its manual page, without a warning; each option is in it, and is completed")


def helped(root: pathlib.Path, name: str) -> str:
    path = root / "usr/bin" / name if name == "portal" else root / "usr/sbin" / name
    if name == "portal":
        return "--db --settings --port --count --now --seed"
    return run("/usr/bin/python3", path.resolve(), "--help").stdout


def completed(root: pathlib.Path, *words: str) -> list[str]:
    path = root / "usr/share/bash-completion/completions/portal"
    return run("bash", "-c", COMPLETE, "bash", path, *words).stdout.split()


def test_completion(root: pathlib.Path) -> None:
    wanted = {("portal", "s"): ["serve"], ("portal", "serve", "--p"): ["--port"], ("portal", "print", "x", "--p"): [],
              ("portal", "answer", "--s"): ["--settings", "--seed"], ("portal", "serve", "--db", ""): ["a-file"],
              ("portal-setup", "--f"): ["--first-look"], ("portal-setup", "--p"): ["--prices-as-shipped"], ("portal-restore", ""): ["a-file"],
              ("portal-setup", "--clerk", ""): []}
    found = {words: completed(root, *words) for words in wanted}
    assert found == wanted, (
        f"completion  [{ {words: seen for words, seen in found.items() if seen != wanted[words]} or len(wanted)}]")
    links = sorted(path.name for path in (root / "usr/share/bash-completion/completions").iterdir())
    assert links == sorted(COMMANDS), "and it is found for each command"


@pytest.mark.parametrize("path, option", [
    ("usr/share/bash-completion/completions/portal", "--{}"), ("usr/share/zsh/vendor-completions/_portal", "--{}"),
    ("usr/share/fish/vendor_completions.d/portal.fish", "-l {}")], ids=["bash", "zsh", "fish"])
def test_each_option_is_completed(root: pathlib.Path, path: str, option: str) -> None:
    """By the words of each command's parser."""
    sources = ("portal_deb/setup.py", "portal_field/doctor/command.py", "portal_field/backup/backup.py",
               "portal_field/backup/restore.py")
    options = {word for name in sources for word, rest in re.findall(
        r'add_argument\("--([a-z-]+)"([^)]*)', (root / KIT / name).read_text()) if "SUPPRESS" not in rest}
    text = (root / path).read_text()
    missing = [word for word in options - {"portal", "root"} if option.format(word) not in text]
    assert {"venue", "drill", "clerk"} <= options and not missing, f"each option is completed  [{missing}]"


def test_links_of_documents(root: pathlib.Path) -> None:
    """Each link of a packed page, and each file of the package that it names by its path."""
    pages = [*(root / "usr/share/doc/portal").rglob("*.md"), *(root / KIT).rglob("*.md")]
    links = [(page, link.partition("#")[0]) for page in pages
             for link in re.findall(r"\]\(([^)\s]+)\)", page.read_text()) if ":" not in link and link[0] != "#"]
    lost = [f"{page.relative_to(root)}: {link}" for page, link in links if not (page.parent / link).exists()]
    assert len(links) > 20 and not lost, f"what a packed page links is packed  [{lost}]"
    names = {page.name for page in pages}
    assert {"OPERATING.md", "API.md", "CLI.md", "TUTORIAL.md", "NEW_MACHINE.md", "INSTALL.md", "SCALE.md"} <= names, (
        f"and who reads at night has the pages for it  [{names}]")


def test_documentation_of_units(root: pathlib.Path) -> None:
    units = [path for path in (root / "lib/systemd/system").iterdir() if path.is_file()]
    named = {path.name: re.findall(r"(?m)^Documentation=(?:file://|man:)(.+)$", path.read_text()) for path in units}
    lost = [name for name, (*pages,) in named.items() if not pages
            or not (root / pages[0].lstrip("/")).exists() and pages != ["portal-backup(8)"]]
    assert units and not lost, f"each unit names a page that is packed  [{lost}]"


@pytest.mark.parametrize("word, package", [("readelf", "binutils"), ("dpkg-deb", "dpkg")])
def test_missing_tools(room: pathlib.Path, word: str, package: str, tmp_path: pathlib.Path) -> None:
    for path in {*pathlib.Path("/usr/bin").iterdir(), *pathlib.Path("/bin").iterdir()}:
        if path.name != word and not (tmp_path / path.name).exists():
            (tmp_path / path.name).symlink_to(path)
    done = run(DEB / "build", "--out", room / "missing", env={**os.environ, "PATH": str(tmp_path)})
    assert (done.returncode, done.stderr) == (2, f"deb/build: apt install {package}\n") and not (room / "missing").exists(), (
        f"what is missing is named in one line, and no package is made  [{output(done)}]")


def test_maintainer(room: pathlib.Path, portal: str) -> None:
    path = build(room / "maintained", portal, words=("--maintainer", "Ada Owner <ada@example.com>"))
    said = run("dpkg-deb", "-f", path, "Maintainer").stdout.strip()
    last = gzip.decompress(run_bytes(path, "./usr/share/doc/portal/changelog.gz")).decode()
    assert said == "Ada Owner <ada@example.com>" and f" -- {said}  " in last, f"who answers for it is named  [{said}]"
    done = run(DEB / "build", "--maintainer", "nobody", "--out", room / "nobody")
    assert done.returncode == 2 and "NAME <ADDRESS>" in done.stderr, f"and it has an address  [{output(done)}]"


def test_licence(root: pathlib.Path) -> None:
    said, mit = (root / "usr/share/doc/portal/copyright").read_text(), (TOP / "LICENSE-MIT").read_text()
    named = [tomllib.loads((TOP / "pyproject.toml").read_text())["project"]["license"],
             *re.findall("SPDX-License-Identifier: (.+)", said),
             *re.findall("(?m)^    identifier: (.+)", (root / "usr/share/doc/portal/openapi.yaml").read_text())]
    assert named == ["MIT OR Apache-2.0"] * 3, f"each list of what this is names the same licence  [{named}]"
    head, begin, grant = mit.partition("Permission is hereby granted, free of charge, to any person obtaining a copy")
    packed = said.partition("\nLicense: MIT\n")[2].partition("\n\n")[0].replace("\n .\n", "\n")
    assert "Copyright (c) the authors of portal\n" in head and (begin + grant).split() == packed.split(), (
        "the package has the text of the MIT licence, as the repository has it, with its holder")
    common = pathlib.Path("/usr/share/common-licenses/Apache-2.0")
    assert (TOP / "LICENSE-APACHE").read_bytes() == common.read_bytes() and str(common) in said, (
        "the text of the Apache licence is Debian's, and the package says where that is")


def test_changelog(root: pathlib.Path) -> None:
    text = gzip.decompress((root / "usr/share/doc/portal/changelog.gz").read_bytes()).decode()
    version = (TOP / "VERSION").read_text().strip()
    assert (text.startswith(f"portal ({version}) ")
            and "One SQLite database; schema versions 1 to 3" in text), (
        f"the Debian changelog begins with the root's version, and has its entry's words  [{text[:60]}]")
    parsed = run("dpkg-parsechangelog", "-l", "-", "-S", "Version", input=text) if shutil.which("dpkg-parsechangelog") else None
    assert parsed is None or parsed.stdout.strip() == version, f"dpkg reads it  [{parsed and output(parsed)}]"


def test_changelog_of_two_versions(tmp_path: pathlib.Path) -> None:
    path = tmp_path / "CHANGELOG.md"
    path.write_text("# Changelog\n\n## Unreleased\n\n- not yet\n\n## 1.1.0 - 2027-02-03\n\n### Added\n\n- one\n  and more\n\n"
                    "## 1.0.0\n\n- the first\n")
    made = run(DEB / "changelog", "1.1.0", path, env={**os.environ, "SOURCE_DATE_EPOCH": AT}).stdout
    assert made == TWO_ENTRIES, (
        "entries keep their order and days; what is not released is left out")


# Set-up's questions

NAMES = ["wifi.venue.lan", "counter.venue.lan"]


def asked(sample: str, answers: list[str], **more: bool) -> tuple[str, list[str]]:
    """What questions make of a sample of field.toml, and what they said; every answer is to be asked for."""
    said: list[str] = []
    here = questions.Here.__new__(questions.Here)
    here.devices, here.way_out = {name: {} for name in ("lan0", "wan0", "ctr0")}, "wan0"
    given = iter(answers)
    text = questions.ask_all(sample, lambda _: None, tomllib.loads(sample), here, said.append, lambda _: next(given), **more)
    return text, [*said, *(f"not asked for: {answer}" for answer in given)]


def test_answers_take_the_places_of_values() -> None:
    text = 'a = "x"    # why\nb = ["1", "2"]   # these\nc = 1.5\nlast = "y"'
    made = questions.with_lines(text, {"a": 'q "q" \\ #', "b": ["3"], "c": 2, "last": "z", "new": "n"})
    assert made == 'a = "q \\"q\\" \\\\ #"    # why\nb = ["3"]   # these\nc = 2\nlast = "z"\nnew = "n"\n', (
        "answers take the places of the lines' values, and comments stay")


def test_leases_for_a_network() -> None:
    wanted = {"10.77.0.1/22": ["10.77.0.50", "10.77.3.250", "1h"], "192.168.5.1/24": ["192.168.5.50", "192.168.5.250", "1h"],
              "192.168.5.254/24": ["192.168.5.50", "192.168.5.250", "1h"], "10.0.0.1/29": ["10.0.0.2", "10.0.0.6", "1h"],
              "10.0.0.6/29": ["10.0.0.1", "10.0.0.5", "1h"], "192.168.5.100/24": ["192.168.5.101", "192.168.5.250", "1h"]}
    found = {address: questions.leases_in(address) for address in wanted}
    assert found == wanted, "leases for a network that was answered"


def test_questions_of_field() -> None:
    sample = (TOP / "field/settings/field.toml").read_text()
    text, said = asked(sample, ["Café", "Europe/Berln", "Europe/Berlin", "clerk", *[""] * 4, *NAMES, *[""] * 3])
    assert (tomllib.loads(text)["zone"] == "CET-1CEST,M3.5.0,M10.5.0/3" and tomllib.loads(text)["currency"] == "EUR"
            and "# the venue's time zone" in text and len(said) == 2
            and "no time zone of this name" in said[1]), (
        "a time zone is answered by its name, and its rule is written; a name that there is not is "
        "asked for again; the currency is that of its country")
    text, said = asked(re.sub('house = "[^"]*"', 'house = ""', sample), ["", "", "Café", *[""] * 6, *NAMES, *[""] * 3])
    assert tomllib.loads(text)["house"] == "Café" and said[1:] == ["  no: it cannot be empty"] * 2, (
        "an empty answer that has no default is asked for again")
    text, said = asked(sample, ["Café", *[""] * 6, *NAMES, "de", "EUR", "Café Guests", "correct horse"])
    lines = tomllib.loads(text)
    assert ([lines[key] for key in ("counter_language", "currency", "wifi", "wifi_password")]
            == ["de", "EUR", "Café Guests", "correct horse"] and len(said) == 1), (
        f"the counter's language, the currency and what is printed of the Wi-Fi are asked for  [{said}]")
    text, said = asked(sample.replace('currency = ""', 'currency = "EUR"'), ["Café", *[""] * 6, *NAMES, "", "-", "-"])
    assert (tomllib.loads(text)["currency"], len(said)) == ("", 1), (
        f"a hyphen leaves a line empty, and without a name no password is asked for  [{said}]")


def test_names_that_nobody_can_have_a_certificate_for() -> None:
    """Those of RFC 2606, also the sample's."""
    sample = (TOP / "field/settings/field.toml").read_text()
    words = ["Café", *[""] * 6]
    text, said = asked(sample, [*words, "", "wifi.test", "wifi.example.com", NAMES[0], "", NAMES[1], "", "-", "-"])
    lines = tomllib.loads(text)
    no = [line for line in said if line.startswith("  no: ")]
    assert ([lines["name"], lines["counter_name"]] == NAMES and len(no) == 4 and no[0] == no[3] == "  no: it cannot be empty"
            and no[1] == "  no: 'wifi.test': nobody can have a certificate for it (RFC 2606); only to see how it works: "
                         "portal-setup --first-look"), (
        f"the sample's names are no answer, and a name of no owner is asked for again  [{said}]")
    text, said = asked(sample, [*words, "", "", "", "-", "-"], takes_any_name=True)
    assert tomllib.loads(text)["name"] == "wifi.example" and len(said) == 1, "with --first-look the sample's names are taken"


def test_questions_of_prices() -> None:
    sample = (TOP / "field/settings/plans.toml").read_text()

    def answered(*answers: str) -> tuple[list[tuple[str, int]], list[str], str]:
        said, given = list[str](), iter(answers)

        def hear(words: str) -> str:
            said.append(words)
            return next(given)

        text = price_questions.ask(sample, said.append, hear)
        return [(plan["id"], plan["price"]) for plan in tomllib.loads(text)["plan"]], said, text

    plans, said, text = answered("2,5", "-", "")
    assert (plans == [("hour", 250), ("gigabyte", 500)] and "The price of hour (1 hour) [3.00]: " in said
            and "The price of gigabyte (1.0 GB, 3 times) [5.00]: " in said), (
        "prices are asked for, plan by plan; an empty answer takes what is in [ ], - leaves a plan out")
    before, after = (tomllib.loads(words)["plan"] for words in (sample, text))
    assert (after == [{**before[0], "price": 250}, before[2]] and "# What the counter sells." in text
            and "A sample" not in text), (
        "the other lines of a plan stay, and the file is no sample any more")
    plans, said, _ = answered("x", "-1", "1000000.01", "3.001", "0", "", "")
    assert plans[0] == ("hour", 0) and sum("  no: " in line for line in said) == 4, (
        f"what is no amount is asked for again  [{said}]")
    plans, said, _ = answered("-", "-", "-", "1000000", "-", "-")
    assert plans == [("hour", 100_000_000)] and "  no: at least one plan is needed" in said, (
        "one plan is needed")
    assert (answered("", "", "")[0] == [(plan["id"], plan["price"]) for plan in before]
            and answered("", "", "")[2] != sample), (
        "taken as they are, the prices stay, and the file is no sample any more")
