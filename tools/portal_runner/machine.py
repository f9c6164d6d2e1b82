"""What ./test has to know of this machine: the program of these sources, who runs it, what is installed."""

from __future__ import annotations

import functools
import gzip
import hashlib
import importlib.util
import os
import shutil
import subprocess
import sys
from pathlib import Path
from types import ModuleType

from . import crates
from .inputs import Repository
from .steps import Step

SHIPPED = "dist/x86_64-linux/portal"
NO_PROGRAM = "no program was built from these sources (./portal --help builds it)"
FIRST_RELEASE = "9140408ccd8e8387a1a913133e6bb669b5074818"
PROBE_SECONDS = 1200
ROOM = Path(__file__).with_name("room.py")


def needs_module(top: Path) -> ModuleType:
    """field/test/needs.py, which knows what a Debian package brings."""
    spec = importlib.util.spec_from_file_location("needs", top / "field/test/needs.py")
    assert spec and spec.loader
    module = importlib.util.module_from_spec(spec)
    spec.loader.exec_module(module)
    return module


class Machine:
    """What of this machine belongs to a step's digest, and why it cannot run here."""

    def __init__(self, repository: Repository, probes: dict[str, list[str]]) -> None:
        self.top, self.probes = repository.top, probes
        self.module = needs_module(self.top)
        self.kit = crates.kit_here()
        self.program: Path | None = None
        self.program_sum = "none"

    def find_program(self, folder: Path) -> None:
        """Puts the program of these sources there, shipped or built here, if there is one."""
        try:
            sources = crates.sum_of_sources(self.top)
            rows = (self.top / f"{SHIPPED}.txt").read_text(encoding="utf-8").splitlines()
            if f"sources: {sources}" in rows:
                text = gzip.decompress((self.top / f"{SHIPPED}.gz").read_bytes())
            elif (self.top / "out/portal.from").read_text(encoding="utf-8").startswith(f"{sources}\n"):
                text = (self.top / "out/portal").read_bytes()
            else:
                return
        except (OSError, EOFError, subprocess.CalledProcessError):
            return
        folder.mkdir()
        self.program, self.program_sum = folder / "portal", hashlib.sha256(text).hexdigest()
        self.program.write_bytes(text)
        self.program.chmod(0o755)

    def packages_of(self, step: Step) -> list[str]:
        """The needs of a step as field/test/needs.py names them: packages, root, namespaces."""
        found: list[str] = []
        for word in (*step.needs, *step.uses):
            if word not in ("rt", "program", "history"):
                found += self.module.NEEDS.get(word, (word,))
        return list(dict.fromkeys(found))

    @functools.cached_property
    def versions(self) -> dict[str, str]:
        """The Debian packages that are installed."""
        words = ["dpkg-query", "-W", "-f", "${Package} ${Version} ${db:Status-Status}\n"]
        try:
            rows = subprocess.run(words, capture_output=True, text=True).stdout.splitlines()
        except OSError:
            return {}
        return {
            name: version
            for name, version, status in (row.split(" ") for row in rows)
            if status == "installed"
        }

    @functools.cache
    def has(self, need: str) -> bool:
        """Whether a need is there; a package that needs.py does not know has a command of its name."""
        try:
            return bool(self.module.lacks(need) == "")
        except KeyError:
            return shutil.which(need) is not None

    @functools.cached_property
    def user(self) -> str:
        """Root or not, and what it may do."""
        rows = Path("/proc/self/status").read_text(encoding="utf-8").splitlines()
        return f"root={os.geteuid() == 0} {[it for it in rows if it.startswith('CapEff')]}"

    def facts(self, step: Step, has_program: bool = True) -> list[str]:
        """What belongs to a step's digest beside its files; the program only where that is asked for."""
        own = [hashlib.sha256(ROOM.read_bytes()).hexdigest(), self.user, f"python {sys.version_info[:2]}"]
        for need in self.packages_of(step):
            own.append(f"{need} {self.versions.get(need) or self.has(need)}")
        if "rt" in step.needs:
            own.append(self.kit)
        if "history" in step.uses:
            own.append(FIRST_RELEASE if self.has_first_release else "no history")
        if step.needs_program() and has_program:
            own.append(self.program_sum)
        return own

    @functools.cached_property
    def has_first_release(self) -> bool:
        words = ["git", "-C", str(self.top), "cat-file", "-e", f"{FIRST_RELEASE}^{{commit}}"]
        try:
            return subprocess.run(words, capture_output=True).returncode == 0
        except OSError:
            return False

    def why_not(self, step: Step) -> str:
        """Why a step cannot run here, or nothing."""
        if "rt" in step.needs and not self.kit:
            return "the command rt of the Rattle kit is not on the path"
        if step.needs_program() and not self.program:
            return NO_PROGRAM
        for kind in step.needs:
            if kind in ("rt", "program"):
                continue
            why = self.module.lacks(*self.module.NEEDS.get(kind, (kind,))) or self.probe(kind)
            if why:
                return str(why)
        return ""

    @functools.cache
    def probe(self, kind: str) -> str:
        """Why machines of a kind cannot be started here, or nothing; it is tried, which makes their bases."""
        if kind not in self.probes:
            return ""
        try:
            ran = subprocess.run(
                self.probes[kind],
                cwd=self.top,
                stdin=subprocess.DEVNULL,
                stdout=subprocess.PIPE,
                stderr=subprocess.STDOUT,
                text=True,
                errors="replace",
                timeout=PROBE_SECONDS,
            )
        except subprocess.TimeoutExpired:
            return f"no {kind} can be started: not within {PROBE_SECONDS / 60:.0f} minutes"
        if ran.returncode == 0:
            return ""
        lines = ran.stdout.splitlines() or [""]
        network = ", mmdebstrap has no network" if "Failed to fetch" in ran.stdout else ""
        fault = next((it for it in lines if it.startswith("E: ")), lines[-1])
        return f"no {kind} can be started{network}: {fault}"
