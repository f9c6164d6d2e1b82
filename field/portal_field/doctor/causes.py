"""Causes before effects: what each part of a venue stands on, and which finding follows from which."""

from __future__ import annotations

from collections.abc import Container, Iterable, Mapping
from dataclasses import dataclass

from portal_field.doctor.findings import Finding, State

UNIT = ("set up", "libraries")      # of a unit of the kit
# What a subject stands on: a check by its name, or what a check's finding is about. Where one of these is
# wrong, what is found of the subject follows from that. Of a subject that is not here: OTHERS.
STANDS_ON: dict[str, tuple[str, ...]] = {
    **dict.fromkeys(("settings", "program", "libraries", "nft package", "nginx package", "dnsmasq package",
                     "versions", "disk"), ()),
    "set up": ("settings",),
    "without settings": ("settings",),
    "zone": ("set up", "program"),
    "certificate files": ("set up", "name"),
    "guests address": ("lan",), "counter address": ("counter",), "wan address": ("wan",),
    "portal": (*UNIT, "program", "start of portal", "place of portal"),
    "portal-rules": ("set up", "nft package", "lan"),
    **dict.fromkeys(("portal-gateway", "portal-leases", "portal-lookup@1", "portal-lookup@2"),
                    (*UNIT, "lan")),
    **dict.fromkeys(("portal-front", "portal-counter"), UNIT),
    "portal-backup": (*UNIT, "disk"),
    "nginx": ("set up", "nginx package", "place of nginx", "guests address", "certificate files"),
    "portal-counter-nginx": ("set up", "nginx package", "place of portal-counter-nginx", "counter address",
                             "certificate files"),
    "dnsmasq": ("set up", "dnsmasq package", "place of dnsmasq", "guests address", "dnsmasq's files"),
    **{f"ports of {unit}": (unit,) for unit in ("portal", "nginx", "portal-counter-nginx", "dnsmasq")},
    "rules": ("portal-rules",),
    "grace timer": ("rules", "portal-gateway", "server"),
    "bound": ("rules", "portal-leases"),
    "ipv6": ("portal-gateway",),
    "connections": ("nginx",),
    "server": ("portal",),
    "plans at the server": ("server", "portal-counter"),
    "nightly copies": ("portal-backup", "portal-backup.timer"),
}
OTHERS = ("set up",)


@dataclass(frozen=True)
class Traced:
    """A finding of a check, and what it follows from: the place of another finding, or None."""
    check: str
    finding: Finding
    cause: int | None


def cause_of(subject: str, down: Mapping[str, int], good: Container[str]) -> int | None:
    """The place of the first cause below a subject, by the places of what is down. What is good hides what is
    below it."""
    for need in STANDS_ON.get(subject, OTHERS):
        if need not in good:
            found = cause_of(need, down, good)
            if found is not None or need in down:
                return down[need] if found is None else found
    return None


def trace(findings: Iterable[tuple[str, Finding]]) -> list[Traced]:
    """Each finding with its cause. What is wrong explains all that is not good; what could not be looked at
    explains other such findings."""
    rows = list(findings)
    subjects = [finding.about or check for check, finding in rows]
    places: dict[State, dict[str, int]] = {state: {} for state in State}
    for place, (subject, (_, finding)) in enumerate(zip(subjects, rows)):
        places[finding.state][subject] = place
    wrong, not_seen = places[State.WRONG], {**places[State.PASSED_OVER], **places[State.WRONG]}
    good = places[State.GOOD].keys() - not_seen.keys()
    down: dict[State, dict[str, int]] = {State.WRONG: wrong, State.WARNING: wrong, State.NOTE: wrong,
                                         State.PASSED_OVER: not_seen, State.GOOD: {}}
    return [Traced(check, finding, cause_of(subject, down[finding.state], good))
            for subject, (check, finding) in zip(subjects, rows)]


def folded(count: int) -> str:
    """What is said of so many findings that follow from one."""
    words = ("follows", "it") if count == 1 else ("follow", "them")
    return f"{count} more {words[0]} from this: portal-doctor --all shows {words[1]}"
