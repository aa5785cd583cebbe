"""The view for code scanning services and editors: SARIF 2.1.0, with one rule a kind of error.

Places are relative to the folder that the report's names start from; only a file outside of it has its whole address.
Columns count UTF-16 code units, as these readers do.
"""

import hashlib
import json
import os
import re
from urllib.parse import quote

from .paths import steps_of
from .sources import characters, is_odd_byte
from .summary import NO_NAME
from .words import EVERY_CALL, KINDS, called_by, cause_of, kind_of, left_out_advice

SCHEMA = "https://docs.oasis-open.org/sarif/sarif/v2.1.0/errata01/os/schemas/sarif-schema-2.1.0.json"

BASE = "%SRCROOT%"

# The kinds of notifications: which, and what each says.
NOTIFICATIONS = [
    ("left-out", "An item that wasn't read", "note"),
    ("dropped-paths", "A function with paths that weren't followed to their end", "note"),
    ("source", "A source that can't be shown as it was analysed", "warning"),
]

# What a viewer may know of a step, in the words that the format proposes.
STEP_KINDS = {
    "true": ["branch", "true"],
    "false": ["branch", "false"],
    "allocated": ["acquire", "memory"],
    "free": ["release", "memory"],
    "access": ["memory"],
    "return": ["return", "function"],
}


def clean(text):
    return "".join("\ufffd" if is_odd_byte(character) else character for character in text)


def units(text):
    """How many UTF-16 code units the text has."""
    return len(clean(text).encode("utf-16-le")) // 2


def message(text):
    """A message without what the format would read as a placeholder or a link."""
    text = text.replace("{", "{{").replace("}", "}}")
    return {"text": text.replace("[", "\\[").replace("]", "\\]") if "](" in text else text}


def rule_id(kind):
    return re.sub(r"\W+", "-", kind).strip("-") or "error"


def rule_of(kind):
    words = kind_of(kind)
    text = f"{words.full} {EVERY_CALL}"
    rule = {
        "id": rule_id(kind),
        "name": "".join(word.capitalize() for word in re.split(r"\W+", kind)) or "Error",
        "shortDescription": {"text": words.short},
        "fullDescription": {"text": text},
        "help": {"text": f"{text} {words.help}".strip()},
        "defaultConfiguration": {"level": "error"},
        "properties": {"tags": ["correctness", "memory-safety"], "precision": "very-high", "problem.severity": "error"},
    }
    if words.weakness:
        rule["properties"]["tags"].append(f"external/cwe/cwe-{words.weakness}")
    return rule


class Places:
    """Addresses of files, and places in them."""

    def __init__(self, sources):
        self.sources = sources
        self.root = os.path.abspath(sources.root)
        self.files = []
        self.numbers = {}

    def address(self, name):
        whole = os.path.normpath(os.path.join(self.root, name))
        inside = os.path.relpath(whole, self.root)
        if inside == ".." or inside.startswith("../"):
            return {"uri": "file://" + quote(whole.encode("utf-8", "surrogateescape"))}
        return {"uri": quote(inside.encode("utf-8", "surrogateescape")), "uriBaseId": BASE}

    def artifact(self, name):
        if name not in self.numbers:
            address = self.address(name)
            if address not in self.files:
                self.files.append(address)
            self.numbers[name] = self.files.index(address)
        number = self.numbers[name]
        return dict(self.files[number], index=number)

    def region(self, place):
        spot, _ = self.sources.find(place)
        if spot is None:
            start, end = place.column, place.column + 1
        else:
            start = units(spot.text[: spot.start]) + 1
            end = start + units(spot.text[spot.start : spot.end])
        return {"startLine": place.line, "startColumn": start, "endLine": place.line, "endColumn": end}

    def physical(self, place):
        return {"artifactLocation": self.artifact(place.file), "region": self.region(place)}

    def location(self, place, function=None):
        location = {"physicalLocation": self.physical(place)}
        if function:
            location["logicalLocations"] = [logical(function)]
        return location


def logical(function):
    return {"name": function, "kind": "function"}


def step_location(places, step, number):
    location = places.location(step.place, step.function)
    location["message"] = message(step.text)
    flow = {"location": location, "executionOrder": number, "nestingLevel": step.depth, "importance": "important"}
    kinds = ["call", "function"] if called_by(step.mark) is not None else STEP_KINDS.get(step.mark)
    if kinds:
        flow["kinds"] = kinds
    return flow


def with_texts(physical, place, source, spot):
    """The place with the text of its token, and with the lines around it, for who doesn't have the source."""
    first, last = max(place.line - 1, 1), min(place.line + 1, len(source.lines))
    text = "\n".join(clean(characters(raw)) for raw in source.lines[first - 1 : last])
    physical["region"]["snippet"] = {"text": clean(spot.text[spot.start : spot.end])}
    physical["contextRegion"] = {"startLine": first, "endLine": last, "snippet": {"text": text}}


def fingerprint(bug, line, seen):
    """The same for the same error wherever its line moves: kind, procedure, and the line's words. Errors that agree in
    these are told apart by their order."""
    text = "\0".join([bug.kind, bug.procedure, " ".join(line.split())])
    digest = hashlib.sha256(text.encode("utf-8")).hexdigest()
    seen[digest] = seen.get(digest, 0) + 1
    return f"{digest}:{seen[digest]}"


def result_of(bug, places, rules, seen):
    location = places.location(bug.place, bug.procedure)
    spot, _ = places.sources.find(bug.place)
    if spot:
        with_texts(location["physicalLocation"], bug.place, places.sources.source(bug.place.file), spot)
    steps = steps_of(bug)
    flow = [step_location(places, step, number) for number, step in enumerate(steps, 1)]
    flow[-1]["importance"] = "essential"
    return {
        "ruleId": rule_id(bug.kind),
        "ruleIndex": rules.index(bug.kind),
        "kind": "fail",
        "level": "error",
        "message": message(f"{bug.kind} in {bug.procedure}"),
        "locations": [location],
        "partialFingerprints": {"kindProcedureLine/v1": fingerprint(bug, clean(spot.text) if spot else "", seen)},
        "codeFlows": [{"threadFlows": [{"locations": flow}]}],
    }


def notification(kind, text, locations):
    index = [identifier for identifier, _, _ in NOTIFICATIONS].index(kind)
    said = {"descriptor": {"id": kind, "index": index}, "level": NOTIFICATIONS[index][2], "message": message(text)}
    if locations:
        said["locations"] = locations
    return said


def notifications(report, places):
    said = []
    for item in report.left_out:
        name = None if item.name == NO_NAME else item.name
        text = f"left out {item.name}: {item.word} ({left_out_advice(item.word)})"
        said.append(notification("left-out", text, [places.location(item.place, name)]))
    for drop in report.dropped:
        text = f"dropped {drop.procedure}: {drop.cause}, {drop.count} (what can be done: {cause_of(drop.cause).advice})"
        said.append(notification("dropped-paths", text, [{"logicalLocations": [logical(drop.procedure)]}]))
    # (only now all sources have been read)
    for (name, _), fault in places.sources.notices.items():
        address = {"physicalLocation": {"artifactLocation": places.artifact(name)}}
        said.append(notification("source", f"{name} {fault}", [address]))
    return said


def descriptor(identifier, short, level):
    return {"id": identifier, "shortDescription": {"text": short}, "defaultConfiguration": {"level": level}}


def log_of(report, sources):
    places = Places(sources)
    rules = list(KINDS) + [kind for kind in dict.fromkeys(bug.kind for bug in report.bugs) if kind not in KINDS]
    seen = {}
    results = [result_of(bug, places, rules, seen) for bug in report.bugs]
    said = notifications(report, places)
    driver = {
        "name": "pulsex",
        "fullName": "pulsex, a proved bug finder for C",
        "rules": [rule_of(kind) for kind in rules],
        "notifications": [descriptor(*kind) for kind in NOTIFICATIONS],
    }
    run = {
        "tool": {"driver": driver},
        "invocations": [{"executionSuccessful": True, "toolExecutionNotifications": said}],
        "originalUriBaseIds": {BASE: {"description": {"text": "The folder that the report's file names start from."}}},
        "artifacts": [{"location": address, "sourceLanguage": "c"} for address in places.files],
        "columnKind": "utf16CodeUnits",
        "properties": {"procedures": report.procedures},
        "results": results,
    }
    return {"$schema": SCHEMA, "version": "2.1.0", "runs": [run]}


def render(report, sources):
    # (without blanks: a long path is long enough)
    yield json.dumps(log_of(report, sources), separators=(",", ":"))
    yield "\n"
