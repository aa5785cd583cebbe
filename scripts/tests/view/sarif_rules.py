"""The rules of SARIF 2.1.0 for the parts of it that a view of a report may have, and what code scanning services ask
beyond them. `faults(log)` lists what a log breaks.

Of each object: what it must have, and the type of each property that it may have. Any other property is a fault.
"""

import re

TEXT, TRUTH, BAG, ANY = "text", "truth", "bag", "any"
LEVEL = ("none", "note", "warning", "error")


class Many:
    """A list, with at least so many elements."""

    def __init__(self, of, least=0):
        self.of = of
        self.least = least


class Named:
    """An object whose properties all have one type."""

    def __init__(self, of):
        self.of = of


class Whole:
    """A whole number, not below the least."""

    def __init__(self, least):
        self.least = least


class Object:
    """An object of a kind that OBJECTS has."""

    def __init__(self, kind):
        self.kind = kind


class Uri:
    """An address, whole or relative."""


def texts(*names):
    return {name: TEXT for name in names}


MESSAGE, ADDRESS = Object("message"), Object("artifactLocation")

OBJECTS = {
    "log": (["version", "runs"], {"$schema": Uri(), "version": ("2.1.0",), "runs": Many(Object("run")), "properties": BAG}),
    "run": (
        ["tool"],
        {
            "tool": Object("tool"),
            "invocations": Many(Object("invocation")),
            "originalUriBaseIds": Named(ADDRESS),
            "artifacts": Many(Object("artifact")),
            "results": Many(Object("result")),
            "columnKind": ("utf16CodeUnits", "unicodeCodePoints"),
            "language": TEXT,
            "defaultEncoding": TEXT,
            "defaultSourceLanguage": TEXT,
            "properties": BAG,
        },
    ),
    "tool": (["driver"], {"driver": Object("toolComponent"), "extensions": Many(Object("toolComponent")), "properties": BAG}),
    "toolComponent": (
        ["name"],
        {
            **texts("name", "fullName", "version", "semanticVersion", "organization", "product"),
            "informationUri": Uri(),
            "shortDescription": Object("multiformatMessageString"),
            "fullDescription": Object("multiformatMessageString"),
            "rules": Many(Object("reportingDescriptor")),
            "notifications": Many(Object("reportingDescriptor")),
            "properties": BAG,
        },
    ),
    "reportingDescriptor": (
        ["id"],
        {
            **texts("id", "name"),
            "shortDescription": Object("multiformatMessageString"),
            "fullDescription": Object("multiformatMessageString"),
            "help": Object("multiformatMessageString"),
            "helpUri": Uri(),
            "defaultConfiguration": Object("reportingConfiguration"),
            "properties": BAG,
        },
    ),
    "multiformatMessageString": (["text"], {**texts("text", "markdown"), "properties": BAG}),
    "reportingConfiguration": ([], {"enabled": TRUTH, "level": LEVEL, "rank": ANY, "properties": BAG}),
    "invocation": (
        ["executionSuccessful"],
        {
            "executionSuccessful": TRUTH,
            "exitCode": ANY,
            "exitCodeDescription": TEXT,
            "commandLine": TEXT,
            "workingDirectory": ADDRESS,
            "toolExecutionNotifications": Many(Object("notification")),
            "toolConfigurationNotifications": Many(Object("notification")),
            "properties": BAG,
        },
    ),
    "notification": (
        ["message"],
        {
            "message": MESSAGE,
            "level": LEVEL,
            "locations": Many(Object("location")),
            "descriptor": Object("reportingDescriptorReference"),
            "associatedRule": Object("reportingDescriptorReference"),
            "properties": BAG,
        },
    ),
    "reportingDescriptorReference": ([], {"id": TEXT, "index": Whole(-1), "guid": TEXT, "properties": BAG}),
    "artifact": (
        [],
        {
            **texts("mimeType", "encoding", "sourceLanguage"),
            "location": ADDRESS,
            "length": Whole(-1),
            "roles": Many(TEXT),
            "hashes": Named(TEXT),
            "properties": BAG,
        },
    ),
    "artifactLocation": ([], {"uri": Uri(), "uriBaseId": TEXT, "index": Whole(-1), "description": MESSAGE, "properties": BAG}),
    "artifactContent": ([], {"text": TEXT, "properties": BAG}),
    "message": ([], {**texts("text", "markdown", "id"), "arguments": Many(TEXT), "properties": BAG}),
    "result": (
        ["message"],
        {
            "ruleId": TEXT,
            "ruleIndex": Whole(-1),
            "kind": ("notApplicable", "pass", "fail", "review", "open", "informational"),
            "level": LEVEL,
            "message": MESSAGE,
            "locations": Many(Object("location")),
            "relatedLocations": Many(Object("location")),
            "codeFlows": Many(Object("codeFlow")),
            "partialFingerprints": Named(TEXT),
            "fingerprints": Named(TEXT),
            "rank": ANY,
            "properties": BAG,
        },
    ),
    "location": (
        [],
        {
            "id": Whole(-1),
            "physicalLocation": Object("physicalLocation"),
            "logicalLocations": Many(Object("logicalLocation")),
            "message": MESSAGE,
            "properties": BAG,
        },
    ),
    "physicalLocation": (
        ["artifactLocation"],
        {"artifactLocation": ADDRESS, "region": Object("region"), "contextRegion": Object("region"), "properties": BAG},
    ),
    "region": (
        [],
        {
            **{name: Whole(1) for name in ("startLine", "startColumn", "endLine", "endColumn")},
            "snippet": Object("artifactContent"),
            "message": MESSAGE,
            "sourceLanguage": TEXT,
            "properties": BAG,
        },
    ),
    "logicalLocation": (
        [],
        {**texts("name", "fullyQualifiedName", "decoratedName", "kind"), "index": Whole(-1), "parentIndex": Whole(-1), "properties": BAG},
    ),
    "codeFlow": (["threadFlows"], {"threadFlows": Many(Object("threadFlow"), 1), "message": MESSAGE, "properties": BAG}),
    "threadFlow": (["locations"], {"id": TEXT, "locations": Many(Object("threadFlowLocation"), 1), "message": MESSAGE, "properties": BAG}),
    "threadFlowLocation": (
        [],
        {
            "location": Object("location"),
            "kinds": Many(TEXT),
            "nestingLevel": Whole(0),
            "executionOrder": Whole(-1),
            "importance": ("important", "essential", "unimportant"),
            "properties": BAG,
        },
    ),
}


def of_type(value, wanted, where):
    """What breaks the type, each with its place."""
    if isinstance(wanted, tuple):
        return [] if value in wanted else [f"{where}: {value!r} is none of {wanted}"]
    if isinstance(wanted, Many):
        if not isinstance(value, list) or len(value) < wanted.least:
            return [f"{where} is no list of at least {wanted.least}"]
        return [fault for n, one in enumerate(value) for fault in of_type(one, wanted.of, f"{where}[{n}]")]
    if isinstance(wanted, Named):
        if not isinstance(value, dict):
            return [f"{where} is no object"]
        return [fault for name, one in value.items() for fault in of_type(one, wanted.of, f"{where}.{name}")]
    if isinstance(wanted, Whole):
        fine = isinstance(value, int) and not isinstance(value, bool) and value >= wanted.least
        return [] if fine else [f"{where}: {value!r} is no whole number from {wanted.least}"]
    if isinstance(wanted, Uri):
        fine = isinstance(value, str) and re.fullmatch(r"([A-Za-z0-9\-._~:/?#\[\]@!$&'()*+,;=]|%[0-9A-Fa-f]{2})*", value)
        return [] if fine else [f"{where}: {value!r} is no address"]
    if isinstance(wanted, Object):
        return of_object(value, wanted.kind, where)
    classes = {TEXT: str, TRUTH: bool, BAG: dict, ANY: object}
    return [] if isinstance(value, classes[wanted]) else [f"{where}: {value!r} is no {wanted}"]


def of_object(value, kind, where):
    if not isinstance(value, dict):
        return [f"{where} is no {kind}"]
    needed, known = OBJECTS[kind]
    found = [f"{where} has no {name}" for name in needed if name not in value]
    for name, one in value.items():
        found += of_type(one, known[name], f"{where}.{name}") if name in known else [f"{where}: a {kind} has no {name}"]
    return found


def objects(value, name=None):
    """Each object in the value, with the name of the property that holds it or its list."""
    if isinstance(value, dict):
        yield name, value
        for key, one in value.items():
            yield from objects(one, key)
    elif isinstance(value, list):
        for one in value:
            yield from objects(one, name)


def address_faults(address, run):
    uri, base, index = address.get("uri"), address.get("uriBaseId"), address.get("index")
    if base is not None:
        if base not in run.get("originalUriBaseIds", {}):
            yield f"{base} isn't among the bases"
        if uri is not None and (re.match(r"[A-Za-z][A-Za-z0-9+.-]*:", uri) or uri.startswith("/") or ".." in uri.split("/")):
            yield f"{uri} isn't below {base}"
    elif uri is not None and not uri.startswith("file:///"):
        yield f"{uri} has no base and isn't the whole address of a file"
    if index is not None:
        known = run.get("artifacts", [])
        if not 0 <= index < len(known) or known[index]["location"] != {k: v for k, v in address.items() if k != "index"}:
            yield f"artifact {index} isn't {uri}"


def region_faults(region):
    start, end = region.get("startLine", 0), region.get("endLine", region.get("startLine", 0))
    if end < start or (end == start and region.get("endColumn", 1 << 60) <= region.get("startColumn", 0)):
        yield f"the region {region} ends where it begins or before"


def result_faults(result, rules):
    index = result.get("ruleIndex", -1)
    if not 0 <= index < len(rules) or rules[index]["id"] != result.get("ruleId"):
        yield f"rule {index} isn't {result.get('ruleId')}"
    if len(result.get("locations", [])) != 1 or not result.get("partialFingerprints"):
        yield "a result has not one place, or no fingerprint"
    for location in result.get("locations", []):
        region = location["physicalLocation"].get("region", {})
        if any(name not in region for name in ("startLine", "startColumn", "endLine", "endColumn")):
            yield "the place of a result isn't whole"
    for _, flow in objects(result.get("codeFlows", []), "codeFlows"):
        orders = [step.get("executionOrder") for step in flow.get("locations", []) if "location" in step]
        if orders != list(range(1, len(orders) + 1)):
            yield f"the steps of a path are out of order: {orders}"


def context_faults(physical):
    inner, outer = physical.get("region"), physical.get("contextRegion")
    if inner and outer and not outer["startLine"] <= inner["startLine"] <= inner["endLine"] <= outer["endLine"]:
        yield f"{outer} isn't around {inner}"


def run_faults(run):
    driver = run["tool"]["driver"]
    rules, kinds = driver.get("rules", []), driver.get("notifications", [])
    if len({rule["id"] for rule in rules}) != len(rules):
        yield "two rules have one name"
    for rule in rules:
        if any(name not in rule for name in ("name", "shortDescription", "fullDescription", "help", "defaultConfiguration")):
            yield f"the rule {rule['id']} isn't whole"
    for name, one in objects(run):
        if name in ("artifactLocation", "location") and "uri" in one:
            yield from address_faults(one, run)
        if name in ("region", "contextRegion"):
            yield from region_faults(one)
        if name == "physicalLocation":
            yield from context_faults(one)
        if name == "descriptor" and kinds[one["index"]]["id"] != one["id"]:
            yield f"notification {one['index']} isn't {one['id']}"
        if name == "message" and "text" not in one:
            yield "a message has no text"
    for result in run.get("results", []):
        yield from result_faults(result, rules)
    prints = [str(result.get("partialFingerprints")) for result in run.get("results", [])]
    if len(set(prints)) != len(prints):
        yield "two results have one fingerprint"


def faults(log):
    found = of_object(log, "log", "log")
    # (what isn't of the form has no meaning to look at)
    return found or [fault for run in log["runs"] for fault in run_faults(run)]
