#!/usr/bin/env python3
"""Checks lines against lines.schema.json, the JSON Schema of lines.

    python3 examples/check_schema.py              the stored sessions of lx_rows, with their replies
    python3 examples/check_schema.py FILE..       the lines of these files, or of standard input (-)

Of the stored sessions, each line that the program took has to fit, and lines that it refused for their form but that fit
are listed, since there is something that a schema can't say. Of files, each line that doesn't fit is told with the
place where it doesn't. The status is 1 where a line that has to fit doesn't. It needs nothing but Python's library.
"""
import json
import os
import re
import sys

HERE = os.path.dirname(os.path.abspath(__file__))
ROWS = os.path.join(HERE, "..", "crates", "lx_rows")
TYPES = {
    "object": lambda v: isinstance(v, dict),
    "array": lambda v: isinstance(v, list),
    "string": lambda v: isinstance(v, str),
    "boolean": lambda v: isinstance(v, bool),
    "null": lambda v: v is None,
    # 1.0 is no whole number in a line, though JSON Schema takes it for one.
    "integer": lambda v: isinstance(v, int) and not isinstance(v, bool),
}


def same(one, other):
    return type(one) is type(other) and one == other


class Schema:
    """A schema of the few words that lines.schema.json uses."""

    def __init__(self, whole):
        self.whole = whole

    def faults(self, value, schema=None, path=()):
        """Where and why the value doesn't fit: a list of (path, why), nothing where it fits."""
        schema = self.whole if schema is None else schema
        if schema is True:
            return []
        if "$ref" in schema:
            return self.faults(value, self.whole["$defs"][schema["$ref"].split("/")[-1]], path)
        if "anyOf" in schema:
            return self.faults_of_any(value, schema["anyOf"], path)
        if "const" in schema and not same(value, schema["const"]):
            return [(path, f"has to be {json.dumps(schema['const'])}")]
        if "enum" in schema and not any(same(value, it) for it in schema["enum"]):
            return [(path, f"is none of {', '.join(map(json.dumps, schema['enum']))}")]
        if "type" in schema and not TYPES[schema["type"]](value):
            return [(path, f"has to be of the type {schema['type']}")]
        if isinstance(value, dict):
            return self.faults_of_members(value, schema, path)
        if isinstance(value, list):
            return self.faults_of_items(value, schema, path)
        if isinstance(value, str) and len(value) > schema.get("maxLength", len(value)):
            return [(path, f"has more than {schema['maxLength']} characters")]
        if TYPES["integer"](value):
            least, most = schema.get("minimum", value), schema.get("maximum", value)
            if not least <= value <= most:
                return [(path, f"is not from {schema.get('minimum')} to {schema.get('maximum')}")]
        return []

    def faults_of_any(self, value, choices, path):
        """Of choices the faults of the one that is likely meant: of the value's type, lacking no member, with the fewest faults."""
        tried = []
        for choice in choices:
            found = self.faults(value, choice, path)
            if not found:
                return []
            is_other = any(at == path and why.startswith(("lacks ", "has to be of the type ")) for at, why in found)
            tried.append(((is_other, len(found), -max(len(at) for at, _ in found)), found))
        best = min(rank for rank, _ in tried)
        likely = [found for rank, found in tried if rank == best]
        if best[0]:
            return [(path, "is none of the forms that may stand here")]
        if len({found[0] for found in likely}) > 1:
            return [(likely[0][0][0], "has a value or a member that may not stand here")]
        return likely[0]

    def faults_of_members(self, value, schema, path):
        known = schema.get("properties", {})
        found = [(path, f"lacks {name}") for name in schema.get("required", []) if name not in value]
        if schema.get("additionalProperties") is False:
            found += [(path, f"has a member that it can't have: {name}") for name in value if name not in known]
        for name, inner in value.items():
            if name in known:
                found += self.faults(inner, known[name], (*path, name))
        return found

    def faults_of_items(self, value, schema, path):
        if not schema.get("minItems", 0) <= len(value) <= schema.get("maxItems", len(value)):
            return [(path, f"has to have {schema['minItems']} items")]
        front = schema.get("prefixItems", [])
        found = []
        for at, inner in enumerate(value):
            one = front[at] if at < len(front) else schema.get("items", True)
            found += self.faults(inner, one, (*path, at))
        return found


def told(fault):
    path, why = fault
    return f"/{'/'.join(map(str, path))} {why}"


def faults_of_line(schema, line):
    """Why a line doesn't fit, in words."""
    try:
        value = json.loads(line)
    except (ValueError, RecursionError) as error:
        return [f"no JSON: {error}"]
    return [told(it) for it in schema.faults(value)]


def sessions(name):
    """The stored sessions of a file of lx_rows: a list of names, and of lists of what stands behind each."""
    with open(os.path.join(ROWS, name), encoding="utf-8", errors="surrogateescape", newline="\n") as file:
        parts = re.split(r"^=== (.*)\n", file.read(), flags=re.M)[1:]
    return [(parts[at], parts[at + 1].split("\n")[:-1]) for at in range(0, len(parts), 2)]


def lines_sent(stored):
    """The lines of a session, as many as were sent: None for one that a line of stars stands for. And whether the last reply
    alone is stored."""
    sent, only_last = [], False
    for line in stored:
        if not line.startswith("*** "):
            sent.append(line)
            continue
        word, _, rest = line[4:].partition(" ")
        only_last = only_last or word == "last"
        if word == "times":
            count, _, repeated = rest.partition(" ")
            sent += [repeated] * int(count)
        elif word == "unended":
            sent.append(rest)
        elif word not in ("last", "words"):
            sent += [None] * (int(rest) if word == "keys" else 1)
    return sent, only_last


def is_refused_for_form(reply):
    return re.match(r'\{("handled":false,)?"refused":\{"cause":"Bad(Line|Command)","code":\d,"detail":null,"step":null\}', reply)


def check_rows(schema):
    """Checks the stored sessions, and answers whether each line that was taken fits."""
    counts = {"taken": 0, "refused": 0}
    bad, passed = [], []
    for (name, stored), (_, replies) in zip(sessions("stdin"), sessions("stdout")):
        sent, only_last = lines_sent(stored)
        if replies[:1] == ["*** lexical: usage"]:
            continue
        pairs = list(zip(sent[-1:], replies[-1:])) if only_last else list(zip(sent, replies))
        for line, reply in pairs:
            if line is None:
                continue
            found = faults_of_line(schema, line)
            if is_refused_for_form(reply):
                counts["refused"] += 1
                passed += [] if found else [(name, line)]
            else:
                counts["taken"] += 1
                bad += [(name, line, found)] if found else []
    for name, line, found in bad:
        print(f"taken, but doesn't fit: {name}: {line[:300]}: {found[0]}")
    for name, line in passed:
        print(f"refused, but fits: {name}: {line[:300]}")
    print(f"{counts['taken']} lines that were taken, of which {len(bad)} don't fit; "
          f"{counts['refused']} that were refused for their form, of which {len(passed)} fit")
    return not bad


def check_file(schema, name):
    """Checks the lines of a file, and answers whether each fits."""
    fits = True
    with open(0 if name == "-" else name, encoding="utf-8") as file:
        for number, line in enumerate(file, 1):
            found = faults_of_line(schema, line.rstrip("\n"))
            fits = fits and not found
            for it in found:
                print(f"{name}:{number}: {it}")
    return fits


def main():
    with open(os.path.join(HERE, "lines.schema.json"), encoding="utf-8") as file:
        schema = Schema(json.load(file))
    files = sys.argv[1:]
    fit = all([check_file(schema, it) for it in files]) if files else check_rows(schema)
    return 0 if fit else 1


if __name__ == "__main__":
    sys.exit(main())
