#!/usr/bin/python3 -IS
"""Stands in for the program, where that isn't built: each reply depends on all lines before it, so that one line that is
lost, done twice, or done in another order changes all that follow. It begins at once, which the module by node doesn't."""
import json
import sys
from _md5 import md5  # type: ignore[import]


def answer(line: bytes, told: dict[str, object]) -> dict[str, object]:
    """The reply to a line."""
    asked = json.loads(line)
    if "show" in asked:
        state = {"root": {"digest": told["digest"]}}
        return {"state": state} if asked["show"] == "state" else {"view": f"<div>{told['digest']}</div>"}
    if "flush" in asked:
        return {"idle": True}
    if "load" in asked:
        told["digest"] = asked["load"]["root"]["digest"]
    else:
        told["digest"] = md5(str(told["digest"]).encode() + line).hexdigest()
    told["count"] = int(str(told["count"])) + 1
    if "rule" in asked or "listener" in asked:
        return {"registered": told["count"]}
    return {"commit": told["count"], "ops": [["text", 1, told["digest"]]]}


def main() -> None:
    """Answers lines until there are none."""
    told: dict[str, object] = {"digest": "", "count": 0}
    for line in sys.stdin.buffer:
        reply = json.dumps(answer(line, told), separators=(",", ":"))
        sys.stdout.write(reply + "\n")
        sys.stdout.flush()


main()
