#!/usr/bin/env python3
"""Spells the repository's own definitions and lemmas as today's Rattle does: words in snake case, types in upper camel case.

usage: respell.py [FOLDER]

FOLDER is a checkout on which /opt/rattle/port/port.py ran; without one it is the checkout of this script.
Turned are the names that specs/ and the lemma files of proofs/ declare, wherever they are used: in specs/, proofs/, contracts and must-fail edits.
Names that Rattle makes (goals, invariants, fields of Rust) and names of libraries stay. A second run changes nothing.
A line 'meets:' names a file where the new spelling stood already beside the old one: look there.
"""

import glob
import os
import re
import sys

WORD = r"[^\s(){}\[\];,.=→λ×|@«»:\"]+"
DECLARED = re.compile(rf"(?m)(?:^ *|\blet +)(?:(?:pub|abbrev|opaque|unfoldable|record|data|instance) +)*({WORD})(?: *[({{][^\n]*?[)}}])* *:(?= |$)")
MADE = re.compile(r"/proofs/.*/(?:Answers|Invariants|Choices)\.antt$")
USED = re.compile(r"\buse +[^\s{]+\.\{([^}]*)\}")

# Names that read otherwise than their words alone would give.
# Without them two names would fall together; `then` is a word of antt. A lemma beside a function of its name gets `_lem`.
OTHERWISE = {
    "answer-kept": "answer_kept_lem",
    "checkLine": "line_checked",
    "checkLines": "lines_checked",
    "checks-exactly": "checks_exactly_lem",
    "event-read": "event_read_lem",
    "eventBytes": "bytes_of_event",
    "fields-of": "fields_of_lem",
    "from-issuer": "from_issuer_lem",
    "from-owner": "from_owner_lem",
    "holds-writable": "holds_writable_lem",
    "in-range": "in_range_lem",
    "issuer-marked": "issuer_marked_lem",
    "judged-by": "judged_by_lem",
    "keptFor": "lines_kept_for",
    "line-by": "line_by_lem",
    "line-wanted": "line_wanted_lem",
    "markAbove": "marks_above",
    "markIssuer": "issuer_marked",
    "markNeeded": "marks_needed",
    "markWanted": "wanted_marked",
    "markedBytes": "bytes_of_marked",
    "name-place": "name_place_lem",
    "newGate": "fresh_gate",
    "passDay": "day_passed",
    "readEvent": "event_read",
    "rightRow": "row_of_right",
    "same-fact": "same_fact_lem",
    "sameFlag": "is_same_flag",
    "sheetBytes": "bytes_of_sheet",
    "skipLine": "line_skipped",
    "skipLines": "lines_skipped",
    "someRight": "has_some_right",
    "stepTo": "step_toward",
    "takeFirst": "first_taken",
    "then": "and_then",
    "walk-by": "walk_by_lem",
}


def spelled(name):
    """The name in snake case, or in upper camel case where it begins with a capital letter."""
    if name in OTHERWISE:
        return OTHERWISE[name]
    if name[0].isupper():
        return "".join(part[:1].upper() + part[1:] for part in name.split("-"))
    return re.sub(r"(?<=[a-z0-9_])[A-Z]", lambda m: "_" + m[0].lower(), name.replace("-", "_")).replace("__", "_")


def is_plain(name):
    """Whether the name is an English word too."""
    return name.isalpha() and name.islower()


def is_turned(name):
    return name in OTHERWISE or bool(re.match(r"[A-Za-z]", name) and re.fullmatch(r"[\w'-]+", name)) and spelled(name) != name


def files(top, *patterns):
    return sorted(f for p in patterns for f in glob.glob(os.path.join(top, "crates/*", p), recursive=True))


def read(path):
    with open(path, encoding="utf-8") as f:
        return f.read()


def declared_in(top):
    names = set()
    for path in files(top, "specs/*.antt", "proofs/*.antt"):
        text = re.sub(r"--[^\n]*", "", read(path))
        names.update(DECLARED.findall(text))
        if "/specs/" in path:
            names.update(word for word in re.findall(WORD, re.sub(r"\buse [^\n]*", "", text)) if "-" in word)
    return {name for name in names if is_turned(name)}


def without_another_name(text):
    """`rt ci` refuses a word of std under the name of another: it is written by its own."""
    if "AllByRecursion as All" not in text:
        return text
    parts = re.split(r"(--[^\n]*)", text.replace("AllByRecursion as All", "AllByRecursion"))
    parts[::2] = [re.sub(r"(?<![\w'.-])All(?![\w'-])", "AllByRecursion", part) for part in parts[::2]]
    return "".join(parts)


def turn(text, names):
    """The text with the names turned; a plain word stays in comments, and behind an `if`."""
    if not names:
        return text
    one = "|".join(re.escape(name) for name in sorted(names, key=len, reverse=True))
    stays = r"--[^\n]*|//[^\n]*|\bif\b[^\n]*?\bthen\b"
    whole = re.compile(rf"(?<![\w'-])(?:{one})(?![\w'-])")
    turned = lambda m: m[0] if is_plain(m[0]) else spelled(m[0])
    parts = re.split(f"({stays})", text)
    return "".join(whole.sub(turned if i % 2 else lambda m: spelled(m[0]), part) for i, part in enumerate(parts))


def main():
    top = sys.argv[1] if len(sys.argv) > 1 else os.path.join(os.path.dirname(os.path.realpath(__file__)), "..")
    names = declared_in(top)
    changed = 0
    for path in files(top, "specs/*.antt", "proofs/**/*.antt", "src/**/*.rt", "must-fail/*.edit"):
        text = read(path)
        brought = {word.strip() for group in USED.findall(text) for word in group.split(",")}
        here = names & brought if MADE.search(path) else names
        # A plain word may stand for something else where it is neither declared nor brought in.
        known = brought | set(DECLARED.findall(text))
        here = {name for name in here if name in known or not is_plain(name)}
        new = without_another_name(turn(text, here))
        if new == text:
            continue
        code = re.sub(r"--[^\n]*|//[^\n]*", "", text)
        words = set(re.findall(r"[\w'-]+", code))
        for name in sorted(here & words):
            if spelled(name) in words:
                print(f"meets: {path}: {name} and {spelled(name)}")
        with open(path, "w", encoding="utf-8") as f:
            f.write(new)
        changed += 1
    print(f"respell: {len(names)} names, {changed} files changed")


main()
