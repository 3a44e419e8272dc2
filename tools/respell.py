#!/usr/bin/env python3
"""Brings the repository's own definitions and lemmas to the library's spelling, after port.py.

usage: python3 tools/respell.py      at the top of the repository, once

Words of specs/ and proofs/ come into snake case: `measureOf` becomes `measure_of`, `triangle-holds` becomes `triangle_holds`. Names that
Rattle makes (goals and steps), functions of src/, exported names, strings, inputs and outputs stay. Two names that would fall together
are kept apart by LEMMAS below. One file whose name Rattle now takes for itself moves.
"""
import collections
import os
import re
import sys

# Lemmas that would have the name of a definition.
LEMMAS = {
    "answer-bytes": "answer_bytes_lem", "answer-fits": "answer_fits_lem", "answer-kind": "answer_has_kind", "answer_ok": "answer_is_ok",
    "answer-out": "answer_out_lem", "answer-read": "answer_read_lem", "ask-fits": "ask_fits_lem", "ask-kind": "ask_has_kind",
    "ask-line": "ask_line_lem", "ask-ok": "ask_is_ok", "ask_out": "ask_out_lem", "ask-read": "ask_read_lem",
    "ask-written": "ask_written_lem", "claim-fits": "claim_fits_lem", "claim-in": "claim_in_lem", "claim-kind": "claim_has_kind",
    "claim-read": "claim_read_lem", "event-seen": "event_seen_lem", "found-shown": "found_shown_lem", "front_at": "front_at_lem",
    "is-answer": "is_answer_lem", "is_ask": "is_ask_lem", "items-in": "items_in_lem", "key-at": "key_at_lem",
    "line-answered": "line_answered_lem", "line-in": "line_in_lem", "mark-at": "mark_at_lem", "mark-holds": "mark_holds_lem",
    "one_more": "one_more_lem", "page-holds": "page_holds_lem", "place_after": "place_after_lem", "present-place": "present_place_lem",
    "query-fits": "query_fits_lem", "query-of": "query_of_lem", "read_answer": "read_answer_lem", "read-ask": "read_ask_lem",
    "reference-at": "reference_at_lem", "row_put": "row_put_lem", "same-order": "same_order_lem", "same_place": "same_place_lem",
    "same-query": "same_query_lem", "same-z": "same_z_lem", "scope-from": "scope_from_lem", "scope-ok": "scope_ok_lem",
    "sound-in": "sound_in_lem", "started-well": "started_well_lem", "step_by": "step_by_lem", "table-refusal": "table_refusal_lem",
    "taken-from": "taken_from_lem", "takes-line": "takes_line_lem", "to-present": "to_present_lem",
    # words of the library that changed
    "mem-getD": "mem_get_or",
}
MOVED = {"crates/journey_lent/specs/Contracts.antt": ("Contracts", "After")}
NAME = re.compile(r"[A-Za-z][^\s(){}\[\];,.`\"|⌜⌝@:]*$")
TOKEN = re.compile(r"[^\s(){}\[\];,.`\"|⌜⌝@:]+")
HEADS = {"pub", "abbrev", "unfoldable", "opaque", "ghost"}
RECORD = re.compile(r"^\s*(?:pub |abbrev |unfoldable )*(?:record|data) ")


def files():
    for folder, folders, names in os.walk("crates"):
        folders[:] = sorted(x for x in folders if x != "out")
        for name in sorted(names):
            yield os.path.join(folder, name)


def read(path):
    with open(path, encoding="utf-8") as f:
        return f.read()


def in_function(path):
    """Whether this file is the proof of one function."""
    return "/proofs/" in path and "/" in path.split("/proofs/")[1]


def snake(name):
    name = re.sub(r"(?<=[a-z0-9])(?=[A-Z])", "_", name.replace("-", "_"))
    return re.sub(r"(?<=_)[A-Z](?=[a-z0-9_]|$)", lambda m: m.group(0).lower(), name)


def declarations(text):
    """Names that a file declares, each with whether it is a field, and the type that stands beside it."""
    field = None
    for line in text.split("\n"):
        line = line.split("--")[0]
        indent = len(line) - len(line.lstrip())
        if RECORD.match(line) and line.rstrip().endswith("where"):
            field = indent
            continue
        if line.strip() and field is not None and indent <= field:
            field = None
        if line.startswith("use ") or (" : " not in line and not line.rstrip().endswith(" :")):
            continue
        head, _, rest = line.partition(" :")
        words = head.split()
        while words and words[0] in HEADS:
            words.pop(0)
        if words and words[0] not in ("record", "data", "module", "let") and all(NAME.match(w) for w in words):
            for w in words:
                yield w, field is not None, rest.strip()


def foreign(text, ours):
    """Names that a file takes from a library."""
    for start, names in re.findall(r"use\s+(\S+?)\.\{([^}]*)\}", text):
        if not start.startswith("Rattle.") or start.split(".")[1] not in ours:
            for n in names.split(","):
                yield n.strip().split(" ")[0]


def main():
    if not os.path.isdir("crates"):
        sys.exit("respell: no crates here")
    ours = set(os.listdir("crates"))
    names, fields, library = set(LEMMAS), set(), set()
    for path in files():
        if path.endswith((".antt", ".rt")):
            library.update(foreign(read(path), ours))
        if not path.endswith(".antt"):
            continue
        for name, is_field, kind in declarations(read(path)):
            made = in_function(path) and (kind.startswith("tie.") or name.endswith(("-spec", "_spec")))
            if made or not re.match(r"[a-z]", name):
                continue
            if name in LEMMAS or "-" in name or re.search(r"[A-Z]", name):
                names.add(name)
                if is_field:
                    fields.add(name)
    new = {n: LEMMAS.get(n) or snake(n) for n in names - library}
    together = collections.defaultdict(set)
    for old, to in new.items():
        together[to].add(old)
    for to, olds in sorted(together.items()):
        if len(olds) > 1:
            print("fall together:", to, sorted(olds))

    def turned(match):
        word, text, at = match.group(0), match.string, match.start()
        if code and word in LEMMAS:
            return word
        if word not in new:
            return word
        # Behind a dot stands a field, a name of one of our modules, or a name that Rattle makes.
        owner = re.search(r"([^\s(){}\[\];,.`\"|⌜⌝@:]+)\.$", text[max(0, at - 80) : at])
        if owner and word not in fields and (word in LEMMAS or not (owner.group(1)[0].isupper() or owner.group(1) in aliases)):
            return word
        return new[word]

    for path in files():
        before = read(path) if path.endswith((".antt", ".rt", ".edit")) else None
        # Functions of src/ keep their names.
        code = not path.endswith(".antt")
        if before is None:
            continue
        # Names under which a file of laws has our modules.
        aliases = set() if in_function(path) else set(re.findall(r"^use Rattle\.\S+ as ([^\s;]+)", before, re.M))
        after = TOKEN.sub(turned, before) if path.endswith(".antt") else "".join(
            part if i % 2 else TOKEN.sub(turned, part) for i, part in enumerate(re.split(r'("(?:[^"\\\n]|\\.)*")', before))
        )
        for at, (old, to) in MOVED.items():
            crate = at.split("/")[1]
            after = after.replace(f"Rattle.{crate}.specs.{old}.", f"Rattle.{crate}.specs.{to}.")
            if path == f"crates/{crate}/specs/Lib.antt":
                after = after.replace(f"pub mod {old}\n", f"pub mod {to}\n")
        if after != before:
            with open(path, "w", encoding="utf-8") as f:
                f.write(after)
    for at, (old, to) in MOVED.items():
        if os.path.exists(at):
            os.rename(at, at.replace(f"/{old}.", f"/{to}."))


main()
