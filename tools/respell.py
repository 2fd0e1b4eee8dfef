#!/usr/bin/env python3
"""Brings the names that this repository gave its definitions and lemmas to the spelling of the toolchain's library.

Run once, at the top, right after the toolchain's own script: types, records and theorems in upper camel case, all else in snake case.
It reads which names are the repository's own off the signatures in specs/ and proofs/ (and the few names that a `let`, a λ or a binder
gives), so names of the library and of generated goals stay. Names of functions in src/, strings, inputs and outputs stay too: they have
neither a dash nor a capital inside. In the pages only what stands between backticks is turned.
"""
import os
import re

NAME = r"[A-Za-z_][\w'\-]*"
TOKEN = re.compile(r"[^\W\d][\w'\-]*")
HEAD = r"(?:(?:abbrev|unfoldable|pub|record|data|ruleset)\s+)*"

# names of the library that the repository also binds
LIBRARY = {"append-nil", "get_or-set_other"}
# generated names that are spelled as a name of ours: the step of `let at = step(..)`
GENERATED = {"step-at"}
# names that would fall together with another: the lemma on a definition gets _lem
OTHERS = {
    "by-line": "by_line_lem",
    "by-sign": "by_sign_lem",
    "drawn-to": "drawn_to_lem",
    "full-list": "full_list_lem",
    "is-counted": "is_counted_lem",
    "letter-in": "letter_in_lem",
    "letter-sign": "letter_sign_lem",
    "letters-of": "letters_of_entries",
    "same-node": "same_node_lem",
    "all-steps": "all_steps_lem",
    "in-turn": "in_turn_lem",
    "bit-and": "bit_and_lem",
    "goesOn": "goes_on_by",
    # a lemma with the name of the function whose contract it is
    "bare-sheets-are-right": "bare_sheets_are_right_lem",
    "drawing-is-right": "drawing_is_right_lem",
    "judge-is-right": "judge_is_right_lem",
    "led-is-reached": "led_is_reached_lem",
    "no-wrong-is-right": "no_wrong_is_right_lem",
    "reading-inverts-writing": "reading_inverts_writing_lem",
    "reads-what-is-written": "reads_what_is_written_lem",
    "refuses-for-its-reason": "refuses_for_its_reason_lem",
    "search-is-complete": "search_is_complete_lem",
    "tagged-sheets-are-right": "tagged_sheets_are_right_lem",
    "verdicts-are-right": "verdicts_are_right_lem",
    "walks-are-sound": "walks_are_sound_lem",
    "wrong-by-texts": "wrong_by_texts_lem",
}


def files(top, endings):
    for folder, dirs, names in os.walk(top):
        dirs[:] = [d for d in dirs if d not in ("out", ".git")]
        for name in sorted(names):
            if name.endswith(endings):
                yield os.path.join(folder, name)


def is_lemma_file(path):
    parts = path.split(os.sep)
    at = parts.index("crates")
    return parts[at + 2] == "specs" or (parts[at + 2] == "proofs" and len(parts) == at + 4)


def own_names(top):
    names = set()
    for path in files(os.path.join(top, "crates"), (".antt",)):
        with open(path, encoding="utf-8") as file:
            lines = [line.strip() for line in file]
        for line in lines:
            if line.startswith(("--", "use ")):
                continue
            signature = re.match(HEAD + "(" + NAME + r")(?:\s+\S+.*)?\s*:(?:\s|$)", line)
            if signature and is_lemma_file(path) and "=" not in line.split(":")[0]:
                names.add(signature[1])
            names.update(re.findall(r"\blet\s+(" + NAME + ")", line))
            for group in re.findall(r"λ\s*\(?([^.]*)\.", line):
                names.update(re.findall(NAME, group))
            for group in re.findall(r"[({]((?:" + NAME + r"\s+)*" + NAME + r")\s*:", line):
                names.update(group.split())
    return {name for name in names if "-" in name or re.match("[a-z].*[A-Z]", name)} - LIBRARY


def spelled(name):
    if name in OTHERS:
        return OTHERS[name]
    if name[0].isupper():
        return "".join(part[:1].upper() + part[1:] for part in name.split("-"))
    name = re.sub("([a-z0-9])([A-Z])", lambda m: m[1] + "_" + m[2], name.replace("-", "_"))
    return name.lower()


def turned(text, table):
    def one(match):
        name = match[0]
        if name not in table or (name in GENERATED and text[: match.start()].endswith(("c.", "w."))):
            return name
        return table[name]

    return TOKEN.sub(one, text)


def main():
    top = os.getcwd()
    table = {name: spelled(name) for name in own_names(top)}
    for path in files(os.path.join(top, "crates"), (".antt", ".rt", ".edit")):
        rewrite(path, lambda text: turned(text, table))
    for path in files(top, (".md",)):
        rewrite(path, lambda text: re.sub("`[^`\n]*`", lambda m: turned(m[0], table), text))
    print(f"{len(table)} names turned")


def rewrite(path, turn):
    with open(path, encoding="utf-8") as file:
        old = file.read()
    new = turn(old)
    if new != old:
        with open(path, "w", encoding="utf-8") as file:
            file.write(new)


if __name__ == "__main__":
    main()
