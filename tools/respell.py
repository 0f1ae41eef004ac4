#!/usr/bin/env python3
"""Respells the repository's own definitions and lemmas as today's library spells its own.

usage: python3 tools/respell.py        at the top of the repository, once, right behind port.py

- Functions, lemmas, fields and constructors are in snake case: `fieldA` becomes `field_a`, `K.GetLocal` becomes `K.get_local`. Types, modules and facts stay.
- A dash joins the names of two definitions, as in `length-append`; any other dash becomes `_`, as `row-safe` becomes `row_safe`.

It goes by whole words and by text: in .antt files everywhere, in .rt files in clauses, `ghost` items and quoted spans of comments, in must-fail edits of either, and in
quoted spans of the papers (.md). Names of functions of src/, exported names, strings, inputs and outputs are not touched. It prints the names that would fall
together with another, and leaves those.
"""

import glob
import re

WORD = re.compile(r"[^\s(){}.;,@\"«»`]+")
HEAD = re.compile(r"^\s*((?:abbrev|unfoldable|pub|data|record|mutual|lem)\s+)*(?P<name>[^\s(){}.;,@\"«»:]+)\s*(?::(?!=)|[({])")
# What a dash may join beside the repository's own definitions: names of the library.
LIBRARY = set(
    "length append take drop set map get_or reverse concat member replicate filter sum max min add sub mul div mod pow suc cons nil cond not and or eqb leb ltb "
    "lt le eq pos negsuc off range insert".split()
)
# What the library's language keeps for itself is quoted where it is declared.
RESERVED = {"module": "«module»"}


def read(path):
    with open(path, encoding="utf-8") as f:
        return f.read()


def snake(word):
    word = re.sub(r"(?<=[a-z0-9])(?=[A-Z])", "_", word)
    return word.lower()


def code(text):
    """The text without its comments."""
    return re.sub(r"(?m)(^|(?<=\s))--.*$", "", text)


def declared(text):
    """Each declared name with whether it is a definition (and not a lemma)."""
    for line in code(text).split("\n"):
        if re.match(r"\s*(use|unfolding|infix\w*|module|mod|pub mod|where|let|in)\b", line):
            continue
        m = HEAD.match(line)
        if m:
            yield m["name"], bool(re.match(r"\s*(pub\s+)?(abbrev|unfoldable)\b", line))


def files(pattern):
    return sorted(f for f in glob.glob(pattern, recursive=True) if "/out/" not in f)


def table():
    defs, names = set(LIBRARY), set()
    for f in files("crates/*/specs/*.antt") + files("crates/*/proofs/*.antt"):
        for name, definition in declared(read(f)):
            names.add(name)
            # a definition that takes something
            if definition and len(name) > 2:
                defs.add(name)
    kinds = {n: snake(n) for n, _ in declared(read("crates/rules/specs/Kinds.antt"))}
    rows = {}
    for name in names:
        if not re.match(r"[a-z]", name):
            continue
        parts = name.split("-")
        new = parts[0]
        for left, right in zip(parts, parts[1:]):
            new += ("-" if left in defs and right in defs else "_") + right
        new = "-".join(p if re.match(r"[A-Z]", p) and "_" not in p else re.sub(r"(?<=[a-z0-9])_?([A-Z]\w*)", lambda m: "_" + snake(m[1]), p) for p in new.split("-"))
        if new != name:
            rows[name] = new
    return rows, kinds


def main():
    rows, kinds = table()
    antt = files("crates/*/specs/*.antt") + files("crates/*/proofs/**/*.antt")
    seen = set()
    for f in files("crates/*/specs/*.antt") + files("crates/*/proofs/*.antt"):
        # not the path of a `use`, whose parts are modules
        text = re.sub(r"(?m)^(\s*use )[^{\n]*", "", code(read(f)))
        seen.update(WORD.findall(text))
    back = {}
    for old, new in rows.items():
        back.setdefault(new, []).append(old)
    left = {old for new, olds in back.items() for old in olds if len(olds) > 1 or new in seen}
    for old in sorted(left - set(BY_HAND)):
        print(f"falls together: {old} with {rows[old]}" + (f" of {', '.join(back[rows[old]])}" if len(back[rows[old]]) > 1 else ""))
    rows = {old: new for old, new in rows.items() if old not in left}
    rows.update(BY_HAND)
    here = {}

    def turn(text):
        return WORD.sub(lambda m: here.get(m[0]) or rows.get(m[0], m[0]), text)

    def turn_kinds(text):
        return re.sub(r"\bK\.([A-Z]\w*)", lambda m: "K." + kinds.get(m[1], m[1]), text)

    def spans(text):
        return re.sub(r"(`+)([^`\n]+)\1", lambda m: m[1] + turn_kinds(turn(m[2])) + m[1], text)

    def whole(path, text):
        if path.endswith("rules/specs/Kinds.antt"):
            text = re.sub(r"(?m)^((?:abbrev pub )?)([A-Z]\w*)(?= [:=])", lambda m: m[1] + RESERVED.get(kinds.get(m[2]), kinds.get(m[2], m[2])), text)
        out = []
        for line in text.split("\n"):
            cut = re.search(r"(^|(?<=\s))--", line)
            at = cut.start() if cut else len(line)
            out.append(turn_kinds(turn(line[:at])) + spans(line[at:]))
        return "\n".join(out)

    def source(text):
        out, deep = [], 0
        for line in text.split("\n"):
            if line.lstrip().startswith("//"):
                out.append(spans(line))
            elif deep or re.match(r"\s*(ghost|requires|ensures)\b", line):
                deep += line.count("{") - line.count("}")
                out.append(turn_kinds(turn(line)))
            else:
                out.append(line)
        return "\n".join(out)

    def edit(text):
        target = re.search(r"(?m)^file: (\S+)", text)
        if target and target[1].endswith(".antt"):
            return re.sub(r"(?m)^(old|new): (.*)$", lambda m: f"{m[1]}: {whole(target[1], m[2])}", text)
        return re.sub(r"(?m)^(old|new): (.*)$", lambda m: f"{m[1]}: {source(m[2])}", text)

    def change(path, to):
        text = read(path)
        here.clear()
        here.update(IN_FILES.get(path, {}))
        new = to(text)
        if new != text:
            with open(path, "w", encoding="utf-8") as f:
                f.write(new)
            return 1
        return 0

    n = sum(change(f, lambda t, f=f: whole(f, t)) for f in antt)
    n += sum(change(f, source) for f in files("crates/*/src/**/*.rt"))
    n += sum(change(f, edit) for f in files("crates/*/must-fail/*.edit"))
    n += sum(change(f, spans) for f in ["README.md", *files("docs/*.md")])
    print(f"{len(rows)} names, {len(kinds)} kinds, {n} files")


# Names that fall together with another, and what they are called instead.
BY_HAND = {
    # a lemma beside the definition that it is about
    "callRise": "call_rise", "call-rise": "call_rise_lem",
    "constantWords": "constant_words", "constant-words": "constant_words_lem",
    "draftWords": "draft_words", "draft-words": "draft_words_lem",
    "extraWords": "extra_words", "extra-words": "extra_words_lem",
    "groupLine": "group_line", "group-line": "group_line_lem",
    "ofConstants": "of_constants", "of-constants": "of_constants_lem",
    "ofExtras": "of_extras", "of-extras": "of_extras_lem",
    "ofOps": "of_ops", "of-ops": "of_ops_lem",
    "onePass": "one_pass", "one-pass": "one_pass_lem",
    "openText": "open_text", "open-text": "open_text_lem",
    "sheetOutcome": "sheet_outcome", "sheet-outcome": "sheet_outcome_lem",
    "turnParts": "turn_parts", "turn-parts": "turn_parts_lem",
    "allNumbers": "all_numbers", "all-numbers": "all_numbers_lem",
    "behindLoop": "behind_loop", "behind-loop": "behind_loop_lem",
    "chunkAt": "chunk_at", "chunk-at": "chunk_at_lem",
    "noOp": "no_op", "no-op": "no_op_lem",
    "opAt": "op_at", "op-at": "op_at_lem",
    "parseOp": "parse_op", "parse-op": "parse_op_lem",
    "shortTray": "short_tray", "short-tray": "short_tray_lem",
    "word-at": "word_at_lem",
    "in-range": "in_up_from",
    # a definition, and a name of another file that does not see it, or one in IN_FILES
    "allWords": "all_words", "chunkRow": "chunk_row", "goesOn": "goes_on", "inOrder": "in_order", "noLine": "no_line", "oneLine": "one_line", "oneMore": "one_more",
    "opFits": "op_fits", "in-loop": "in_loop",
}

# Lemmas that have a definition's new name already, by the files that name them.
IN_FILES = {
    "crates/rules/proofs/ChunkTop.antt": {"chunk_row": "chunk_row_lem"},
    "crates/rules/proofs/CyclesBound.antt": {"chunk_row": "chunk_row_lem"},
    "crates/rules/proofs/RowTree.antt": {"chunk_row": "chunk_row_lem"},
    "crates/rules/proofs/TableGroups.antt": {"no_line": "no_line_lem"},
    "crates/rules/proofs/TableLines.antt": {"no_line": "no_line_lem"},
    "crates/writer/proofs/FitLaws.antt": {"op_fits": "op_fits_lem"},
}

if __name__ == "__main__":
    main()
