#!/usr/bin/env python3
"""respell.py [FOLDER]: brings the repository's own names of definitions, lemmas and bound variables in crates/ from camel case to snake case, as the library
spells words. Run once, after the kit's own scripts. Functions, types, modules, fields, strings and files keep their names.

Where the snake case name is taken already, a definition gets the name in OTHERS; a lemma of that name, in proofs/, gets the ending _lem."""

import os
import re
import sys

# A definition whose snake case name is that of a field or a parameter beside it.
OTHERS = {
    "clusterCount": "count_of_clusters",
    "attributeCount": "count_of_attributes",
    "textCount": "count_of_texts",
    "clusterIndex": "index_of_cluster",
    "maxDepth": "depth_limit",
    "maxFilters": "filter_limit",
    "maxPaths": "path_limit",
    "maxPayload": "payload_limit",
    "maxWrites": "write_limit",
    "textMax": "text_bytes_limit",
}
# Lemmas that have the snake case name of a definition.
LEMMAS = set(
    "all_right below_word block_room by_code by_place each_step ended_by entry_read goes_on head_at in_order index_in is_open key_below none_yet null_word "
    "part_bytes read_as read_kept read_through same_place takes_part value_in word_after words_right write_kept".split()
)
# Files where such a name is a record's field.
FIELDS = {("goes_on", "crates/im_requests/proofs/LoopLaws.antt"), ("goes_on", "crates/cache_messages/proofs/FilterLaws.antt")}

TOKEN = re.compile(r"[A-Za-z_][A-Za-z0-9_'₀-₉]*")
CAMEL = re.compile(r"[a-z][a-z0-9]*[A-Z]")
HEX = re.compile(r"x[0-9A-F_]+")
STRING = re.compile(r'"(?:\\.|[^"\\])*"')


def snake(word):
    if word in OTHERS:
        return OTHERS[word]
    word = re.sub(r"([a-z0-9])([A-Z])", r"\1_\2", word)
    return re.sub(r"([A-Z]+)([A-Z][a-z])", r"\1_\2", word).lower()


def turned(text, path):
    """The text of a file, respelled."""
    is_proof = "/proofs/" in path and path.endswith(".antt")

    def new(m):
        word = m[0]
        if CAMEL.match(word) and not HEX.fullmatch(word):
            return snake(word)
        if is_proof and word in LEMMAS and (word, path) not in FIELDS:
            before, after = text[m.start() - 1 : m.start()], text[m.end() : m.end() + 1]
            if before not in (".", "-") and after not in (".", "-"):
                return word + "_lem"
        return word

    if path.endswith(".antt"):
        return TOKEN.sub(new, text)
    # code: strings stay
    out, at = [], 0
    for s in STRING.finditer(text):
        out += [TOKEN.sub(new, text[at : s.start()]), s[0]]
        at = s.end()
    return "".join(out) + TOKEN.sub(new, text[at:])


def main():
    os.chdir(sys.argv[1] if len(sys.argv) > 1 else ".")
    for folder, folders, files in os.walk("crates"):
        folders[:] = sorted(it for it in folders if it not in ("out", "must-fail", "more-edits"))
        for name in sorted(files):
            path = os.path.join(folder, name)
            if path.endswith((".antt", ".rt")):
                with open(path, encoding="utf-8") as it:
                    old = it.read()
                new = turned(old, path)
                if new != old:
                    with open(path, "w", encoding="utf-8") as it:
                        it.write(new)


main()
