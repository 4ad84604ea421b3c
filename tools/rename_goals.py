#!/usr/bin/env python3
"""Brings the names that the check makes, in the proofs of functions, to today's spelling: source names keep their underscores.

usage: tools/rename_goals.py     at the top of the repository, once

A name such as if-is-sorted or overflow-add-result is parts of a kind (if, overflow_add) and names from the source (is_sorted,
result). It goes by text: the names with underscores in a crate's src/ and the check's own kinds are joined again.
"""

import os
import re

KINDS = """overflow_add overflow_sub overflow_mul overflow_shl overflow_shr overflow_cast overflow_step nonzero_div nonzero_rem
slice_bounds offset_bounds in_default in_ok in_err invariant_of start_le_end dest_in_bounds in_bounds not_exhausted type_inv
from_residual""".split()
TOKEN = re.compile(r"(?<![\w'₀-₉⊎≡≢+-])[A-Za-z_]\w*(?:[-+][A-Za-z0-9_]+)*-[A-Za-z0-9_]+(?:[-+][A-Za-z0-9_]+)*(?![\w'₀-₉-])")


def read(path):
    with open(path, encoding="utf-8") as f:
        return f.read()


def joined(token, names):
    out = []
    for piece in re.split(r"(\+)", token):
        parts, i, done = piece.split("-"), 0, []
        while i < len(parts):
            for j in range(len(parts), i + 1, -1):
                word = "_".join(parts[i:j])
                if word in names:
                    done.append(word)
                    i = j
                    break
            else:
                done.append(parts[i])
                i += 1
        out.append("-".join(done))
    return "".join(out)


def library_names():
    names = set()
    for folder, _, files in os.walk("crates"):
        for f in files:
            if f.endswith(".antt"):
                for m in re.finditer(r"^use (?:Rattle\.std|Rattle\.core|lib|denote|borrow)\.[^{\n]*\{([^}]*)\}", read(os.path.join(folder, f)), re.M):
                    names.update(re.split(r"[,\s]+", m[1].strip()))
    return names


def main():
    keep = library_names()
    count = 0
    for crate in sorted(os.listdir("crates")):
        src = os.path.join("crates", crate, "src")
        names = set(KINDS)
        for folder, _, files in os.walk(src):
            for f in files:
                text = re.sub(r"//[^\n]*", "", read(os.path.join(folder, f)))
                names.update(w for w in re.findall(r"[A-Za-z_]\w*", text) if "_" in w.strip("_"))
        proofs = os.path.join("crates", crate, "proofs")
        for folder, _, files in os.walk(proofs):
            if folder == proofs:
                continue
            for f in files:
                path = os.path.join(folder, f)
                text = read(path)
                new = TOKEN.sub(lambda m: m[0] if m[0] in keep else joined(m[0], names), text)
                if new != text:
                    count += 1
                    with open(path, "w", encoding="utf-8") as out:
                        out.write(new)
    print(f"{count} files")


main()
