"""Reads the must-fail edits, for tools/check-claims.

An edit is a file LABEL.edit in crates/NAME/must-fail, which `rt ci` tries. Its lines:
  # what it tries        comments; the functions whose promise it breaks stand in them in backquotes
  # rows: H5, N7         the rules of docs/RULES.md that it is for, if there are any
  file: src/lib.rt       a file of the crate; it holds for the pairs behind it
  old: ..                a text that stands in the file once
  new: ..                what takes its place
"""
import functools
import glob
import os
import re


class Edit:
    """An edit: its crate and label, its path and text, comments, rules, and pairs as (position, file, old, new)."""

    def __init__(self, path):
        self.path, self.crate = path, path.split("/")[1]
        self.label = os.path.basename(path)[: -len(".edit")]
        with open(path, encoding="utf-8") as file:
            self.text = file.read()
        comments = re.findall(r"^#(.*)$", self.text, flags=re.M)
        rows = [line.strip()[len("rows:") :] for line in comments if line.strip().startswith("rows:")]
        self.rows = [row.strip() for line in rows for row in line.split(",")]
        self.comments = "\n".join(line for line in comments if not line.strip().startswith("rows:"))
        self.pairs, self.stray = [], []
        said = {"file": None, "old": None}
        for match in re.finditer(r"^(file|old|new): ?(.*)$", self.text, flags=re.M):
            word, value = match.groups()
            if word != "new":
                said[word] = value
            elif said["file"] is None or not said["old"]:
                self.stray.append(match.start())
            else:
                self.pairs.append((match.start(), said["file"], said["old"], value))
                said["old"] = None

    def names(self, function):
        """Whether a comment names a function, in backquotes: `receive` or `logwhisker::receive`."""
        return re.search(rf"`(?:\w+::)*{function}`", self.comments) is not None


@functools.cache
def edits_of(crate):
    """The edits of a crate, by label; `*` stands for every crate."""
    paths = glob.glob(f"crates/{crate}/must-fail/*.edit")
    return [Edit(path) for path in sorted(paths, key=lambda path: (path.split("/")[1], os.path.basename(path)))]


def drawn(edits, rows):
    """The lists of docs/CLAIMS.md: of every rule, in the order of rows, its edits; then those of no rule by crate."""
    lines = ["| Rule | Edits |", "|---|---|"]
    lines += [f"| {row} | {listed(of)} |" for row in rows if (of := [e for e in edits if row in e.rows])]
    lines += ["", "Edits of functions and laws that no single rule asks for:", "", "| Crate | Edits |", "|---|---|"]
    for crate in sorted({e.crate for e in edits}):
        if of := [e for e in edits if e.crate == crate and not e.rows]:
            lines.append(f"| `{crate}` | {', '.join(f'`{e.label}`' for e in of)} |")
    return "\n".join(lines) + "\n"


def listed(edits):
    """Edits by crate: crate `label`, `label`; crate `label`."""
    by = {}
    for edit in edits:
        by.setdefault(edit.crate, []).append(f"`{edit.label}`")
    return "; ".join(f"{crate} {', '.join(labels)}" for crate, labels in by.items())
