"""Asks the prover of each change of the rules whether a computed fact refuses it.

The crate that is tried has the files of computed facts that are asked, and what they import, alone: the rules, without the words of theorems, and of other
files of facts the definitions in front of their facts. So a proof script that breaks doesn't count for a fact. Several copies of it stand side by side in one
crate, each with one change, since most of a trial's time is the prover's start.
"""
import dataclasses
import os
import pathlib
import re
import shutil
import subprocess
import tempfile

import changes

ERROR = re.compile(r"^(\S+):(\d+):\d+: error: (.*)$")
IMPORTED = re.compile(r"\buse Rattle\.(?:rules|examples)\.(specs|proofs)\.(?!declared)(\w+)")
FOLLOWS = re.compile(r"\d+ declarations? that depends? on `[^`]+`, which was (?:rejected|not admitted)")
SECONDS = 300
# the parts of a file that compute with a whole store, which takes most of its time; HoldingClauses/quick is the file without them
STORED = {
    "HoldingClauses": (
        "one", "one_first", "two_tables", "stores", "stores_names", "two_languages", "two_languages_state", "stores_answer", "stores_state", "touched",
        "at_once",
    ),
    "LabelledBoxes": ("named", "not_tuned", "bytes", "not_live", "not_there", "sixteen", "tunes_same"),
}


@dataclasses.dataclass
class Outcome:
    """refused: by a fact; no-rule: the changed text is no definition; alike: every fact still holds; no-answer: the prover gave none."""

    word: str
    by: str = ""


class Tree:
    """The crates rules and examples of a repository, as texts to be copied under another name."""

    def __init__(self, root):
        self.crate = root / "crates" / "rules"
        self.examples = root / "crates" / "examples" / "proofs"
        self.specs = {f: (self.crate / "specs" / f"{f}.antt").read_text(encoding="utf-8") for f in changes.files_of(self.crate)}

    def fact(self, name):
        name, quick = name.removesuffix("/quick"), name.endswith("/quick")
        own = self.crate / "proofs" / f"{name}.antt"
        file = own if own.is_file() else self.examples / f"{name}.antt"
        text = file.read_text(encoding="utf-8")
        for part in STORED[name] if quick else ():
            text = re.sub(rf"^  pub {part} :.*\n(?:      .*\n)*", "", text, flags=re.MULTILINE)
            text = re.sub(rf"^      {part} = .*\n", "", text, flags=re.MULTILINE)
        return text

    def words(self, name):
        """The definitions of a file of facts, up to the record of its facts."""
        return re.split(rf"^pub record {name} ", self.fact(name), maxsplit=1, flags=re.MULTILINE)[0]

    def copied(self, facts):
        """The texts of a copy: the facts that are asked, and the words and rules that they import, each with those that it imports."""
        texts = {"specs": {}, "proofs": {name.removesuffix("/quick"): self.fact(name) for name in facts}}
        left = list(texts["proofs"].values())
        while left:
            for part, name in IMPORTED.findall(left.pop()):
                if name not in texts[part]:
                    texts[part][name] = self.specs[name] if part == "specs" else self.words(name)
                    left.append(texts[part][name])
        return texts


def renamed(text, copy):
    """The text with the rules' modules taken from a copy; the declared types are shared."""
    return re.sub(r"\bRattle\.(?:rules|examples)\.(specs|proofs)\.(?!declared)", rf"Rattle.rules.\1.{copy}.", text)


def write_copy(tree, where, copy, change, facts):
    for part, texts in tree.copied(facts).items():
        folder = where / part / copy
        folder.mkdir(parents=True)
        (where / part / f"{copy}.antt").write_text("".join(f"pub mod {name}\n" for name in texts), encoding="utf-8")
        for name, text in texts.items():
            if part == "specs" and change and change.file == name:
                text = changes.changed(tree.crate, change)
            (folder / f"{name}.antt").write_text(renamed(text, copy), encoding="utf-8")


def part_at(where, file, line):
    """The part of a fact that stands on a line: its name, or else the line itself."""
    text = (where / file).read_text(encoding="utf-8").splitlines()
    for above in range(line - 1, -1, -1):
        found = re.match(r"\s*(?:record \{ )?(?:pub )?([\w-]+) (?:=|:) ", text[above])
        if found:
            return f"{pathlib.Path(file).stem}.{found[1]}"
    return f"{pathlib.Path(file).stem}:{line}"


def outcome_of(where, copy, output):
    """What the prover said of a copy, by its lines; it names files as they stand below the crate."""
    refused = None
    for line in output.splitlines():
        error = ERROR.match(line)
        if not error:
            continue
        file = os.path.normpath(error[1])
        if file.startswith(f"specs/{copy}/") or file == f"specs/{copy}.antt":
            return Outcome("no-rule")
        if file.startswith(f"proofs/{copy}/") and not FOLLOWS.match(error[3]) and refused is None:
            refused = Outcome("refused", part_at(where, file, int(error[2])))
    return refused or Outcome("alike")


def try_batch(tree, batch, facts):
    """The outcome of each change of a batch under these files of facts."""
    with tempfile.TemporaryDirectory() as room:
        where = pathlib.Path(room) / "crates" / "rules"
        shutil.copytree(tree.crate / "src", where / "src")
        (pathlib.Path(room) / "crates.txt").write_text("rules:\n", encoding="utf-8")
        names = [f"M{i}" for i in range(len(batch))]
        for name, change in zip(names, batch):
            write_copy(tree, where, name, change, facts)
        for part in ("specs", "proofs"):
            (where / part / "Lib.antt").write_text("".join(f"pub mod {name}\n" for name in names), encoding="utf-8")
        try:
            done = subprocess.run(
                ["rt", "check"], cwd=where, stdout=subprocess.PIPE, stderr=subprocess.STDOUT, text=True, timeout=SECONDS, check=False
            )
        except subprocess.TimeoutExpired:
            return one_by_one(tree, batch, facts, Outcome("no-answer", f"none in {SECONDS} seconds"))
        output = done.stdout
        if "logic=" not in output:
            return one_by_one(tree, batch, facts, Outcome("no-answer", " ".join(output.splitlines()[-1:])))
        return [outcome_of(where, name, output) for name in names]


def one_by_one(tree, batch, facts, otherwise):
    """Each change for itself, where the prover gave a batch no verdict."""
    if len(batch) == 1:
        return [otherwise]
    return [try_batch(tree, [change], facts)[0] for change in batch]
