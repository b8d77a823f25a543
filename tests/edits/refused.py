#!/usr/bin/env python3
"""Tries each must-fail edit, reads what the prover says to it, and asks that each wrong answer was refused on its own account.

An edit of crates/NAME/must-fail holds one or more wrong answers, each under a line

    wrong LABEL: WHERE: words

and followed by its replacements. rt ci asks that the prover refuses the edited crate as a whole, and says what it refused first. Here WHERE says
what must have refused this answer: of code a function (or several), whose own proof must have a part that is no longer a proof; of the rules
a theorem, or a part of one as THEOREM.PART, or their one function Refusal::number. A declaration that was refused only because it rests on
one that was refused doesn't count, and nor does one that names something which isn't there (names.txt beside this file says which names of a
proof a wrong answer changes). Of one edit no two answers name the same place.

It also holds docs/PROMISES.md to the tree: every label is named there, one of code under a function of its crate, and how many there are;
and every public function, those of public modules too, has its own paragraph there, two wrong answers that it refuses itself, and its theorem
in proofs/Determined.antt, which says `Determined` of it, and `DeterminedBy` of one that reads (by which relation is for a reader to see).

Run it behind rt all check, over whose libraries and kept work the edits are tried, in the repository's root, two at a time. What the prover said is
kept in target/edits, and an edit is tried again once it, its crate or a crate below has changed. With names of crates it tries the edits of these alone,
and reads no page.
"""
import collections
import concurrent.futures
import hashlib
import os
import pathlib
import re
import shutil
import subprocess
import sys
import tempfile

WRONG = re.compile(r"wrong ([a-z0-9_]+): ([^:]+(?:::[^:]+)*): (.+)")
ROW = re.compile(r"(\w+)( staticlib)?\s*:(.*)")
ERROR = re.compile(r"^(?:\./)?(\S+?):(\d+):\d+: error: `([^`]+)`: (.*)$")
FOLLOWS = re.compile(r"`[^`]+` (?:was not admitted|cannot be unfolded because it was not admitted)|.*(?:is not in scope|has no field|has no `)")
OPEN = re.compile(r"note: src/\S+: it is not proved that ")
VERDICT = re.compile(r"fn (\S+): (?:proved|not proved|no proof)")
PUBLIC = re.compile(r'^(?:    )?pub (?:extern "C" )?fn (\w+)', re.MULTILINE)
NAMED = re.compile(r"(\w+/\w+) (\S+): (.+)")
MODULE = re.compile(r"^pub mod (\w+);", re.MULTILINE)
PARTS = ("src", "specs", "proofs")
AT_ONCE = 2
# what they do is decided by what their reads gave, which comes from outside
BY_READING = {("capture", "follow"), ("capture", "gather")}


def fail(text):
    print(f"tests/edits: {text}", file=sys.stderr)
    sys.exit(1)


def wrong_answers(edit, crate):
    """The wrong answers of an edit, label and where each must be refused, and the texts of the files that it changes."""
    answers, pairs, path, old, texts = [], 0, None, None, {}
    for line in edit.read_text(encoding="utf-8").splitlines():
        if line.startswith("wrong "):
            found = WRONG.fullmatch(line)
            if not found:
                fail(f"{edit}: not 'wrong LABEL: WHERE: words': {line}")
            if answers and not pairs:
                fail(f"{edit}: {answers[-1][0]} replaces nothing")
            answers.append((found[1], [w.strip() for w in found[2].split(",")]))
            pairs = 0
        elif line.startswith("file: "):
            path = line[len("file: ") :]
        elif line.startswith("old: "):
            old = line[len("old: ") :]
        elif line.startswith("new:"):
            if not answers:
                fail(f"{edit}: a replacement before the first 'wrong' line")
            if not path or not (crate / path).is_file():
                fail(f"{edit}: a replacement with no file: line, or in a file that isn't there")
            text = texts.get(path) or (crate / path).read_text(encoding="utf-8")
            if not old or text.count(old) != 1:
                fail(f"{edit}: {path} does not have '{old}' once")
            texts[path] = text.replace(old, line[len("new:") :].removeprefix(" "))
            old, pairs = None, pairs + 1
    if not answers or not pairs:
        fail(f"{edit}: no wrong answer, or one that replaces nothing")
    places = [place for _, named in answers for place in named]
    if len(places) != len(set(places)):
        fail(f"{edit}: two wrong answers name the same place")
    return answers, texts


def renamings():
    """What names.txt says: for a wrong answer, CRATE/LABEL, and a function the old names and the new."""
    found = {}
    for line in (pathlib.Path(__file__).resolve().parent / "names.txt").read_text(encoding="utf-8").splitlines():
        if line and not line.startswith("#"):
            named = NAMED.fullmatch(line)
            pairs = [pair.split() for pair in named[3].split(";")] if named else []
            if not pairs or any(len(pair) != 2 for pair in pairs) or (named[1], named[2]) in found:
                fail(f"names.txt: not 'CRATE/LABEL FUNCTION: OLD NEW; ..', or there twice: {line}")
            found[named[1], named[2]] = dict(pairs)
    return found


def with_names(names, function, crate):
    """The texts of a function's proof files under the new names."""
    old = re.compile(rf"(?<!\w)(?:{'|'.join(map(re.escape, names))})(?!\w)")
    texts = {}
    for file in ("Answers", "Invariants"):
        path = f"proofs/{function.replace('::', '/')}/{file}.antt"
        if (crate / path).is_file():
            lines = (crate / path).read_text(encoding="utf-8").splitlines(keepends=True)
            texts[path] = "".join(line if line.startswith("use ") else old.sub(lambda it: names[it[0]], line) for line in lines)
    return texts


class Tree:
    """The crates of a repository, what each rests on, and the toolchain's command that checks one."""

    def __init__(self, root):
        self.root, self.rests, self.static = root, {}, set()
        rt = shutil.which("rt") or fail("the Rattle toolchain's command rt is not on the PATH")
        self.kit = pathlib.Path(rt).resolve().parent.parent
        for line in (root / "crates.txt").read_text(encoding="utf-8").splitlines():
            row = ROW.fullmatch(line.partition("#")[0].strip())
            if row:
                self.rests[row[1]] = row[3].split()
                self.static |= {row[1]} if row[2] else set()

    def folder(self, crate):
        return self.root / "crates" / crate

    def below(self, crate):
        """The crates of the repository that a crate rests on, each once."""
        found = []
        for name in self.rests[crate]:
            if name in self.rests:
                found += [it for it in [*self.below(name), name] if it not in found]
        return found

    def library(self, crate):
        return self.folder(crate) / "out" / "rlib" / f"{crate}.rlib"

    def kept(self, crate):
        return self.folder(crate) / "out" / "incremental"

    def command(self, crate, kept):
        words = [f"{self.kit}/bin/rattle", "check", "--crate-name", crate]
        words += ["src/main.rt" if (self.folder(crate) / "src" / "main.rt").is_file() else "src/lib.rt"]
        words += ["--extern", f"std={self.kit}/rlibs/std.rlib", "-L", f"dependency={self.kit}/rlibs"]
        for name in self.rests[crate]:
            words += ["--extern", f"{name}={self.library(name) if name in self.rests else f'{self.kit}/rlibs/{name}.rlib'}"]
        for name in self.below(crate):
            words += ["-L", f"dependency={self.library(name).parent}"]
        words += ["--antt-project", f"{self.kit}/rattle/logic/antt-project.json", "--logic-built", f"{self.kit}/logic_built"]
        words += ["--jobs", "1", "--links", f"{crate}=", "--incremental", str(kept)]
        return words + ["--crate-type", "staticlib"] * (crate in self.static)

    def sum(self, crate):
        """A sum of all that a check of the crate reads."""
        parts = hashlib.sha256((self.kit / "KIT-ID").read_bytes())
        for name in [crate, *sorted(self.below(crate))]:
            parts.update(repr((name, self.rests[name], name in self.static)).encode())
            for part in PARTS:
                for file in sorted((self.folder(name) / part).rglob("*")):
                    parts.update(repr((str(file.relative_to(self.folder(name))), file.read_bytes() if file.is_file() else b"")).encode())
        return parts.hexdigest()


def linked(one, other):
    """What was proved is linked where that can be: a check replaces such a file, and changes none."""
    try:
        if one.endswith(".oantt"):
            return os.link(one, other)
    except OSError:
        pass
    return shutil.copy2(one, other)


def said_of(tree, crate, edit, texts, sum):
    """What the prover says to the crate with these texts in the place of its own, where that is kept, and whether it refuses something."""
    log = tree.root / "target" / "edits" / crate / f"{edit.stem}.log"
    first = hashlib.sha256(repr((sum, sorted(texts.items()))).encode()).hexdigest()
    if log.is_file():
        kept, _, said = log.read_text(encoding="utf-8").partition("\n")
        if kept == first:
            return log, said, True
    with tempfile.TemporaryDirectory(prefix="edit-") as room:
        for part in PARTS:
            if (tree.folder(crate) / part).is_dir():
                shutil.copytree(tree.folder(crate) / part, f"{room}/{part}")
        for path, text in texts.items():
            pathlib.Path(room, path).write_text(text, encoding="utf-8")
        try:
            shutil.copytree(tree.kept(crate), f"{room}/kept", copy_function=linked)
        except (OSError, shutil.Error):
            # it is not there, or another command writes it: from nothing
            shutil.rmtree(f"{room}/kept", ignore_errors=True)
        ran = subprocess.run(
            tree.command(crate, f"{room}/kept"), cwd=room, stdin=subprocess.DEVNULL, stdout=subprocess.PIPE, stderr=subprocess.STDOUT,
            encoding="utf-8", errors="replace", check=False,
        )
    log.parent.mkdir(parents=True, exist_ok=True)
    log.write_text(f"{first if ran.returncode == 1 else ''}\n{ran.stdout}", encoding="utf-8")
    return log, ran.stdout, ran.returncode == 1


def refusals(said):
    """What was refused on its own account: (file of the crate, line, declaration)."""
    errors = [ERROR.match(line) for line in said.splitlines()]
    return [(it[1], int(it[2]), it[3]) for it in errors if it and not FOLLOWS.match(it[4])]


def with_open_goals(said):
    """The functions of which the prover names a goal that no answer is for and that its own search does not prove; the verdict on one stands behind its goals."""
    found, named = set(), False
    for line in said.splitlines():
        verdict = VERDICT.match(line)
        if verdict and named:
            found.add(verdict[1])
        named = not verdict and (named or bool(OPEN.match(line)))
    return found


def refused_by_function(crate, function, found, said):
    """A part of the function's own proof: an answer to one of its goals, or a goal that has no answer and that the prover's own search does not prove. Where
    an answer names something that isn't there, a goal may lack its answer for that alone, and doesn't count: names.txt brings the names along."""
    path = function.replace("::", "/")
    name = path.rsplit("/", 1)[-1]
    folder = path[: len(path) - len(name)]
    files = {f"proofs/{folder}{mark}{name}/{file}.antt" for mark in ("", "+") for file in ("Answers", "Proof")}
    if any(file in files for file, _, _ in found):
        return True
    errors = [ERROR.match(line) for line in said.splitlines()]
    return f"{crate}::{function}" in with_open_goals(said) and not any(it and it[1] in files for it in errors)


def refused_by_theorem(theorem, found, crate, texts):
    """The theorem itself, and of THEOREM.PART a line that begins with the part."""
    name, _, part = theorem.partition(".")
    for file, line, declaration in found:
        if declaration != name:
            continue
        text = (texts.get(file) or (crate / file).read_text(encoding="utf-8")).splitlines()[line - 1]
        if not part or re.match(rf"\s*{re.escape(part)} = ", text):
            return True
    return False


def each_refused(tree, edits):
    """The labels, each with its crate, and how many wrong answers each function or theorem refused."""
    labels, refusing, faults = [], collections.Counter(), []
    sums = {crate: tree.sum(crate) for crate in dict.fromkeys(edit.parts[-3] for edit in edits)}
    for name in {below for crate in sums for below in tree.below(crate)}:
        if not tree.library(name).is_dir():
            fail(f"{tree.library(name)} is not there (run rt all check first)")
    names, tried = renamings(), []
    for edit in edits:
        crate = edit.parts[-3]
        answers, texts = wrong_answers(edit, tree.folder(crate))
        for label, places in answers:
            for place in places:
                renamed = names.pop((f"{crate}/{label}", place), None)
                if renamed:
                    texts |= with_names(renamed, place, tree.folder(crate))
        tried.append((edit, crate, answers, texts))
    faults += [f"names.txt: {label} is no wrong answer of {place}" for label, place in names if label.partition("/")[0] in sums]
    with concurrent.futures.ThreadPoolExecutor(AT_ONCE) as pool:
        running = [pool.submit(said_of, tree, crate, edit, texts, sums[crate]) for edit, crate, _, texts in tried]
        for (edit, crate, answers, texts), ran in zip(tried, running):
            log, said, verdict = ran.result()
            if not verdict:
                faults.append(f"{crate}/{edit.stem}: the prover refused nothing, or gave no verdict: see {log}")
            found = refusals(said)
            for label, places in answers:
                if (crate, label) in labels:
                    faults.append(f"{crate}: two wrong answers are called {label}")
                labels.append((crate, label))
                for place in places:
                    if crate == "rules" and "::" not in place:
                        refused = refused_by_theorem(place, found, tree.folder(crate), texts)
                    else:
                        refused = refused_by_function(crate, place, found, said)
                    if not refused and verdict:
                        faults.append(f"{crate}/{label} was not refused by {place}: see {log}")
                    refusing[crate, place.rsplit("::", 1)[-1]] += refused
    if faults:
        fail("\ntests/edits: ".join(faults))
    return labels, refusing


def public_functions(source):
    """Those of a crate's lib.rt and of its public modules, those of its types too."""
    text = source.read_text(encoding="utf-8")
    modules = [source.parent / f"{module}.rt" for module in MODULE.findall(text)]
    return PUBLIC.findall("\n".join([text] + [module.read_text(encoding="utf-8") for module in modules]))


def promised(root, labels, refusing, edits):
    """docs/PROMISES.md names every label and says how many there are; every public function stands there, refuses two wrong answers and is
    determined."""
    promises = (root / "docs" / "PROMISES.md").read_text(encoding="utf-8")
    paragraphs = re.split(r"\n\s*\n", promises)
    for crate, label in labels:
        # of code, in the paragraph of one of the crate's functions
        asked = [text for text in paragraphs if crate in ("rules", "lineup", "labels") or text.startswith(f"**`{crate}::")]
        if not any(f"`{label}`" in text for text in asked):
            fail(f"docs/PROMISES.md does not name {crate}/{label}")
    if not re.search(rf"^{len(labels)} of them, in {len(edits)} edits", promises, re.MULTILINE):
        fail(f"docs/PROMISES.md does not say '{len(labels)} of them, in {len(edits)} edits'")
    functions = 0
    for source in sorted(root.glob("crates/*/src/lib.rt")):
        crate = source.parent.parent.name
        theorems = source.parent.parent / "proofs" / "Determined.antt"
        for function in public_functions(source):
            says = "DeterminedBy" if (crate, function) in BY_READING else "Determined"
            named = rf"\bpub {function}[-_]determined : {says} "
            if not theorems.is_file() or not re.search(named, theorems.read_text(encoding="utf-8")):
                fail(f"{theorems} has no {function}-determined, or it doesn't say '{says}'")
            if not re.search(rf"^\*\*`{crate}::(?:\w+::)?{function}\(", promises, re.MULTILINE):
                fail(f"docs/PROMISES.md has no paragraph '**`{crate}::{function}(..)`**'")
            if refusing[crate, function] < 2:
                fail(f"{crate}::{function} has fewer than two wrong answers that it refuses itself")
            functions += 1
    if not re.search(rf"\b{functions} public functions", promises):
        fail(f"docs/PROMISES.md does not speak of 'the {functions} public functions'")
    return functions


def main():
    root = pathlib.Path.cwd()
    names = sys.argv[1:]
    edits = [it for it in sorted(root.glob("crates/*/must-fail/*.edit")) if not names or it.parts[-3] in names]
    if not edits:
        fail("no must-fail edits here: run it in the repository's root, with names of crates that have some, or with none")
    labels, refusing = each_refused(Tree(root), edits)
    said = f"{len(labels)} wrong answers in {len(edits)} edits, each refused where it should be"
    if not names:
        said += f"; {promised(root, labels, refusing, edits)} functions determined"
    print(f"tests/edits: {said}")


main()
