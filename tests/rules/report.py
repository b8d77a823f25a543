"""What became of the changes: the counts, those that mean the same, and docs/CHANGED-RULES.md."""
import collections
import pathlib
import sys

import changes
import trials

KINDS = {
    "number": "a constant one higher or lower",
    "compared": "< for ≤ and the other way round, = loosened to ≤ either way",
    "operand": "one side of `&&` or `||` left out",
    "turned": "`not` left out",
    "tested": "a test taken for true, and for false",
    "order": "two checks that follow each other changed about",
    "operator": "another operation: + and -, * and +, / and %, ^ and *",
    "field": "a field for its neighbour of the same type",
    "argument": "an argument for the next one of its type",
    "word": "a table, an answer, true or false, or a letter of a printed text for another",
    "demand": "of a relation of `Parts` or `Growth` one thing that it asks for left out",
}
HEAD = """# Changed rules

What `tests/rules/try` last said. It makes small changes of the rules (`crates/rules/specs`), one at a time, and asks the prover of each whether the
computed facts still hold: those of `crates/examples` and, in `crates/rules/proofs`, `Examples` and `Readings`. It tries them on a copy that has the
rules and these facts alone, so that no proof script that merely breaks counts as a refusal. `Offering`, `Answered`, `Labelling`, `Runs`, `InParts`, `Formed`
and `Sent` are words of theorems and no rules: of them only the three definitions that compute are tried. A change that is *no rule* takes a neighbour of
another type, so that the text is no definition. One that is *alike* is refused by no fact because it means the same; the reasons are below. A run can be
continued (`--left`): what was refused before is then not tried again.

"""


def alike_list(folder):
    """tests/rules/alike.txt: a reason in a line that begins with '# ', and below it the changes that it goes for. A line that begins with two spaces
    goes on with the one above it."""
    reasons, reason = {}, None
    for line in (folder / "alike.txt").read_text(encoding="utf-8").replace("\n  ", " ").splitlines():
        if line.startswith("# "):
            reason = line[2:]
        elif line.strip():
            if reason is None or line in reasons:
                sys.exit(f"tests/rules/alike.txt: no reason above, or twice: {line}")
            reasons[line] = reason
    return reasons


def rows(title, names, counts):
    lines = [f"| {title} | tried | refused | alike | no rule |", "|---|---:|---:|---:|---:|"]
    for name in names:
        refused, alike, no_rule = (counts[name, word] for word in ("refused", "alike", "no-rule"))
        lines.append(f"| {KINDS.get(name, name)} | {refused + alike + no_rule} | {refused} | {alike} | {no_rule} |")
    return lines


def document(found, outcomes, reasons):
    by_file = collections.Counter((c.file, outcomes[c].word) for c in found)
    by_kind = collections.Counter((c.kind, outcomes[c].word) for c in found)
    every = collections.Counter(("**all**", outcomes[c].word) for c in found)
    lines = rows("file", list(dict.fromkeys(c.file for c in found)) + ["**all**"], by_file + every) + [""]
    lines += rows("change", KINDS, by_kind) + ["", "## Alike, and why", ""]
    for reason in dict.fromkeys(reasons.values()):
        lines += [f"- {reason}"] + [f"  - `{key}`" for key, why in reasons.items() if why == reason]
    facts = collections.Counter(outcomes[c].by.split(".")[0] for c in found if outcomes[c].word == "refused")
    lines += ["", "## By which facts the others were refused (the first that was asked)", ""]
    lines += [f"- `{name}`: {count}" for name, count in facts.most_common()]
    return HEAD + "\n".join(lines) + "\n"


def log_of(root):
    return root / "out" / "rules-tried.txt"


def begin(root):
    log_of(root).parent.mkdir(exist_ok=True)
    log_of(root).write_text("", encoding="utf-8")


def write_down(root, outcomes):
    """Adds to the log. A change has a line for each step that it was tried in, and the last one counts."""
    with log_of(root).open("a", encoding="utf-8") as log:
        log.writelines(f"{outcome.word} | {outcome.by} | {change.kind} | {change.key()}\n" for change, outcome in outcomes.items())


def settled(root, found):
    """The changes that the log has as refused, or as no rule, with what it says."""
    if not log_of(root).is_file():
        sys.exit("tests/rules/try: out/rules-tried.txt is not there: nothing was tried yet")
    known = {}
    for line in log_of(root).read_text(encoding="utf-8").splitlines():
        word, by, kind, key = line.split(" | ", 3)
        if word in ("refused", "no-rule"):
            known[kind, key] = trials.Outcome(word, by)
    return {c: known[c.kind, c.key()] for c in found if (c.kind, c.key()) in known}


def tell(root, found, outcomes, whole):
    reasons = alike_list(pathlib.Path(__file__).resolve().parent)
    alike = {c.key() for c in found if outcomes[c].word == "alike"}
    faults = [f"no fact refuses: {key}" for key in sorted(alike) if key not in reasons]
    # a neighbour can be of another type; any other change gives a definition again, or it was made wrongly
    typed = [c for c in found if c.kind in ("field", "argument") or c.new in changes.TABLES]
    faults += [f"no rule, but it should be one: {c.key()}" for c in found if outcomes[c].word == "no-rule" and c not in typed]
    faults += [f"the prover gave no answer ({outcomes[c].by}): {c.key()}" for c in found if outcomes[c].word == "no-answer"]
    if whole:
        faults += [f"in alike.txt, and refused or no longer there: {key}" for key in reasons if key not in alike]
    counts = collections.Counter(outcomes[c].word for c in found)
    print("\n".join(faults + [f"tests/rules/try: {len(found)} changes: " + ", ".join(f"{n} {word}" for word, n in counts.items())]))
    if whole and not faults:
        (root / "docs" / "CHANGED-RULES.md").write_text(document(found, outcomes, reasons), encoding="utf-8")
    return 1 if faults else 0
