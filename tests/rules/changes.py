"""Every small change of the rules: one comparison, constant, field, operand or word of crates/rules/specs made another, one at a time.

A change is a place in a file and the text that stands there instead. What is changed is what a definition says, behind its `=`, and in
Parts.antt and Growth.antt what their relations ask; signatures, patterns, comments and imports stay. The kinds:

    number       a constant one higher, and one lower
    compared     leb for ltb and the other way round; eqb loosened to leb, either way round
    operand      of && and || one side alone
    turned       `not` left out
    tested       what cond, unless, needs or wants tests taken for true, and for false
    order        two checks that follow each other changed about
    operator     + for -, * for +, / for % and the other way round, ^ for *
    field        a field of a struct for its neighbour of the same type
    argument     a definition's argument for the next one of its type
    word         a table or an answer for its neighbour, true for false, a printed text with another letter
    demand       of a relation of Parts.antt or Growth.antt one thing that it asks for left out
"""
import dataclasses
import re

WORD = re.compile(r'"(?:[^"\\]|\\.)*"|--[^\n]*|[^\s(){};,"]+|[(){};,]')
NUMBER = re.compile(r"0x[0-9A-Fa-f]+|[0-9]+")
NAME = re.compile(r"[^\W\d][\w'-]*")
# fields of a name, as in h.live.last, or of what stands in brackets in front; a module's name begins with a capital
FIELDS = re.compile(r"(?:[^\W\dA-Z][\w'-]*)?(?:\.[^\W\dA-Z][\w'-]*)+")
DECLARED = re.compile(r"^ *(?:unfoldable|abbrev) pub (?!use )(?P<name>\S+)|^ *pub (?P<kind>record|data) (?P<type>\S+)")
# the files whose relations ask for something; the other records only name types
RELATIONS = ("Parts", "Growth")
OPERATORS = {"+": "-", "-": "+", "*": "+", "/": "%", "%": "/", "^": "*"}
COMPARED = {"leb": "ltb", "ltb": "leb"}
TESTED = {"cond", "unless", "needs", "wants"}
ENDS = {";", ",", "∷", "++", "≡", "→", "in", "&&", "||", "=", "×"}
NEIGHBOURS = {
    "Cds": "Mms", "Mms": "Vcm", "Vcm": "Dcm", "Dcm": "Ntt", "Ntt": "Cds", "true": "false", "false": "true", "OtherMap": "Repeat",
    "Repeat": "OtherMap", "Stored": "Live", "Live": "Stored",
}
# a table for its neighbour, where the records of a table are spoken of, can be of another type
TABLES = ("Cds", "Mms", "Vcm", "Dcm", "Ntt")
# what a change may name; a name that the file has already may be brought in again
IMPORTS = "use Rattle.std.specs.Prelude.{◌+◌, ◌-◌, ◌*◌, ◌/◌, ◌%◌, ◌^◌, true, false, leb, ltb}\n"
NEIGHBOUR_IMPORTS = (
    "use Rattle.rules.specs.declared.Table.TheVariants.{Cds, Mms, Vcm, Dcm, Ntt}\n"
    "use Rattle.rules.specs.declared.Answer.TheVariants.{OtherMap, Repeat, Stored, Live}\n"
)


@dataclasses.dataclass(frozen=True)
class Token:
    text: str
    start: int
    end: int


@dataclasses.dataclass(frozen=True)
class Change:
    file: str
    definition: str
    kind: str
    start: int
    end: int
    new: str
    shown: str

    def key(self):
        return f"{self.file} {self.definition}: {self.shown}"


def tokens_of(text):
    """The words, each projection of one for itself: of h.live.last are h, .live and .last."""
    tokens = []
    for word in WORD.finditer(text):
        if FIELDS.fullmatch(word[0]):
            parts = re.finditer(r"\.?[^.]+", word[0])
            tokens += [Token(part[0], word.start() + part.start(), word.start() + part.end()) for part in parts]
        elif not word[0].startswith("--"):
            tokens.append(Token(word[0], word.start(), word.end()))
    return tokens


def structs_of(crate):
    """The fields of each declared struct and of each record of the specs, with their types."""
    structs = []
    source = (crate / "src" / "lib.rt").read_text(encoding="utf-8")
    for body in re.findall(r"struct \w+ \{(.*?)\n\}", source, re.DOTALL):
        structs.append(re.findall(r"pub (\w+): (\w+),", body))
    for spec in sorted((crate / "specs").glob("*.antt")):
        for block in re.split(r"\n\n", spec.read_text(encoding="utf-8")):
            if re.search(r"^pub record", block, re.MULTILINE):
                structs.append(re.findall(r"^  pub (\w+) : (.+)$", block, re.MULTILINE))
    return structs


def neighbour_fields(structs, field):
    """For each struct that has the field, the next one of its type."""
    found = []
    for fields in structs:
        alike = [name for name, kind in fields if (field, kind) in fields]
        if field in alike and len(alike) > 1:
            found.append(alike[(alike.index(field) + 1) % len(alike)])
    return sorted(set(found))


def atom_end(tokens, at):
    """The index behind the argument that begins at a token: a group or one word, with its projections."""
    end, depth = at, 0
    while True:
        depth += tokens[end].text in ("(", "{")
        depth -= tokens[end].text in (")", "}")
        end += 1
        if depth == 0:
            break
    while end < len(tokens) and is_projection(tokens, end):
        end += 1
    return end


def is_projection(tokens, at):
    return tokens[at].text.startswith(".") and tokens[at].start == tokens[at - 1].end


def operand(tokens, at, step):
    """The index of the last token of what stands on one side of the && or || at a token."""
    depth, i = 0, at + step
    opens, closes = (("(", "{"), (")", "}"))[::step]
    while 0 <= i < len(tokens):
        text = tokens[i].text
        if depth == 0 and (text in closes or text in ENDS or text.endswith(".")):
            break
        depth += (text in opens) - (text in closes)
        i += step
    return i - step


def number_changes(token):
    value = int(token.text, 0)
    form = "0x{:02X}" if token.text.startswith("0x") else "{}"
    for other in ([value - 1] if value else []) + [value + 1]:
        yield "number", token.start, token.end, form.format(other)


def test_changes(tokens, at):
    end = atom_end(tokens, at + 1)
    for truth in ("true", "false"):
        yield "tested", tokens[at + 1].start, tokens[end - 1].end, truth


def order_changes(text, tokens, at):
    """A check with its refusal, and the one behind it, changed about."""
    first = atom_end(tokens, at + 1)
    second = atom_end(tokens, first)
    inner = second + 1
    if inner < len(tokens) and tokens[second].text == "(" and tokens[inner].text == tokens[at].text:
        inner_end = atom_end(tokens, atom_end(tokens, inner + 1))
        one = text[tokens[at + 1].start : tokens[second - 1].end]
        other = text[tokens[inner + 1].start : tokens[inner_end - 1].end]
        between = text[tokens[second - 1].end : tokens[inner + 1].start]
        yield "order", tokens[at + 1].start, tokens[inner_end - 1].end, other + between + one


def equal_changes(text, tokens, at):
    """eqb a b loosened to leb a b and to leb b a."""
    first = atom_end(tokens, at + 1)
    second = atom_end(tokens, first)
    a = text[tokens[at + 1].start : tokens[first - 1].end]
    b = text[tokens[first].start : tokens[second - 1].end]
    # a number that is at most 0 is 0
    if b not in ("0", "0x00"):
        yield "compared", tokens[at].start, tokens[second - 1].end, f"leb {a} {b}"
    yield "compared", tokens[at].start, tokens[second - 1].end, f"leb {b} {a}"


def side_changes(text, tokens, at):
    left, right = operand(tokens, at, -1), operand(tokens, at, 1)
    start, end = tokens[left].start, tokens[right].end
    yield "operand", start, end, text[start : tokens[at - 1].end]
    yield "operand", start, end, text[tokens[at + 1].start : end]


def other_letter(token):
    letters = [i for i, c in enumerate(token.text) if c.isalpha() and token.text[i - 1] != "\\"]
    if letters:
        i = letters[-1]
        other = "y" if token.text[i] == "z" else "z"
        yield "word", token.start, token.end, token.text[:i] + other + token.text[i + 1 :]


def token_changes(text, tokens, at, structs, arguments):
    token = tokens[at]
    word = token.text
    if word.startswith('"'):
        yield from other_letter(token)
    elif NUMBER.fullmatch(word):
        # in braces stands the level of a type, which is no rule
        if at == 0 or tokens[at - 1].text != "{":
            yield from number_changes(token)
    elif word in COMPARED:
        yield "compared", token.start, token.end, COMPARED[word]
    elif word == "eqb":
        yield from equal_changes(text, tokens, at)
    elif word in ("&&", "||"):
        yield from side_changes(text, tokens, at)
    elif word == "not":
        yield "turned", token.start, token.end, ""
    elif word in TESTED:
        yield from test_changes(tokens, at)
        yield from order_changes(text, tokens, at)
    elif word in OPERATORS:
        yield "operator", token.start, token.end, OPERATORS[word]
    elif word.startswith(".") and len(word) > 1:
        for other in neighbour_fields(structs, word[1:]):
            yield "field", token.start, token.end, "." + other
    elif word in NEIGHBOURS:
        yield "word", token.start, token.end, NEIGHBOURS[word]
    elif word in arguments and [t.text for t in tokens[at + 1 : at + 2]] != ["="]:
        alike = [name for name, kind in arguments.items() if kind == arguments[word]]
        if len(alike) > 1:
            yield "argument", token.start, token.end, alike[(alike.index(word) + 1) % len(alike)]


def types_of(signature):
    """The types of a definition's arguments, in their order; implicit ones are left out."""
    types, depth, word = [], 0, ""
    for token in tokens_of(signature) + [Token("→", 0, 0)]:
        depth += (token.text in "({") - (token.text in ")}")
        if depth == 0 and token.text == "→":
            named = re.fullmatch(r"\( (.*?) : (.*) \)", word.strip())
            if named:
                types += [named[2]] * len(named[1].split())
            elif not word.strip().startswith("{"):
                types.append(word.strip())
            word = ""
        else:
            word += " " + token.text
    return types[:-1]


@dataclasses.dataclass
class Span:
    """What a definition's equation says, or a field of a relation asks: its name, the arguments with their types, and its place."""

    name: str
    arguments: dict
    start: int
    end: int


def arguments_of(left, types):
    """The names that the left side of an equation binds, each with its type; what is bound in one pattern counts as of one type."""
    patterns = [p for p in re.findall(r"\(.*?\)|\{.*?\}|\S+", left)[1:] if not p.startswith("{")]
    arguments = {p: t for p, t in zip(patterns, types) if NAME.fullmatch(p)}
    for pattern in patterns:
        if pattern.startswith("("):
            arguments |= {w: pattern for w in re.findall(r"[^\s()]+", pattern)[1:] if NAME.fullmatch(w)}
    return arguments


def equals_in(line):
    """The place of the = of an equation: the first one outside of brackets."""
    depth = 0
    for at, letter in enumerate(line):
        depth += (letter in "({") - (letter in ")}")
        if depth == 0 and re.match(r" =\s", line[at : at + 3]):
            return at + 1
    return None


def span_of(line, at, name, kind, types):
    """The span that begins in a line of a definition or of a record, if one does."""
    bare = line.strip()
    if kind and " : " in line:
        field = bare.removeprefix("pub ").split()[0]
        return Span(f"{name}.{field}", {}, at + line.index(" : ") + 3, at + len(line))
    equals = equals_in(line)
    if not kind and equals and re.match(rf"{re.escape(name)}( |$)", bare):
        return Span(name, arguments_of(line[:equals], types), at + equals + 1, at + len(line))
    return None


def spans_of(text):
    """The spans of a file, in its order. A line that begins none belongs to the one before it, or to the signature above its equation."""
    spans, at, name, kind, signature = [], 0, None, None, ""
    for line in text.splitlines(keepends=True):
        declared = DECLARED.match(line)
        if declared:
            kind, name = declared["kind"], declared["name"] or declared["type"]
            signature = line.partition(" : ")[2]
        elif line.startswith("module "):
            name = None
        elif name and line.strip() and not line.strip().startswith("--"):
            begins = span_of(line, at, name, kind, types_of(signature))
            if begins:
                spans.append(begins)
            elif spans and spans[-1].name.split(".")[0] == name:
                spans[-1].end = at + len(line)
            else:
                signature += line
        at += len(line)
    return spans


def shown(text, start, end, new):
    """The change in the words around it: the line with the old text in ⟨ ⟩ and the new one behind it."""
    first = text.rfind("\n", 0, start) + 1
    last = text.find("\n", end)
    words = text[first:start] + "⟨" + text[start:end] + " ⇒ " + new + "⟩" + text[end:last]
    return " ".join(words.split())


def pair_demands(file, text, span, tokens):
    """Of a relation that asks for several things at once, with × between them: each of them left out."""
    pairs = [at for at, token in enumerate(tokens) if token.text == "×"]
    for at in pairs:
        asked = [(at + 1, operand(tokens, at, 1))] + ([(operand(tokens, at, -1), at - 1)] if at == pairs[0] else [])
        for first, last in asked:
            start, end = tokens[first].start, tokens[last].end
            yield Change(file, span.name, "demand", start, end, "Unit {0}", shown(text, start, end, "asked for nothing"))


def demands(file, text):
    """Of the relations of a file: each field left out, but for those of `Grown` that speak of the parts of its sections, whatever they are. That
    these ask for enough is condition 3 itself."""
    for block in re.finditer(r"^( *)pub record (?!(?:Piece|Parts) )(\w+)(?: \(.*?\))* : Type 0 where\n((?:\1  .*\n)+)", text, re.MULTILINE):
        for field in re.finditer(r"^ *pub (\w+) : (.*)\n", block[3], re.MULTILINE):
            if re.search(r"before|after|^Content$|^Parts$", field[2]):
                continue
            start = block.start(3) + field.start(2)
            yield Change(file, f"{block[2]}.{field[1]}", "demand", start, start + len(field[2]), "Unit {0}", f"⟨{field[2]} ⇒ asked for nothing⟩")


def changes_of(crate, file):
    """All changes of one file of the specs, in its order."""
    text = (crate / "specs" / f"{file}.antt").read_text(encoding="utf-8")
    structs = structs_of(crate)
    tokens = tokens_of(text)
    for span in spans_of(text):
        inside = [t for t in tokens if span.start <= t.start < span.end]
        if "." in span.name and file not in RELATIONS:
            continue
        for at in range(len(inside)):
            for kind, first, last, new in token_changes(text, inside, at, structs, span.arguments):
                yield Change(file, span.name, kind, first, last, new, shown(text, first, last, new))
        if file in RELATIONS:
            yield from pair_demands(file, text, span, inside)
    if file in RELATIONS:
        yield from demands(file, text)


def changed(crate, change):
    """The text of the file with the change made."""
    text = (crate / "specs" / f"{change.file}.antt").read_text(encoding="utf-8")
    brought = IMPORTS + (NEIGHBOUR_IMPORTS if change.new in NEIGHBOURS.values() and change.new not in ("true", "false") else "")
    return brought + text[: change.start] + change.new + text[change.end :]


def files_of(crate):
    """The files of the specs, in the order in which they are to be read."""
    lib = (crate / "specs" / "Lib.antt").read_text(encoding="utf-8")
    return re.findall(r"^pub mod (\w+)", lib, re.MULTILINE)
