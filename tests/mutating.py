"""Small changes to the sources: where one can be made, and what it makes of its line. Contracts, ghost lines, comments, texts,
`use` lines and declarations of types are left alone: only function bodies and the values of constants are changed."""
import dataclasses
import re

KINDS = ["operator", "constant", "constructor", "drop", "arguments"]
OPERATORS = {
    "<": "<=",
    "<=": "<",
    ">": ">=",
    ">=": ">",
    "==": "!=",
    "!=": "==",
    "+": "-",
    "-": "+",
    "*": "/",
    "/": "*",
    "%": "/",
    "&&": "||",
    "||": "&&",
    ">>": "<<",
    "<<": ">>",
    "|": "&",
    "&": "|",
    "+=": "-=",
    "-=": "+=",
}
OPERATOR = re.compile("(?<= )(?:" + "|".join(re.escape(o) for o in sorted(OPERATORS, key=len, reverse=True)) + ")(?= )")
# a test that is no comparison: `if v.is_refused() {`
PLAIN_TEST = re.compile(r"\bif (?=[\w.:]+(?:\([\w., ]*\))? \{)")
NOT = re.compile(r"(?<![\w!])!(?=[\w(])")
NUMBER = re.compile(r"(?<![\w.])(\d+)(?:u8|u16|u32|u64|usize)?(?!\w)")
TRUTH = re.compile(r"\b(?:true|false)\b")
TEXT = re.compile(r"""b["'][^"'\\]*([A-Za-z])["']""")
VARIANT = re.compile(r"\b([A-Z]\w*)::([A-Z]\w*)\b")
STATEMENT = re.compile(r"(?!let |return )(?:[\w.\[\] +]+ [-+|*]?= .*|[\w:.]+\(.*\));$")
CALL = re.compile(r"\b(\w+)\(")
SIMPLE = re.compile(r"[\w.]+$")
HIDDEN = re.compile(r"""//.*|b?"(?:\\.|[^"\\])*"|b?'(?:\\.|[^'\\])'""")
FUNCTION = re.compile(r'\s*(?:pub |final )?(?:extern "C" )?fn \w')
CONSTANT = re.compile(r"\s*(?:pub )?const \w+: .* = ")
LARGEST = 2**64 - 1


@dataclasses.dataclass(frozen=True)
class Mutant:
    """One change: the line `old` of a crate's file becomes `new`, and is gone where that is empty."""

    crate: str
    file: str
    line: int
    kind: str
    number: int
    old: str
    new: str

    @property
    def id(self):
        return f"{self.crate}:{self.line}:{self.kind}:{self.number}"


def hide(line):
    """The line with comments, texts and characters blanked, each place where it was."""
    return HIDDEN.sub(lambda m: "\0" * len(m.group()), line)


def code(lines):
    """The lines of function bodies and of constants' values: their numbers from 0, and the text with what is left alone
    blanked."""
    where, depth = "outside", 0
    for i, line in enumerate(lines):
        shown = hide(line)
        if where == "outside" and FUNCTION.match(line):
            where = "signature"
        elif where == "outside" and CONSTANT.match(line):
            where = "constant"
            shown = CONSTANT.sub(lambda m: "\0" * len(m.group()), shown)
        if where == "signature":
            # What a trait only declares ends here.
            if line.rstrip().endswith(";"):
                where = "outside"
            if line.lstrip().startswith(("requires", "ensures")):
                continue
            if shown.rstrip().endswith("{"):
                where, depth = "body", 1
        elif where == "body":
            depth += shown.count("{") - shown.count("}")
            if depth == 0:
                where = "outside"
            elif not line.lstrip().startswith("ghost"):
                yield i, shown
        elif where == "constant":
            yield i, shown
            if shown.rstrip().endswith(";"):
                where = "outside"


def enums(texts):
    """Of each enum: its variants in order, with what each holds ('' for nothing, None for named fields)."""
    found = {}
    for text in texts:
        for name, inner in re.findall(r"^\s*(?:pub )?enum (\w+) \{\n(.*?)^\s*\}\n", text, re.M | re.S):
            first = re.search(r"^(\s*)\w", inner, re.M).group(1)
            variants = re.findall(rf"^{first}(\w+)(?:\(([^)]*)\))?( \{{)?", inner, re.M)
            found.setdefault(name, [(v, None if fields else held) for v, held, fields in variants])
    return found


def signatures(texts):
    """Of each name of functions: the types of the arguments beside self, one list for each function of that name."""
    found = {}
    for text in texts:
        for name, inner in re.findall(r"\bfn (\w+)\(([^)]*)\)", text):
            types = [p.split(":", 1)[1].strip() for p in inner.split(",") if ":" in p]
            found.setdefault(name, []).append(types)
    return found


def closing(text, at):
    """The place of the bracket that closes the one at `at`, or None where it is on another line."""
    depth = 0
    for i in range(at, len(text)):
        depth += (text[i] in "([{") - (text[i] in ")]}")
        if depth == 0:
            return i
    return None


def parts(text, start, end):
    """The places of the arguments between two brackets."""
    depth, begin, found = 0, start, []
    for i in range(start, end):
        depth += (text[i] in "([{") - (text[i] in ")]}")
        if text[i] == "," and depth == 0:
            found.append((begin, i))
            begin = i + 1
    found.append((begin, end))
    return [(a + len(text[a:b]) - len(text[a:b].lstrip()), b) for a, b in found]


def put(line, start, end, new):
    return line[:start] + new + line[end:]


def operators(line, shown):
    for m in OPERATOR.finditer(shown):
        yield put(line, *m.span(), OPERATORS[m.group()])
    for m in PLAIN_TEST.finditer(shown):
        yield put(line, m.end(), m.end(), "!")
    for m in NOT.finditer(shown):
        yield put(line, *m.span(), "")


def constants(line, shown):
    for m in NUMBER.finditer(shown):
        # the length of an array is part of a type
        if not (shown[: m.start()].endswith("; ") and shown[m.end() :].startswith("]")):
            n = int(m.group(1))
            yield put(line, *m.span(1), str(n - 1 if n == LARGEST else n + 1))
    for m in TRUTH.finditer(shown):
        yield put(line, *m.span(), "false" if m.group() == "true" else "true")
    for m in TEXT.finditer(line):
        # a name's last letter; not in a comment
        if shown[m.start()] == "\0" and "//" not in line[: m.start()]:
            yield put(line, *m.span(1), chr(ord(m.group(1)) ^ 1))


def constructors(line, shown, known):
    """A variant becomes the next one that holds the same, or, where none does, one that holds nothing."""
    # what stands left of an arrow is a pattern
    start = shown.find("=>") + 2 if "=>" in shown else 0
    for m in VARIANT.finditer(shown, start):
        variants = known.get(m.group(1), [])
        names = [v for v, _ in variants]
        if m.group(2) not in names:
            continue
        at = names.index(m.group(2))
        turned = variants[at + 1 :] + variants[:at]
        held = variants[at][1]
        end = m.end()
        other = None if held is None else next((v for v, h in turned if h == held), None)
        if other is None and held and shown[end : end + 1] == "(":
            other = next((v for v, h in turned if h == ""), None)
            end = (closing(shown, end) or -1) + 1
        if other is not None and end:
            yield put(line, m.start(2), end, other)


def dropped(line, shown):
    if STATEMENT.match(shown.strip()):
        yield ""


def arguments(line, shown, known):
    """Two neighbours of the same type change places; of other types the compiler would refuse them."""
    for m in CALL.finditer(shown):
        end = closing(shown, m.end() - 1)
        if end is None:
            continue
        places = parts(shown, m.end(), end)
        kinds = [t for t in known.get(m.group(1), []) if len(t) == len(places)]
        for k, ((a, b), (c, d)) in enumerate(zip(places, places[1:])):
            left, right = line[a:b], line[c:d]
            alike = any(t[k] == t[k + 1] for t in kinds)
            if alike and left != right and SIMPLE.match(left) and SIMPLE.match(right):
                yield line[:a] + right + line[b:c] + left + line[d:]


def of_line(line, shown, variants, types):
    """The changes of one line, by kind."""
    return {
        "operator": operators(line, shown),
        "constant": constants(line, shown),
        "constructor": constructors(line, shown, variants),
        "drop": dropped(line, shown),
        "arguments": arguments(line, shown, types),
    }


def all_of(top):
    """Every mutant of every crate, in the order of the sources."""
    files = sorted(top.glob("crates/*/src/*.rt"))
    texts = [f.read_text() for f in files]
    found = []
    for file, text in zip(files, texts):
        crate = file.parent.parent.name
        # a name that two crates use means the crate's own
        variants, types = enums([text, *texts]), signatures(texts)
        lines = text.splitlines()
        for i, shown in code(lines):
            for kind, made in of_line(lines[i], shown, variants, types).items():
                for n, new in enumerate(made, 1):
                    found.append(Mutant(crate, f"src/{file.name}", i + 1, kind, n, lines[i], new))
    return found
