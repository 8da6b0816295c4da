"""Rounds of wrong programs: crates/NAME/rounds/*.edit. A round holds wrong programs that are refused in one check of the crate, at
most one for each function:

    # LABEL: what is wrong
    file: src/lib.rt
    old: a text that stands once in the file
    new: what takes its place

with any number of old and new pairs, which apply to what the earlier ones made. A wrong program is refused in the function that
its pairs stand in. Where they stand in a definition, in a constant or in several functions, a line says where the prover refuses it:

    # refused in: FUNCTION, Module.law

The wrong programs of a round must not share such a place. tests/rounds holds every file to this before anything is proved, and
tests/must-fail-logs holds what the prover says to it."""
import dataclasses
import pathlib
import re

HEAD = re.compile(r"# (\w+): (\S.*)")
REFUSED_IN = re.compile(r"# refused in: (\S.*)")
FUNCTION = re.compile(r'( *)(?:#\[no_mangle\] )?(?:pub |final )?(?:const )?(?:extern "C" )?fn (\w+)')
TRAIT = re.compile(r"(?:pub )?trait (\w+)")
IMPL = re.compile(r"impl(?:<[^{]*?>)? (?:(\w+)(?:<(.*)>)? for )?(\w+)(?:<.*>)? \{")


class Malformed(Exception):
    """What is wrong with a file of rounds, with its place."""


@dataclasses.dataclass
class Wrong:
    """A wrong program: its pairs of file, old and new text; the places where the prover is to refuse it; the functions of the
    crate that its pairs stand in, and whether all pairs stand in functions' bodies."""

    label: str
    says: str
    pairs: list = dataclasses.field(default_factory=list)
    refused_in: list = dataclasses.field(default_factory=list)
    edits: list = dataclasses.field(default_factory=list)
    of_code: bool = True

    def places(self):
        return self.refused_in or self.edits


@dataclasses.dataclass
class Round:
    """Wrong programs that are tried together, and the texts of the files that they change, by their path in the crate."""

    name: str
    wrongs: list
    texts: dict


def camel(kind):
    """The name that the prover gives to a type in the name of an impl of a trait: of `From<Result<(), E>>` it is ResultUnitE."""
    return "".join("Unit" if w == "()" else w[0].upper() + w[1:] for w in re.findall(r"\(\)|\w+", kind))


def bodies(file, text):
    """The functions of a source file: the lines of each from its name to its end, from 0, the line where its body opens, and its
    path as the prover prints it."""
    module = "" if pathlib.PurePath(file).stem in ("lib", "main") else pathlib.PurePath(file).stem + "::"
    found, owner, begun = [], "", None
    for i, line in enumerate(text.split("\n")):
        if m := IMPL.match(line):
            owner = (camel(m[3]) + m[1] + camel(m[2] or "") if m[1] else m[3]) + "::"
        elif m := TRAIT.match(line):
            owner = m[1] + "::"
        elif line == "}" and not begun:
            owner = ""
        if m := FUNCTION.match(line):
            begun = [i, None, m[1], module + (owner if m[1] else "") + m[2]]
        if begun:
            if begun[1] is None and line.endswith("{"):
                begun[1] = i
            if line == begun[2] + "}":
                found.append((begun[0], begun[1], i, begun[3]))
                begun = None
    return found


def functions(folder):
    """The paths of all functions of a crate."""
    return {path for file in sorted((folder / "src").glob("*.rt")) for *_, path in bodies(file.name, file.read_text())}


def laws(folder):
    """The declarations of a crate's proofs, as Module.name."""
    found = set()
    for file in sorted((folder / "proofs").rglob("*.antt")):
        module = ".".join(file.relative_to(folder / "proofs").with_suffix("").parts)
        names = re.findall(r"^ *(?:(?:abbrev|unfoldable|pub|record|data) )*([^\s:(){}|]+)(?= [^=\n]*:)", file.read_text(), re.M)
        found |= {f"{module}.{name}" for name in names}
    return found


def read_wrongs(where, text):
    """The wrong programs of a file, by its text alone."""
    wrongs, file, old, used = [], None, None, True
    for number, line in enumerate(text.split("\n"), 1):
        at = f"{where}:{number}"
        if not used and re.match("file: |# ", line):
            raise Malformed(f"{at}: the `file:` line before it has no pair")
        if m := HEAD.fullmatch(line):
            if wrongs and not wrongs[-1].pairs:
                raise Malformed(f"{at}: `{wrongs[-1].label}` has no pair")
            wrongs.append(Wrong(m[1], m[2]))
            file = None
        elif not line.strip():
            pass
        elif not wrongs:
            raise Malformed(f"{at}: a line before the first label, `# LABEL: what is wrong`")
        elif m := REFUSED_IN.fullmatch(line):
            wrongs[-1].refused_in += [name.strip() for name in m[1].split(",")]
        elif line.startswith("file: "):
            file = line[len("file: ") :].strip()
            if not re.fullmatch(r"(src|specs)/(\w+/)*\w+\.(rt|antt)", file):
                raise Malformed(f"{at}: `file:` names no file below src/ or specs/")
            used = False
        elif line.startswith("old: ") and old is None:
            if not file:
                raise Malformed(f"{at}: `old:` before the `file:` of `{wrongs[-1].label}`")
            old = line[len("old: ") :]
        elif re.match("new:( |$)", line) and old is not None:
            wrongs[-1].pairs.append((file, old, line[len("new: ") :]))
            old, used = None, True
        else:
            raise Malformed(f"{at}: not read: {line[:60]}")
        if old is not None and not line.startswith("old: "):
            raise Malformed(f"{at}: an `old:` line has no `new:` line after it")
    if old is not None or not used or not wrongs or not wrongs[-1].pairs:
        raise Malformed(f"{where}: it ends without a whole pair")
    return wrongs


def apply(where, wrong, texts, folder):
    """Applies a wrong program's pairs to the texts, and notes where they stand."""
    for file, old, new in wrong.pairs:
        if file not in texts:
            path = folder / file
            if not path.is_file():
                raise Malformed(f"{where}: `{wrong.label}`: the crate has no file {file}")
            texts[file] = path.read_text()
        count = texts[file].count(old)
        if count != 1:
            raise Malformed(f"{where}: `{wrong.label}`: an `old:` text stands {count} times in {file}, and not once: {old.strip()[:60]}")
        if old == new:
            raise Malformed(f"{where}: `{wrong.label}`: a pair changes nothing")
        line = texts[file][: texts[file].index(old)].count("\n")
        held = bodies(file, texts[file]) if file.startswith("src/") else []
        within = [(opens, path) for first, opens, last, path in held if first <= line <= last]
        wrong.edits += [path for _, path in within if path not in wrong.edits]
        is_ghost = texts[file].split("\n")[line].lstrip().startswith("ghost")
        wrong.of_code &= bool(within) and not is_ghost and all(opens is not None and opens < line for opens, _ in within)
        texts[file] = texts[file].replace(old, new)


def read(path, known=None):
    """A round of the crate in whose rounds/ the file stands. known: the functions and laws of the crate."""
    folder, where = path.parent.parent, f"{path.parent.parent.name}/rounds/{path.name}"
    known = known or functions(folder) | laws(folder)
    try:
        wrongs = read_wrongs(where, path.read_text())
    except (UnicodeDecodeError, OSError) as error:
        raise Malformed(f"{where}: it cannot be read: {error}") from None
    texts, taken = {}, {}
    for wrong in wrongs:
        apply(where, wrong, texts, folder)
        if len(wrong.edits) != 1 and not wrong.refused_in:
            raise Malformed(f"{where}: `{wrong.label}` edits {' and '.join(wrong.edits) or 'no function'}: say `# refused in: ..`")
        for place in wrong.refused_in:
            if place not in known:
                raise Malformed(f"{where}: `{wrong.label}`: the crate has no `{place}`")
        for place in wrong.edits:
            if place not in wrong.places():
                raise Malformed(f"{where}: `{wrong.label}` edits `{place}`, where it is not said to be refused")
        for place in wrong.places():
            if place in taken:
                raise Malformed(f"{where}: `{taken[place]}` and `{wrong.label}` are both of `{place}`: one of them goes to another round")
            taken[place] = wrong.label
    return Round(f"{folder.name}/{path.stem}", wrongs, texts)


def alone(folder, round_):
    """The wrong programs of a round, each by itself."""
    for wrong in round_.wrongs:
        texts, name = {}, f"{folder.name}!{wrong.label}"
        apply(name, dataclasses.replace(wrong, edits=[]), texts, folder)
        yield Round(name, [wrong], texts)


def of_crate(folder):
    """The rounds of a crate. No label stands twice."""
    known, labels, found = functions(folder) | laws(folder), {}, []
    for path in sorted((folder / "rounds").glob("*")):
        if not re.fullmatch(r"\w+\.edit", path.name):
            raise Malformed(f"{folder.name}/rounds/{path.name}: a round is a file NAME.edit")
        found.append(read(path, known))
        for wrong in found[-1].wrongs:
            if wrong.label in labels:
                raise Malformed(f"{found[-1].name}: the label `{wrong.label}` stands in {labels[wrong.label]} already")
            labels[wrong.label] = found[-1].name
    return found
