"""What the prover's log says of a check, and the verdict on a round of wrong programs. Shared by must-fail-logs, rounds and
mutants, so that all mean the same by a fact."""
import dataclasses
import re

SHAPE = [
    "has no `",
    "is not in scope",
    "error[",
    "parse error",
    "unexpected",
    "has no field",
    "has no constructor",
    "is ambiguous",
    "explicit argument",
    "not covered",
    # an error that only follows from another one, and a rewrite that does not apply any more
    "was not admitted",
    "was rejected, w",
    "no occurrence of the path's left endpoint",
    "needs a homogeneous path",
]
FIRST = re.compile(r"error|it is not proved")
ERROR = re.compile(r"(?:\./)?((?:src|specs|proofs)/[^\s:]+):\d+:\d+: error")
# Advice on how a term is printed, at the end of an error that may well be a fact.
PRINTED = re.compile(r"`[^`]*` is not in scope here, so what is shown does not paste back")
FOLLOWS = ("was not admitted", "was rejected, w")
LIMIT = "could not tell"
# What is no function and no law, and an error that is at no place.
OTHER = re.compile(r"(?:struct|enum|impl|trait|const|type) \S+: (?!proved)(?!.*it waits for the proof)")
STRAY = re.compile(r"error|(?:\./)?(?:src|specs|proofs)/\S+: error")
OPEN = re.compile(r"note: (?:\./)?src/[^\s:]+:\d+:\d+: it is not proved")
WAITS = re.compile(r"note: `search` has not tried the goals of `\w+::(.+?)`")
VERDICT = re.compile(r"fn \w+::(\S+): (proved|not proved|no proof|could not tell)(.*)")
CALLS = re.compile(r"it calls (.*?), which (?:is|are) not proved")
SEARCHED = re.compile(r"`search` did not prove `.*")


def message(lines, at):
    """The error that begins at a line, with the indented lines that continue it, less its place."""
    text = [lines[at].split(": ", 1)[-1]]
    for line in lines[at + 1 :]:
        if not line.startswith(" "):
            break
        text.append(line.strip())
    return " ".join(text)


def first_error(log):
    """The first error of a log, or None where it has none."""
    lines = log.splitlines()
    at = next((i for i, line in enumerate(lines) if FIRST.search(line)), None)
    return None if at is None else message(lines, at)


def of_shape(said):
    """Is the error one of shape, of scope or of parsing? Then it does not show that a fact fails."""
    return any(word in PRINTED.sub("", said) for word in SHAPE)


@dataclasses.dataclass
class Told:
    """What a log says of one function, or of one law of the proofs: whether it is refused, errors of its own, and callees that are
    not proved."""

    refused: bool = False
    errors: list = dataclasses.field(default_factory=list)
    calls: list = dataclasses.field(default_factory=list)

    def facts(self):
        """Its errors that are facts. Where an answer of the proof does not fit the code, goals are open that have none: no facts."""
        misfits = [e for e in self.errors if of_shape(e) and not any(word in e for word in FOLLOWS)]
        return [e for e in self.errors if not of_shape(e) and e != LIMIT and (e.startswith("error") or not misfits)]


def holder(name, functions):
    """The function of the source that a name of the prover's belongs to: a closure of `f` is `fn::f::map+FnMut::call_mut`."""
    name = name.removeprefix("fn::").lstrip("+")
    within = [f for f in functions if name == f or name.startswith(f + "::")]
    return max(within, key=len, default=name)


def place_of(file, error, functions):
    """Where an error of a file stands: a function, as its proof files stand in a folder of its name, or a law."""
    parts = re.sub(r"\.\w+$", "", file).split("/")[1:]
    for end in range(len(parts) - 1, 0, -1):
        found = holder("::".join(parts[:end]), functions)
        if found in functions:
            return found
    named = re.match(r"error: `([^`]+)`", error)
    return ".".join(parts) + (f".{named[1]}" if named else "")


def read_log(log, functions):
    """What a log says, by function and law."""
    told, open_goals, lines = {}, [], log.splitlines()
    of = lambda place: told.setdefault(place, Told())
    waits = {m[1] for line in lines if (m := WAITS.match(line))}
    for at, line in enumerate(lines):
        if m := ERROR.match(line):
            error = message(lines, at)
            found = of(place_of(m[1], error, functions))
            found.refused = True
            found.errors.append(error)
        elif OPEN.match(line):
            open_goals.append(message(lines, at).split(": ", 1)[-1])
        elif m := VERDICT.match(line):
            place = holder(m[1], functions)
            found = of(place)
            found.refused |= m[2] != "proved"
            if m[2] == LIMIT:
                found.errors = [LIMIT]
            elif m[2] != "proved" and m[1] not in waits:
                found.errors += open_goals or SEARCHED.findall(m[3])
            if calls := CALLS.search(m[3]):
                callees = (holder(c.split("::", 1)[1], functions) for c in re.findall(r"`([^`]+)`", calls[1]))
                found.calls += [c for c in callees if c != place]
            open_goals = []
    return told


def of_wrong(wrong, told):
    """The faults of one wrong program: it has to be refused on a fact at each of its places."""
    for place in wrong.places():
        of = told.get(place, Told())
        if of.facts():
            continue
        if of.errors:
            why = f"refused for its shape, or by a limit of the prover: {of.errors[0][:160]}"
        elif of.calls:
            why = f"not tried, as a callee was refused: `{of.calls[0]}`"
        else:
            why = "not refused"
        yield f"`{wrong.label}`, in `{place}`: {why}"


def of_others(told, places, with_definition):
    """The faults beside the wrong programs: nothing else may be refused but what calls a function that is, and, beside a wrong
    definition, what only follows from it."""
    for place, of in told.items():
        if not of.refused or place in places:
            continue
        if of.facts() or of.errors and not with_definition:
            yield f"`{place}` has no wrong program, and is refused too: {(of.facts() or of.errors)[0][:160]}"
        elif not of.errors and not (of.calls and all(told.get(callee, Told()).refused for callee in of.calls)):
            yield f"`{place}` has no wrong program, and is refused too, and nothing says why"


def of_the_rest(log, with_definition):
    """The faults that are at no function and at no law."""
    for line in log.splitlines():
        if STRAY.match(line) and not ERROR.match(line) or OTHER.match(line) and not with_definition:
            yield f"neither a function nor a law: {line[:160]}"


def judge(round_, functions, log):
    """The faults of a round, by what the prover says of it."""
    if not re.search(r"^logic=not-proved", log, re.M):
        said = next((line for line in log.splitlines() if "error" in line), (log.strip().splitlines() or ["nothing"])[-1])
        why = "it is still proved" if re.search(r"^logic=proved", log, re.M) else f"no verdict of the prover: {said[:200]}"
        return [f"{round_.name}: {why}"]
    told = read_log(log, functions)
    places = {place for wrong in round_.wrongs for place in wrong.places()}
    with_definition = any(file.startswith("specs/") for wrong in round_.wrongs for file, _, _ in wrong.pairs)
    faults = [fault for wrong in round_.wrongs for fault in of_wrong(wrong, told)]
    faults += [*of_others(told, places, with_definition), *of_the_rest(log, with_definition)]
    return [f"{round_.name}: {fault}" for fault in faults]
