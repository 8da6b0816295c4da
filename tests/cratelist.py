"""The crates of this repository, by crates.txt."""
import functools
import pathlib

top = pathlib.Path(__file__).resolve().parent.parent


@functools.lru_cache
def listed():
    """Each crate of crates.txt, from the bottom up: its kind, if one is named, and what it is said to depend on."""
    lines = [line.split("#")[0] for line in (top / "crates.txt").read_text().splitlines()]
    parts = [(name.split(), rest.split()) for name, colon, rest in (line.partition(":") for line in lines) if colon]
    return {name: (kind, rest) for (name, *kind), rest in parts}


def is_program(crate):
    return (top / "crates" / crate / "src" / "main.rt").is_file()


def is_static(crate):
    return "staticlib" in listed()[crate][0]


@functools.lru_cache
def below():
    """All crates below each crate, from the bottom up."""
    found = {}
    for crate, (_, names) in listed().items():
        under = {*names, *(name for dep in names for name in found[dep])}
        found[crate] = [name for name in found if name in under]
    return found
