"""Small made-up rounds and logs, one for each way to be wrong, with a part of what has to be said of them (None: nothing)."""

SOURCE = """pub fn one(n: u8) -> u8
    ensures { result ≡ n }
{
    n
}

impl Pair {
    pub fn two(&self) -> u8 {
        one(self.b)
    }

    fn three(&self) -> u8 {
        self.items.iter().map(|x| x + 1).max()
    }
}

pub trait Halves {
    fn all(&self) -> u8
        ensures { result ≤ 9 };

    final fn half(&self) -> u8 {
        self.all() / 2
    }
}

const LAST: u8 = 7;
"""
SPECS = "pub first : ℕ → ℕ\nfirst n = n + 1\n"
PROOFS = "pub first-is : (n : ℕ) → first n ≡ n + 1\nfirst-is n = refl\n"
ONE = "# one_late: one too many\nfile: src/lib.rt\nold:     n\nnew:     n + 1\n"
TWO = "# two_other: the other half\nfile: src/lib.rt\nold: one(self.b)\nnew: one(self.a)\n"
THREE = "# three_kept: nothing is added\nfile: src/lib.rt\nold: x + 1\nnew: x + 0\n"
HALF = "# half_all: nothing is halved\nfile: src/lib.rt\nold: self.all() / 2\nnew: self.all()\n"
LAW = (
    "# first_stays: by the definition nothing is added\n# refused in: Laws.first-is\n"
    "file: specs/First.antt\nold: n + 1\nnew: n + 0\n"
)
LAST = "file: src/lib.rt\nold: u8 = 7\nnew: u8 = 8\n"

# What is wrong with a file of rounds.
FORMS = [
    ("it is well", ONE + "\n" + TWO, None),
    ("nothing in it", "\n", "ends without a whole pair"),
    ("a line that is not read", ONE + "old; n\n", "not read: old; n"),
    ("a comment that is no label", ONE + "# and so on\n", "not read: # and so on"),
    ("a pair before any label", LAST, "before the first label"),
    ("a label with no pair", "# none: nothing\n" + ONE, "`none` has no pair"),
    ("the last label with no pair", ONE + "# none: nothing\n", "ends without a whole pair"),
    ("no file", "# one_late: one too many\nold:     n\nnew:     n + 1\n", "before the `file:`"),
    ("no file of its own", ONE + TWO.replace("file: src/lib.rt\n", ""), "before the `file:` of `two_other`"),
    ("a file outside", "# one_late: it\nfile: proofs/Laws.antt\nold: a\nnew: b\n", "names no file below src/ or specs/"),
    ("a file that is not there", "# one_late: it\nfile: src/other.rt\nold: a\nnew: b\n", "has no file src/other.rt"),
    ("an old text with no new one", "# one_late: it\nfile: src/lib.rt\nold:     n\n\nold: b\nnew: c\n", "has no `new:` line after it"),
    ("an old text at the end", "# one_late: it\nfile: src/lib.rt\nold:     n\n", "has no `new:` line after it"),
    ("a new text with no old one", "# one_late: it\nfile: src/lib.rt\nnew: c\n", "not read: new: c"),
    ("a pair that no longer applies", ONE.replace("    n\n", "    m\n"), "stands 0 times in src/lib.rt"),
    ("a text that stands twice", TWO.replace("one(self.b)", "self"), "times in src/lib.rt, and not once"),
    ("a text that an earlier pair took away", TWO + TWO.replace("two_other", "again"), "`again`: an `old:` text stands 0 times"),
    ("a pair that changes nothing", ONE.replace("n + 1", "n"), "changes nothing"),
    ("two of one function", ONE + "# one_more: it\nfile: src/lib.rt\nold: n + 1\nnew: n + 2\n", "are both of `one`"),
    ("no function", "# last: it\n" + LAST, "edits no function"),
    ("what a trait only declares", "# all_late: it\nfile: src/lib.rt\nold: result ≤ 9\nnew: result ≤ 8\n", "edits no function"),
    ("a place that is not there", "# last: it\n# refused in: four\n" + LAST, "has no `four`"),
    ("a place that another one has", ONE + "# last: it\n# refused in: one\n" + LAST, "are both of `one`"),
    ("two functions", ONE + "old: one(self.b)\nnew: one(self.a)\n", "edits one and Pair::two"),
    ("a label twice in the crate", ONE.replace("one_late", "elsewhere"), "the label `elsewhere` stands in"),
    ("a name that is no round's", None, "a round is a file NAME.edit"),
    ("no text", b"\xff\xfe", "it cannot be read"),
    ("a folder", ..., "it cannot be read"),
    ("a file twice", ONE.replace("file: src/lib.rt\n", "file: src/lib.rt\n" * 2), "the `file:` line before it has no pair"),
    ("a file at the end", ONE + "file: src/lib.rt\n", "ends without a whole pair"),
    ("a file by a longer path", ONE.replace("src/", "src//"), "names no file below src/ or specs/"),
    ("a place beside the edited function", ONE.replace("file:", "# refused in: Pair::two\nfile:"), "edits `one`, where it is not said"),
]

OPEN = "note: src/lib.rt:1:1: it is not proved that what the function ensures holds when it returns (`returns`)\n"
SEARCHED = "no proof: expected answers in ./proofs/one/Answers.antt; `search` did not prove `returns`\n"
NOT_CHECKED = "error: 1 declaration that depends on `first-is`, which was rejected, was not checked: returns\n"
FOLLOWS = "./proofs/Pair/two/Answers.antt:4:1: " + NOT_CHECKED
LAW_FAILS = "./proofs/Laws.antt:2:1: error: `first-is`: expected type `a`\n"
WAITS = "note: `search` has not tried the goals of `made::Pair::two`, which wait for a callee's proof\n"
CALLER = "fn made::Pair::two: no proof: it calls `made::one`, which is not proved\n"
DIFFERS = "error: `returns`: as printed, the two types differ only where one has `2`\n"
END = "logic=not-proved\n"
ONE_FAILS = OPEN + "fn made::one: " + SEARCHED
TWO_FAILS = "./proofs/Pair/two/Answers.antt:4:1: " + DIFFERS + "fn made::Pair::two: not proved; it calls `made::one`, which is not proved\n"
THREE_FAILS = (
    "fn made::fn::Pair::three::map+FnMut::call_mut: no proof: `search` did not prove `returns`\n"
    "fn made::Pair::three: no proof: it calls `made::fn::Pair::three::map+FnMut::call_mut`, which is not proved\n"
)
CLOSURE_PROVED = "fn made::fn::Pair::three::map: proved\nfn made::Pair::three: not proved\n"


def of_shape(said):
    return "./proofs/one/Answers.antt:4:1: error: `returns`: " + said + "\nfn made::one: not proved\n" + END


# What is wrong with a round, by what the prover said of it.
LOGS = [
    ("it is well", ONE, ONE_FAILS + CALLER + END, None),
    ("both are refused on a fact", ONE + TWO, ONE_FAILS + TWO_FAILS + END, None),
    ("a closure is its function's", THREE, THREE_FAILS + END, None),
    ("a function that a trait gives", HALF, "fn made::Halves::half: " + SEARCHED.replace("one", "Halves/half") + END, None),
    ("a law", LAW, LAW_FAILS + END, None),
    ("a law that holds on", ONE + LAW, ONE_FAILS + CALLER + END, "`first_stays`, in `Laws.first-is`: not refused"),
    ("a law that only follows", LAW, "./proofs/Laws.antt:2:1: " + NOT_CHECKED + END, "not refused"),
    ("still proved", ONE, "fn made::one: proved\nlogic=proved functions=2\n", "it is still proved"),
    ("one of two is proved", ONE + TWO, "fn made::one: proved\n" + TWO_FAILS + END, "`one_late`, in `one`: not refused"),
    ("no word of it", ONE + TWO, TWO_FAILS + END, "`one_late`, in `one`: not refused"),
    ("not tried, as a callee was refused", ONE + TWO, ONE_FAILS + CALLER + END, "`two_other`, in `Pair::two`: not tried"),
    ("its goals wait for a callee", ONE + TWO, ONE_FAILS + WAITS + OPEN + CALLER + END, "not tried"),
    ("another function is refused too", ONE, ONE_FAILS + TWO_FAILS + END, "`Pair::two` has no wrong program, and is refused too"),
    ("nothing says why", ONE, ONE_FAILS + "fn made::Pair::two: not proved\n" + END, "nothing says why"),
    ("not proved, though a closure of it is", ONE, ONE_FAILS + CLOSURE_PROVED + END, "nothing says why"),
    ("a law that a change of code breaks", ONE, ONE_FAILS + "./proofs/Laws.antt:2:1: error: `first-is`: `c` is not in scope\n" + END, "`Laws.first-is` has no wrong program"),
    ("what follows from a definition", LAW, LAW_FAILS + FOLLOWS + END, None),
    ("what follows from nothing", ONE, ONE_FAILS + FOLLOWS + END, "`Pair::two` has no wrong program"),
    ("another law is refused too", ONE, ONE_FAILS + LAW_FAILS + END, "`Laws.first-is` has no wrong program"),
    ("the compiler refuses it", ONE, "error[mismatched-types]: expected `u8`\n --> src/lib.rt:4:5\n", "no verdict of the prover: error[mismatched-types]"),
    ("a limit of the prover", ONE, "fn made::one: could not tell\nrattle: no verdict: antt ran out of memory\n", "no verdict of the prover"),
    ("nothing is said", ONE, "", "no verdict of the prover: nothing"),
    ("a name that is not there", ONE, of_shape("module `Goals` has no `returns` that can be named from here"), "refused for its shape"),
    ("a name out of scope", ONE, of_shape("`c` is not in scope"), "refused for its shape"),
    ("a field that is not there", ONE, of_shape("`c` has no field `d`"), "refused for its shape"),
    ("not admitted", ONE, of_shape("`d` was not admitted"), "refused for its shape"),
    ("a rewrite that does not apply", ONE, of_shape("no occurrence of the path's left endpoint in the goal"), "refused for its shape"),
    ("a path of two types", ONE, of_shape("`rw` needs a homogeneous path"), "refused for its shape"),
    ("what does not parse", ONE, of_shape("unexpected `)`"), "refused for its shape"),
    ("a constructor that is not there", ONE, of_shape("`Row` has no constructor `c`"), "refused for its shape"),
    ("a name of two", ONE, of_shape("`c` is ambiguous"), "refused for its shape"),
    ("an argument too many", ONE, of_shape("this call writes 1 explicit argument more than it has"), "refused for its shape"),
    ("a pattern too few", ONE, of_shape("these patterns are not covered"), "refused for its shape"),
    ("open goals of an answer that does not fit", ONE, of_shape("`Goals` has no `returns`").replace("fn ", OPEN + "fn "), "its shape"),
    ("advice on what is printed", ONE, of_shape("the two differ. `c` is not in scope here, so what is shown does not paste back"), None),
    ("a limit beside a fact", ONE + TWO, "fn made::one: could not tell\n" + TWO_FAILS + END, "by a limit of the prover"),
    ("a type is refused", ONE, ONE_FAILS + "struct made::Pair: not proved\n" + END, "neither a function nor a law: struct"),
    ("a conversion waits", ONE, ONE_FAILS + "impl made::PairFromU8: not proved; it waits for the proof of `from`\n" + END, None),
    ("an error at no place", ONE, ONE_FAILS + "./proofs/Laws.antt: error: it cannot be read\n" + END, "neither a function nor a law"),
    ("a callee that is not refused", ONE, ONE_FAILS + CALLER.replace("made::one", "made::Pair::three") + END, "nothing says why"),
]
