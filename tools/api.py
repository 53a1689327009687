#!/usr/bin/env python3
"""api.py [--check | --write | --all [CRATE ..] | --laws | --words]: the public calls of the crates, their clauses and their plain words.

The words stand in the code: the lines of `//` directly above a clause. A clause without them takes the first sentence of
the call's `///`. docs/PROVED.md has lists of calls, between `<!-- api: CRATE .. -->` and `<!-- end -->`, a line for each clause.
A list has what a user or an auditor names: the functions that cmsproof_api exports, the methods of VERBS and of traits that its types
have, the crates of WHOLE and the calls of READS. It has no laws, no worked rows, no texts, nothing of LEFT_OUT and no clause of DEVICES.
A sentence that stands at an earlier clause of this name is told once, and so is what two calls say alike but for one phrase.

  --write   writes the lists anew; status 1 if something is left to mend by hand
  --check   says whether they are up to date; status 1 and the command that mends them if not
  --all     prints every public call that has clauses, with all of them, of all crates or of these
  --laws    prints the laws of all crates, which say what holds of definitions
  --words   lists the clauses without words of their own, in calls that have several clauses or no `///`
"""
import os.path
import re
import sys
from dataclasses import dataclass, field, replace
from pathlib import Path

TOP = Path(__file__).resolve().parent.parent
DOCUMENT = Path("docs", "PROVED.md")
COMMAND = "python3 tools/api.py --write"
TEST_CRATE = re.compile(r"vectors(_.*)?|.*_tests")
STALE = "the list of "
DOOR = "cmsproof_api"
WHOLE = ("big_numbers", "check_names", "cli_commands", "cli_files", "cli_making", "cli_rehashing", "cli_renewing")
WHOLE += ("ecdsa_octets", "rsa_keys", "rsa_signatures")
VERBS = ("read", "write", "make", "ask")  # what the methods are called that read, write and make whole values, and that ask
DEVICES = ("telling",)  # the clauses that say of a device what the document says of all
READS = ("Certificate::read", "SigningCert::read_v1", "SigningCert::read_v2", "cmsproof_check", "cmsproof_check_token")
READS += ("cmsproof_check_under", "cmsproof_evidence_check", "cmsproof_stamp_check")
# devices, verifiers for tests, parts of other types, calls that judge nothing, and those of cli_commands that cli_files makes
LEFT_OUT = ("Sink", "Source", "Puts", "Keeps", "KeepsBelow", "FusedVerifier", "Int", "Oid", "Signers", "print")
LEFT_OUT += ("answers_in", "ask_by", "check_by", "line_of", "stamp_questions_by", "text_of", "trust_in")
LEFT_OUT += ("Describes", "limit_of", "listed_algorithms")  # which judge nothing either
LEFT_OUT += ("judge_file",)  # whose clauses are those of `check` and `judge_stamp`, as the document says
# and those of cli_making and cli_renewing that cli_rehashing makes
LEFT_OUT += ("given_by", "later_stamp", "lists_of", "stamp_of", "sums_in", "tree_on", "Unrenewed")
TEXTS = ("Display", "Debug")  # the traits that print
EXACT = "The exact text."
FEW = 4  # words that are as short as a reference to them

IMPL = re.compile(r"impl\b")
FUNCTION = re.compile(r"( *)(pub(?:\([a-z]+\))? )?(?:const |unsafe |extern \"C\" )*fn ([a-z_0-9]+)")
CLAUSE = re.compile(r" *(?:ensures(?: ([a-z_0-9]+))? \{|ghost (output|from_gives) = \{)")
STRING = re.compile(r'b?"(?:\\.|[^"\\])*"|b?\'(?:\\.|[^\'\\])\'')
EXPORT = re.compile(r"^pub use ([a-z_0-9]+)::(?:\{([^}]*)\}|([A-Za-z_0-9]+));", re.M)
MODULE = re.compile(r"^pub mod ([a-z_0-9]+);", re.M)
TYPE = re.compile(r"^pub (?:struct|enum|trait) ([A-Za-z_0-9]+)", re.M)
MARK = re.compile(r"<!-- api: ([a-z_0-9 ]+) -->")
BLOCK = re.compile(MARK.pattern + r"\n((?:(?!<!-- api: ).)*?)<!-- end -->", re.S)


@dataclass
class Clause:
    """A clause of a call: its name or `-`, the line that it begins in, the lines of comment above it, and its text."""

    name: str
    line: int
    comment: list
    text: str = ""


@dataclass
class Call:
    """A function with clauses: where it is, its path as `Type::name` or `<Type as Trait>::name`, its `///`, whether a trait
    demands it of types, its clauses."""

    crate: str
    file: str
    path: str
    owner: str
    trait: str
    public: bool
    doc: list
    demanded: bool = False
    clauses: list = field(default_factory=list)

    @property
    def is_law(self):
        """Whether it states something of definitions, and has no worked rows."""
        return ("laws" in self.file or self.crate.endswith("_laws")) and not self.is_rows

    @property
    def is_rows(self):
        """Whether it states worked rows."""
        return self.path.endswith("rows_hold")

    @property
    def module(self):
        """The path of a function, with its module."""
        return f"`{self.file[:-3]}::{self.path}`"

    @property
    def shown(self):
        """The path as the lists have it: without the trait, unless that is what tells it from others."""
        name = self.path.rpartition("::")[2]
        if not self.owner:
            return f"`{name}`"
        if self.trait in TEXTS:
            return f"`{self.trait}` of `{self.owner}`"
        if self.trait.startswith("From"):
            return f"`From` into `{self.owner}`" if "<" not in self.trait else f"`{self.trait}` of `{self.owner}`"
        return f"`{self.owner}::{name}`"


def crates_of(top):
    """The crates of crates.txt that are no tests."""
    names = [line.partition(":")[0].split()[0] for line in (top / "crates.txt").read_text().splitlines() if line.strip()]
    return [name for name in names if not TEST_CRATE.fullmatch(name)]


def depth_of(line):
    """How many braces a line opens, less those that it closes."""
    bare = STRING.sub("", line)
    return bare.count("{") - bare.count("}")


def bare_type(text):
    """The name of a type, without its path and what is between angle brackets."""
    return re.sub(r"<.*", "", text.strip().lstrip("&")).rpartition("::")[2].strip()


def without_generics(text):
    """What follows the generics after `impl`."""
    if not text.startswith("<"):
        return text
    depth = 0
    for at, letter in enumerate(text):
        depth += {"<": 1, ">": -1}.get(letter, 0) if text[max(at - 1, 0) : at + 1] not in ("->", "=>") else 0
        if depth == 0:
            return text[at + 1 :]
    return text


def block_head(lines, at):
    """The owner and the trait of the `impl` or trait that begins in a line, or None."""
    text = lines[at]
    if IMPL.match(text):
        joined = " ".join(lines[at : at + 8]).partition("{")[0]
        rest = without_generics(joined[4:].strip())
        rest = re.split(r"\bwhere\b", rest)[0].strip()
        trait, separator, owner = rest.rpartition(" for ")
        if not separator:
            return bare_type(rest), ""
        name = re.sub(r"^(?:[a-z_0-9]+::)*", "", trait.strip())
        return bare_type(owner), name if name.startswith("From<") else bare_type(name)
    found = re.match(r"(?:pub )?trait ([A-Za-z_0-9]+)", text)
    return (found[1], "") if found else None


def above(lines, at, mark):
    """The lines of comment with this mark that stand directly above a line, without the mark."""
    found = []
    at -= 1
    while at >= 0 and re.match(rf" *{mark}(?!/)", lines[at]):
        found.insert(0, re.sub(rf"^ *{mark} ?", "", lines[at]).rstrip())
        at -= 1
    return found


def doc_of(lines, at):
    """The `///` of the function that begins in a line: above its attributes."""
    at -= 1
    while at >= 0 and re.match(r" *#\[|^ +[a-zA-Z(\"].*\)\]$", lines[at]):
        at -= 1
    return above(lines, at + 1, "///")


def clause_text(lines, at):
    """The text of the clause that begins in a line, and the line after it."""
    depth = 0
    for end in range(at, len(lines)):
        depth += depth_of(lines[end])
        if depth <= 0:
            return " ".join(line.strip() for line in lines[at : end + 1]), end + 1
    return lines[at], at + 1


def calls_in(crate, path, text):
    """Every function of a file that has clauses; those of tests within it are private, and so are not public."""
    lines = text.splitlines()
    found, owner, trait, in_trait, call, at, output = [], "", "", False, None, 0, None
    while at < len(lines):
        line = lines[at]
        if line.startswith("}"):
            owner, trait, in_trait, call, output = "", "", False, None, None
        head = block_head(lines, at)
        if head and not line.rstrip().endswith(";"):
            (owner, trait), in_trait, output = head, not IMPL.match(line), None
        function = FUNCTION.match(line)
        if function:
            name = function[3]
            full = name if not owner else f"<{owner} as {trait}>::{name}" if trait else f"{owner}::{name}"
            public = bool(function[2] and "(" not in function[2]) or bool(owner and (trait or in_trait))
            call = Call(crate, path, full, owner, trait, public, doc_of(lines, at), in_trait)
            if output:
                call.clauses.append(output)
                output = None
                found.append(call)
        clause = CLAUSE.match(line)
        if clause:
            text_, end = clause_text(lines, at)
            made = Clause(clause[1] or clause[2] or "-", at, above(lines, at, "//"), text_)
            if clause[2]:
                output = made
            elif call:
                if not call.clauses:
                    found.append(call)
                call.clauses.append(made)
            at = end
            continue
        at += 1
    return found


def exports_of(folder):
    """The names that the root of a crate exports, and the files of its public modules."""
    root = folder / "src" / "lib.rt"
    if not root.is_file():
        return set(), set()
    text = root.read_text()
    names = set()
    for _, several, one in EXPORT.findall(text):
        names |= {name.strip() for name in (several or one).split(",") if name.strip()}
    modules = {f"{name}.rt" for name in MODULE.findall(text)}
    for module in modules:
        names |= set(TYPE.findall((folder / "src" / module).read_text()))
    return names, modules


def public_calls(top, crate):
    """The public calls of a crate that have clauses, in the order of the files' names."""
    folder = top / "crates" / crate
    names, modules = exports_of(folder)
    names |= set(TYPE.findall((folder / "src" / "lib.rt").read_text())) if (folder / "src" / "lib.rt").is_file() else set()
    found = []
    for path in sorted((folder / "src").glob("*.rt")):
        for call in calls_in(crate, path.name, path.read_text()):
            if not call.public:
                continue
            if call.owner in names if call.owner else call.path in names or path.name in modules or path.name == "lib.rt":
                found.append(call)
    return found


def first_sentence(doc):
    """The first sentence of a `///`."""
    text = " ".join(doc).partition("  ")[0].strip()
    paragraph = re.split(r" (?=Errors: )", text)[0]
    found = re.match(r"(.+?[a-z`)\]0-9]{2}[.!?])(?= |$)", paragraph)
    return (found[1] if found else paragraph).strip()


def words_of(call, clause):
    """The words of a clause: its own, or the first sentence of its call."""
    return " ".join(clause.comment).strip() or (EXACT if clause.name == "output" else first_sentence(call.doc))


def wordless(call):
    """The clauses without words: none of their own, where the call has several clauses or no `///`."""
    alone = len(call.clauses) == 1 and (call.doc or call.clauses[0].name == "output")
    return [] if alone else [clause for clause in call.clauses if not clause.comment]


def exported(top):
    """What cmsproof_api exports: the names, by their crate."""
    names = {}
    texts = [place.read_text() for place in sorted((top / "crates" / DOOR / "src").glob("*.rt"))]
    for crate, several, one in EXPORT.findall("\n".join(texts)):
        names.setdefault(crate, set()).update(name.strip() for name in (several or one).split(",") if name.strip())
    return names


def is_told(call, names):
    """Whether the document has the words of a call's clauses."""
    known = names.get(call.crate, ())
    if call.is_law or call.is_rows or (call.owner or call.path) in LEFT_OUT:
        return False
    if call.trait in TEXTS or call.trait.startswith("From"):
        return False
    verb = call.demanded or call.path.rpartition("::")[2] in VERBS
    exported = call.owner in known and verb if call.owner else call.path in known
    return call.crate in WHOLE or call.path in READS or exported


def names_of(calls):
    """The path of each call, with the module where calls share one."""
    paths = [call.path for call in calls]
    return [call.module if not call.owner and paths.count(call.path) > 1 else call.shown for call in calls]


def clauses_said(call):
    """What a call promises: for each sentence the names of its clauses, `-` for one without a name."""
    said = {}
    for clause in call.clauses:
        said.setdefault(words_of(call, clause), []).append(clause.name)
    return [(tuple(names), words) for words, names in said.items()]


def marked(names):
    """The names of clauses as they are shown."""
    return ", ".join(f"`{name}`" if name != "-" else "one clause" for name in names)


def phrases(old, new):
    """By which two sentences may differ: what each has between the words with which both begin and those with which both end;
    and the first word of that, wherever it stands."""
    old, new = old.rstrip(".").split(), new.rstrip(".").split()
    front = len(os.path.commonprefix([old, new]))
    old, new = old[front:], new[front:]
    back = len(os.path.commonprefix([old[::-1], new[::-1]]))
    whole = tuple(" ".join(words[: len(words) - back]) for words in (old, new))
    return [pair for pair in (whole, (" ".join(old[:1]), " ".join(new[:1]))) if all(pair)]


def exchanged(said, earlier):
    """The phrase of an earlier call, and the one that stands in its place, if a call says the same but for that; else None. Both
    are one word if one sentence alone has it."""
    if [names for names, _ in said] != [names for names, _ in earlier] or len(said) == 1:
        return None
    pairs = [(old, new) for (_, old), (_, new) in zip(earlier, said)]
    apart = [(old, new) for old, new in pairs if old != new]
    for phrase, other in phrases(*apart[0]) if apart else ():
        where = re.compile(rf"(?<!\w){re.escape(phrase)}(?!\w)")
        if all(other.join(where.split(old)) == new for old, new in pairs) and (len(apart) > 1 or " " not in phrase + other):
            return phrase.strip("`"), other.strip("`")
    return None


def told_parts(name, said, told):
    """A call's sentences, each with the names of its clauses, and last those that stand at earlier calls, by reference. `told` has the
    sentences of the calls before it, but for those that are told by another's."""
    alike = [(first, pair) for first, sentences in told.items() for pair in [exchanged(said, sentences)] if pair]
    first_at = {sentence: first for first, sentences in reversed(told.items()) for sentence in sentences}
    if alike:
        first, (old, new) = alike[0]
        return [f"as {first}, with `{new}` for `{old}`."]
    told[name] = said
    parts, earlier = [], {}
    for names, words in said:
        first = first_at.get((names, words), name)
        if first == name or len(words.split()) <= FEW:
            parts.append(f"{'' if names == ('-',) else marked(names) + ': '}{words}")
        else:
            earlier.setdefault(first, []).extend(names)
    return parts + ["; ".join(f"{marked(names)}: as {first}" for first, names in earlier.items()) + "."] * bool(earlier)


def listed(calls, told):
    """The lines of these calls, those of traits first: one for each clause. Calls of the same words share them."""
    rows = {}
    for call, name in sorted(zip(calls, names_of(calls)), key=lambda pair: not pair[0].demanded):
        rows.setdefault(tuple(clauses_said(call)), []).append(name)
    lines = []
    for said, shown in rows.items():
        parts = told_parts(shown[0], said, told)
        head = f"- {', '.join(dict.fromkeys(shown))}:"
        lines += [f"{head} {parts[0]}"] if len(parts) == 1 else [head, *(f"  - {part}" for part in parts)]
    return lines


def told_of(top, crate, names):
    """The calls of a crate whose words the document has, with the clauses that it tells."""
    told = [call for call in public_calls(top, crate) if is_told(call, names)]
    calls = [replace(call, clauses=[clause for clause in call.clauses if clause.name not in DEVICES]) for call in told]
    return [call for call in calls if call.clauses]


def marked_in(text):
    """The crates that the marks of the document name, each of which may have several."""
    return " ".join(MARK.findall(text)).split()


def lists_of(top, text):
    """The list of each crate that the document has a mark of, in the order of the document."""
    names, told = exported(top), {}
    crates = [crate for crate in dict.fromkeys(marked_in(text)) if (top / "crates" / crate).is_dir()]
    return {crate: listed(told_of(top, crate, names), told) for crate in crates}


def all_calls(top, crates, laws=False):
    """The lines of every public call of these crates, or of the laws alone, each crate below its name."""
    lines = []
    for crate in crates:
        found = listed([call for call in public_calls(top, crate) if call.is_law or not laws], {})
        lines += ["", f"## {crate}", "", *found] if found else []
    return lines[1:]


def document_of(top, text):
    """The document with each list as the code has it now."""
    lists = lists_of(top, text)

    def block(found):
        if not set(found[1].split()) <= set(lists):
            return found[0]
        lines = [line for crate in found[1].split() for line in lists[crate]]
        return "\n".join([f"<!-- api: {found[1]} -->", *lines, "<!-- end -->"])

    return BLOCK.sub(block, text)


def open_lists(text):
    """The crates whose list begins in the document and has no end before the next one begins."""
    closed = {found.start() for found in BLOCK.finditer(text)}
    return [found[1] for found in MARK.finditer(text) if found.start() not in closed]


def missing_crates(top, text):
    """The crates with calls that are to be told of which the document has no list."""
    named, names = set(marked_in(text)), exported(top)
    return [crate for crate in crates_of(top) if crate not in named and told_of(top, crate, names)]


def checked(top):
    """What is wrong with the lists of the document, a line each."""
    text = (top / DOCUMENT).read_text()
    lists = lists_of(top, text)
    wrong = [f"{DOCUMENT} has no list of {crate}" for crate in missing_crates(top, text)]
    wrong += [f"{DOCUMENT} has no end of the list of {crate}: put `<!-- end -->` there" for crate in open_lists(text)]
    named = marked_in(text)
    wrong += [
        f"{DOCUMENT} has {named.count(crate)} lists of {crate}" for crate in dict.fromkeys(named) if named.count(crate) > 1
    ]
    for found in BLOCK.finditer(text):
        crates = found[1].split()
        unknown = [f"{DOCUMENT} has a list of {crate}, which is no crate" for crate in crates if crate not in lists]
        if not unknown and found[2] != "".join(f"{line}\n" for crate in crates for line in lists[crate]):
            wrong.append(f"{STALE}{found[1]} is not what the code says")
        wrong += unknown
    return wrong


def all_wordless(top):
    """The clauses without words of all crates, each with its crate and its call."""
    return [(crate, call, clause) for crate in crates_of(top) for call in public_calls(top, crate) for clause in wordless(call)]


def told(top):
    """Says what is wrong with the lists; the status."""
    wrong = checked(top)
    for line in wrong:
        print(line)
    if any(line.startswith(STALE) for line in wrong):
        print(f"{COMMAND} mends the lists")
    return 1 if wrong else 0


def run(top, words):
    """Does what the words ask for; the status."""
    path = top / DOCUMENT
    if words == ["--check"]:
        return told(top)
    if words == ["--write"]:
        if not open_lists(path.read_text()):
            path.write_text(document_of(top, path.read_text()))
        return told(top)
    if words[:1] == ["--all"] and set(words[1:]) <= set(crates_of(top)):
        print("\n".join(all_calls(top, words[1:] or crates_of(top))))
    elif words == ["--laws"]:
        print("\n".join(all_calls(top, crates_of(top), laws=True)))
    elif words == ["--words"]:
        for crate, call, clause in all_wordless(top):
            print(crate, call.file, call.path, clause.name, sep="\t")
    else:
        print(__doc__, file=sys.stderr)
        return 2
    return 0


if __name__ == "__main__":
    sys.exit(run(TOP, sys.argv[1:]))
