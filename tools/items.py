"""Reads what crates above can see of a file, item by item, from what counts of its text. `visible.py` says what for.

An item of code is a function that others can call, by its signature and clauses; a type, without the fields that its model
hides; a constant, a static, a macro; a trait, or an `impl` of one, without bodies; a name that is passed on. An item of
definitions is one with all its lines. To its text belong the paths of what the file imports for its words.

A word that can be a name is one that the file declares or imports, or that stands behind such a one, behind `::`, or behind
what all paths begin with: no other bare word names anything of another file. The name of a function ends with `()`, since no
clause or definition names one; that of what a type or a trait has begins with `.` too. A name that ends with `.` is a part of
a path, and one with `.inside` what a model hides. With a path and `:` before it, it is what a file calls so that declares it.
"""

import collections
import re

from pieces import Code, Unread, segments

Item = collections.namedtuple("Item", "path kind owner names text words")
EVERYTHING = "@"  # (no name has this sign)
FUNCTIONS = ("fn", "constant function")
VALUES = ("const", "static", "constant function", "macro_rules")  # what may call functions
NESTED = {"impl", "trait", "macro_rules", "mod"}  # a body with these may hold items that are seen outside
DERIVE = re.compile(r"#\[derive\w*\(([^\]]*)\)\]")
SILENT = {"Debug", "Drop"}  # a derive of these alone says nothing of fields
SEVERAL = re.compile(r"\buse (?:[\w.: ]+[.:])? ?[{*]")  # what brings in several names, or all of a module
WRITTEN = re.compile(r"\b([A-Z]\w*)\s?[{(]")  # what may be the type of a value that is written with its fields
TESTED = "#[cfg(test)] "  # (what has this is no part of a crate for others)
RESTRICTED = re.compile(r"pub ?\( ?(?:(?:crate|super|self) ?\)|in )")  # what may be used in a part of a crate alone
UNVIEWED = ("view", "invariant")
MODEL = {"Value", "coded", *UNVIEWED}
# words of a text that may look into what a model hides
LOOKS_INSIDE = {"the_row", "TheInside", "TheSendSync", "TheLaws", "contracts", "size_of", "align_of", "transmute"}
# a definition's marks, and what begins a block that may declare any of its words
MARKS = ("pub", "abbrev", "unfoldable", "pattern", "axiom", "ruleset")
WHOLE = ("module", "mutual", "open", "deriving", "package")
HEADS = {"Rattle", "package", "Self"}  # what a path may begin with that no file imports
QUOTED = re.compile(r"«|\br#[^\W\d]")  # what begins a quoted name, of definitions and of code
NAME = re.compile(r"[^\s(){}\[\].;,@\"«»]+")
# of code and of definitions: a word, with what joins it to one before; and the parts of a word that may be names
JOINED = (re.compile(r"(\.)?([^\s(){}\[\].;,@\"«»]+)"), re.compile(r"(\.|:: ?)?((?:(?!::)[^\s(){}\[\].;,@\"«»])+)"))
PARTS = (re.compile(r"[\w'-]+"), re.compile(r"\w+"))


def parts_of(name):
    """The words by which a name is used: itself, and of an operator what stands between its arguments."""
    return {name, *filter(None, name.split("◌"))}


def imported(text):
    """The paths of the text of a `use`, each with the name that it has in the file; that of a glob is `*`."""
    front, brace, inner = text.partition("{")
    if not brace:
        path, _, alias = " ".join(text.split()).partition(" as ")
        parts = segments(path)
        yield path + (f" as {alias}" if alias else ""), alias or parts[-2 if parts[-1] == "self" else -1]
        return
    begin, depth, inner = 0, 0, inner.strip()[:-1] + ","
    for at, sign in enumerate(inner):
        depth += (sign == "{") - (sign == "}")
        if sign == "," and depth == 0:
            if part := inner[begin:at].strip():
                yield from imported(front.strip() + part)
            begin = at + 1


def words_of_path(path):
    """The words of an imported path."""
    parts = segments(path)
    return {f"{part}." for part in parts} | {parts[-1]}


class File:
    """The items of a file, and what it imports."""

    def __init__(self, path):
        self.path, self.is_code = path, path.endswith(".rt")
        self.found, self.imports, self.own, self.several = [], {}, set(), 0
        # (what stands in a folder may name what the files above it declare)
        self.knows_all = path.count("/") > 3 and path.split("/")[2] != "proofs"

    def put(self, kind, names, text, owner="", calls=False):
        """Notes an item."""
        self.found.append((kind, owner, set(names), text, calls or kind in VALUES))
        self.own |= {it.strip("().") for it in names}

    def put_import(self, text, passes_on):
        """Notes what a `use` imports, and what it passes on."""
        self.several += bool(SEVERAL.search(f"use {text}"))
        for path, name in imported(text):
            self.knows_all |= name == "*"
            for part in parts_of(name) if name != "*" else (EVERYTHING,):
                self.imports.setdefault(part, set()).add(path)
            for end in ("", "()", ".") if passes_on else ():
                self.found.append(("use", "", {name + end if name != "*" else EVERYTHING}, path, end))

    def paths_for(self, names):
        """The paths of imported names, of those that these begin with, and of all globs."""
        found, left = set(), {*names, EVERYTHING}
        while left:
            more = set().union(*(self.imports.get(it, ()) for it in left)) - found
            found |= more
            left = {segments(path)[0] for path in more}
        return found

    def words_of(self, text, calls, knows_all=False):
        """The words of a text that can be names, those of functions too if it can have calls; and the bare ones among them."""
        words, bare, seen, opens, end = set(), set(), set(), False, -1
        knows_all = knows_all or self.knows_all
        for found in JOINED[self.is_code].finditer(text):
            by, word = found.groups()
            parts = {*parts_of(word), *PARTS[self.is_code].findall(word)}
            if not by or by == "." and text[found.start() - 1 : found.start()] == ".":
                known = {it for it in parts if knows_all or it in self.own or it in self.imports}
                bare |= known
                opens = bool(known) or not HEADS.isdisjoint(parts)
            else:
                opens = by != "." or opens and found.start() == end
                words |= parts if opens else set()
            seen |= parts
            end = found.end()
        words.update(re.findall(r"(\w+)\s?!(?!=)", text) if self.is_code else ())
        words.update(f"{self.path}:{it}" for it in bare & self.own)
        words.update(bare if knows_all else ())
        words.update(*(words_of_path(path) for path in self.paths_for(bare)))
        if calls:
            words.update([f"{it}()" for it in words if it[-1:] != "."])
            words.update(f".{it}()" for it in seen)
        if not LOOKS_INSIDE.isdisjoint(seen):
            words.update([f"{it.strip('().').rpartition(':')[2]}.inside" for it in words | seen])
        return words, bare

    def path_of(self, owner):
        """The path of a type that the file declares or imports, by its name there."""
        paths = [path for path in self.imports.get(owner, ()) if segments(path)[0] not in HEADS]
        known = "::" in owner or owner in self.own and not paths
        return owner if known else "::".join(segments(paths[0])) if len(paths) == 1 else ""

    def items(self):
        """The items, each with what it imports for its words."""
        done = []
        for kind, owner, names, text, calls in self.found:
            if kind == "use":
                words = {it if it[-1:] == "." else it + calls for it in words_of_path(text)}
            else:
                # (what a macro names is looked up where it is called)
                words, bare = self.words_of(text, calls, kind == "macro_rules")
                # (what a clause sees of a value that is written here is what its model makes of the fields)
                if kind in ("const", "static"):
                    words |= {f"{it}.inside" for it in {*WRITTEN.findall(text), segments(owner)[-1]}}
                text = "\n".join([text, *sorted(self.paths_for(bare))])
            if kind == "impl":
                names = names.union(*(segments(path)[-1:] for path in self.paths_for(names)))
            names = names | {f"{self.path}:{it}" for it in names if "." not in it and it != EVERYTHING}
            done.append(Item(self.path, kind, self.path_of(owner), tuple(sorted(names)), text, frozenset(words)))
        return done


def signature(code, piece, header=""):
    """A function without its body."""
    if not NESTED.isdisjoint(code.tokens[piece.block : piece.end]):
        raise Unread
    end = piece.end if piece.kind == "constant function" else piece.block + 1
    return header + code.text(piece.start, end, piece.cuts)


def read_use(file, code, piece, passes_on):
    """Notes a `use`."""
    at = code.tokens.index("use", piece.start)
    file.put_import(code.text(at + 1, piece.block), passes_on or "pub" in code.tokens[piece.start : at])


def read_members(file, code, piece, unseen):
    """The text of a trait, or of an `impl` of one, without bodies; the names of what is in it; and whether that may call."""
    texts, names = [code.text(piece.start, piece.block + 1, piece.cuts)], set()
    for member in code.inner(piece):
        if member.kind == "use":
            read_use(file, code, member, False)
        elif member.kind in FUNCTIONS or member.kind in ("ghost", "type", "const"):
            names.add(f".{member.name}()")
            is_function = member.kind in FUNCTIONS
            if member.name not in unseen:
                whole = code.text(member.start, member.end, member.cuts)
                texts.append(signature(code, member) if is_function else whole)
        else:
            raise Unread
    return "\n".join(texts), names, any(it.kind in VALUES for it in code.inner(piece))


def read_impl(file, code, piece, hidden, restricted):
    """Notes an `impl`: of a trait the whole; of a type each function that others can call, and each constant."""
    trait, owner, params = code.of_impl(piece)
    if trait:
        text, names, calls = read_members(file, code, piece, UNVIEWED if trait == "Model" and owner in hidden else ())
        header = set(re.findall(r"\w+", code.text(piece.start, piece.block))) - params
        names |= {it for it in header if it[0].isupper()} | ({EVERYTHING} if trait == "Drop" else set())
        file.put("impl", names, text, owner, calls)
        return
    header = code.text(piece.start, piece.block, piece.cuts) + "\n"
    for member in code.inner(piece):
        if member.kind == "use":
            read_use(file, code, member, False)
        elif member.kind in FUNCTIONS:
            text = signature(code, member, header)
            if member.public and owner not in restricted or member.kind != "fn":
                file.put(member.kind, [f".{member.name}()"], text, owner)
        elif member.kind == "const":
            file.put("const", [member.name], header + code.text(member.start, member.end), owner)
        else:
            raise Unread


def derived(text):
    """The traits that a type derives."""
    return set(re.findall(r"\w+", " ".join(DERIVE.findall(text))))


def hidden_types(code, pieces):
    """The types of a file whose fields no crate above can reach or learn of: where these are, and what a model says of them."""
    models, found = {}, {}
    for piece in pieces:
        if piece.kind == "impl" and code.of_impl(piece)[0] == "Model":
            members = [it for it in code.inner(piece) if it.kind != "use"]
            if {"Value", "view"} <= {it.name for it in members} <= MODEL:
                models[code.of_impl(piece)[1]] = [it for it in members if it.name in UNVIEWED]
    for piece in pieces:
        if piece.kind == "struct" and piece.name in models and derived(code.text(piece.start, piece.block)) <= SILENT:
            at = code.until(code.tokens.index("struct", piece.start), piece.block + 1, ("{", "(", ";"))
            fields = range(at, code.after(at))
            if not any(code[it] == "pub" and not RESTRICTED.match(code.text(it, it + 4)) for it in fields):
                found[piece.name] = (at + 1, code.after(at) - 1), models[piece.name]
    return found


def read_type(file, code, piece, hidden):
    """Notes a type, and apart from it what a model hides of it."""
    cuts, names = list(piece.cuts), derived(code.text(piece.start, piece.block)) - {"Debug"}
    if piece.name in hidden:
        fields, members = hidden[piece.name]
        texts = [code.text(*fields), *(code.text(it.start, it.end) for it in members)]
        file.put("inside", [f"{piece.name}.inside"], "\n".join(texts))
        cuts.append(fields)
    # (what prints it says nothing of it)
    whole = DERIVE.sub(lambda it: re.sub(r"\bDebug,? ?|, Debug\b", "", it.group()), code.text(piece.start, piece.end, cuts))
    file.put(piece.kind, {piece.name, f"{piece.name}."} | {piece.name + it for it in names}, whole)


def read_code(path, text):
    """The items of code."""
    code, file = Code(text), File(path)
    pieces = code.pieces(0, len(code.tokens))
    hidden = hidden_types(code, pieces)
    restricted = {it.name for it in pieces if it.kind in ("struct", "enum", "union") and not it.public}
    has_children = any(piece.kind == "mod" for piece in pieces)
    for piece in pieces:
        whole = code.text(piece.start, piece.end, piece.cuts)
        if piece.kind == "use":
            read_use(file, code, piece, has_children)
        elif piece.kind == "impl":
            read_impl(file, code, piece, hidden, restricted)
        elif piece.kind in FUNCTIONS:
            text = signature(code, piece)
            if piece.public or piece.kind != "fn":
                file.put(piece.kind, [f"{piece.name}()"], text)
        elif piece.kind == "trait":
            text, names, calls = read_members(file, code, piece, ())
            file.put(piece.kind, names | {piece.name, f"{piece.name}."}, text, "", calls)
        elif piece.kind in ("struct", "enum", "union", "type"):
            read_type(file, code, piece, hidden)
        elif piece.kind in ("const", "static"):
            file.put(piece.kind, {piece.name} - {"_"}, whole)
        elif piece.kind == "macro_rules":
            file.put(piece.kind, [EVERYTHING, piece.name], whole)
        elif piece.kind not in ("inner", "mod") or piece.block in code.closes:
            raise Unread
        elif whole.replace(TESTED, "").startswith("#") and not whole.startswith("#![tactic"):
            file.put(piece.kind, [EVERYTHING], whole)
    return file


def declared(words):
    """What a line of definitions is, the names that it declares, and whether a definition begins with it."""
    at = next((at for at, word in enumerate(words) if word not in MARKS), len(words) - 1)
    head, others = words[at], words[at + 1 :]
    if head in ("use", "mod"):
        return head, others, False
    if head.startswith("infix"):
        return "fixity", others[1:], True
    if head in WHOLE:
        return "whole", words, True
    if head in ("record", "data"):
        return head, others[:1], True
    before = [head, *others[: others.index(":")]] if ":" in others else []
    names = [it for it in before if NAME.fullmatch(it)]
    if at or names and all(it in names or it[0] + it[-1] == "{}" for it in before) and "=" not in before:
        return "definition", names or [head], True
    return "clause", [head] if NAME.fullmatch(head) and head != "unfolding" else [], False


def read_definitions(path, text):
    """The items of definitions: from a line without indentation that declares a name, its lines and its clauses."""
    if "{-" in text:
        raise Unread
    file, blocks, block, opened = File(path), {}, None, ""
    for line in filter(None, text.split("\n")):
        kind, names, begins = declared(re.sub("[«»]", "", line).split())
        if line[0].isspace():
            if block is None:
                raise Unread
            block[1].update(names if block[0] == "data" and begins else NAME.findall(line) if block[0] == "whole" else ())
            block[2].append(line)
        elif kind == "use":
            file.put_import(line.partition("use ")[2], line.split()[0] != "use")
        elif kind == "mod":
            file.own.update(names)
        else:
            if begins:
                block = blocks.setdefault(names[0] if kind != "whole" else line, [kind, set(), []])
                block[0] = kind if block[0] == "fixity" else block[0]
            elif block is None:
                raise Unread
            block[1].update(names)
            # (a clause of a definition above others, and a line of what may be unfolded, which may be of the next)
            others = [blocks[it] for it in names if not begins and it in blocks and blocks[it] is not block]
            for each in [block, *others]:
                each[2].extend(filter(None, [opened, line]))
            opened = line if line.startswith("unfolding ") else ""
    for kind, names, lines in blocks.values():
        names = {part for name in names for part in parts_of(name)}
        file.put(kind, names | {f"{it}." for it in names if kind in ("record", "data", "whole")}, "\n".join(lines))
    return file


READERS = {".rt": read_code, ".antt": read_definitions}


def file_of(path, text):
    """A file by what counts of its text; None if it can't be read for sure, as one with a quoted name, which may be a mark here."""
    try:
        return None if QUOTED.search(text) else READERS[path[path.rindex(".") :]](path, text)
    except (Unread, LookupError, ValueError):
        return None
