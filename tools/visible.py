"""What a crate can see of the crates below it, and so whether a change there can matter to it. It runs no proof.

A function is proved against contracts and definitions, never against a body of a crate below. So a change below counts only if
the crate sees an item that changed (`items.py`): one of the item's names is a word of the crate, or of an item that it sees,
whatever the word stands for there: that is too much at worst. Two things narrow it. An item names only what is of its crate or
below that; and whoever names a function of a type has a value of the type, or names it, and so sees the type. A file that can't
be read for sure is one item that has all its words as names. If it changed, or if something did that works without being named,
each crate above sees that. `changes.py` uses this.
"""

import collections
import re

from items import EVERYTHING, FUNCTIONS, LOOKS_INSIDE, NAME, READERS, SEVERAL, Item, file_of, words_of_path

READ = tuple(READERS)
TYPES = ("struct", "enum", "union", "trait")


def all_words(text):
    """All that a text has which can be a name in it."""
    return {*re.findall(r"\w+", text), *NAME.findall(text)}


def items_of(path, text):
    """The items of what counts of a file; of one that is neither code nor definitions there are none."""
    file = file_of(path, text) if path.endswith(READ) else None
    if file or not path.endswith(READ):
        return file.items() if file else []
    words = {each for it in all_words(text) for each in (it, f"{it}()", f".{it}()", f"{it}.", f"{it}.inside")}
    return [Item(path, "unread", "", tuple(sorted(words | {EVERYTHING})), text, frozenset(words))]


def words_used(path, text):
    """All words of a file that can be names of items of other crates; of an edit, which may be of any file, and of a file in which a body
    brings in several names, each word."""
    file, words = file_of(path, text) if path.endswith(READ) else None, {EVERYTHING}
    if not file or file.is_code and len(SEVERAL.findall(text)) > file.several:
        found = all_words(text)
        words.update(each for word in found for each in (word, f"{word}()", f".{word}()"))
        return words.union(f"{word}.inside" for word in found) if not LOOKS_INSIDE.isdisjoint(found) else words
    for paths in file.imports.values():
        words.update(word + end for path in paths for word in words_of_path(path) for end in ("", "()"))
    return words | file.words_of(text, True)[0]


def changed_items(path, before, after):
    """The items that one of two texts of a file has and the other has not; a text that is missing is None."""
    if not path.endswith(READ):
        return [Item(path, "file", "", (EVERYTHING,), "", frozenset())]
    sides = [[] if text is None else items_of(path, text) for text in (before, after)]
    kept = [{item[:5] for item in side} for side in sides]
    return [item for side, other in zip(sides, reversed(kept)) for item in side if item[:5] not in other]


def crate_of(path):
    """The crate of a file."""
    return path.split("/")[1]


class Below:
    """The items of some crates, by their names. `sees` says of each crate which crates it can name, itself too."""

    def __init__(self, items, sees):
        self.sees, self.roots, self.types, self.named = sees, {"", "crate", "self", "super", *sees}, {}, {}
        for item in items:
            for name in item.names if item.kind in TYPES else ():
                self.types.setdefault(name, set()).update(item.names)
        for item in items:
            for name in self.names_of(item):
                self.named.setdefault(name, []).append(item)

    def type_of(self, item):
        """The name of the type that an item is of, if that is one of these crates."""
        root, _, name = item.owner.rpartition("::")
        return name if name in self.types and root.partition("::")[0] in self.roots else ""

    def names_of(self, item):
        """The names of an item. Of an `impl` they are its type's, since whoever uses it has a value of that. If the type is
        of no crate here, they are those of the traits and types in its head: one is of a crate here, or it can't be told."""
        names = {it for it in item.names if it != EVERYTHING}
        if item.kind != "impl":
            return names
        known = [self.types[it] for it in ([self.type_of(item)] if self.type_of(item) else names) if it in self.types]
        members = {it for it in names if it[:1] == "."} if not self.type_of(item) else set()
        return members.union(*known) if known else names | {EVERYTHING}

    def seen_from(self, crate, words):
        """The items that a crate with some words sees, each with the word that leads to it."""
        seen, met, types, waiting = {}, set(), set(), collections.defaultdict(list)
        left = collections.deque((word, crate, word) for word in sorted(words))
        while left:
            word, by, root = left.popleft()
            if (word, by) in met:
                continue
            met.add((word, by))
            # (an `impl` may be of another crate than whoever names its type)
            found = [it for it in self.named.get(word, ()) if it.kind == "impl" or crate_of(it.path) in self.sees[by]]
            found = [(item, root) for item in found]
            for item, first in found:
                of_type = self.type_of(item) if item.kind in FUNCTIONS else ""
                if of_type and of_type not in types:
                    waiting[of_type].append((item, first))
                elif item not in seen:
                    seen[item] = first
                    # (what a macro names may be of a crate above its own)
                    place = crate if item.kind == "macro_rules" else crate_of(item.path)
                    left.extend((it, place, first) for it in item.words)
                    for name in item.names if item.kind in TYPES else ():
                        types.add(name)
                        found.extend(waiting.pop(name, ()))
        return seen


def changes_seen(below, changed, crate, words):
    """The files in which an item changed that a crate with some words sees, each with one of these words, or the empty text."""
    seen, found = below.seen_from(crate, words), {}
    for item in changed:
        if EVERYTHING in item.names or EVERYTHING in below.names_of(item):
            found[item.path] = ""
        elif item in seen:
            found.setdefault(item.path, re.sub(r".*:|\.inside$", "", seen[item]).strip("()."))
    return found
