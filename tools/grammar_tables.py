#!/usr/bin/env python3
"""Writes the tables of crates/sh_grammar from its grammar.

    python3 tools/grammar_tables.py

It reads the forms (src/forms.rt), the keywords (specs/Lexemes.antt), the grammar (specs/Language.antt) and which forms
are operations (specs/Grammar.antt), and writes

    src/tables.rt       the spellings of keywords by length, the grammar laid out flat, the table of choices and how each form begins
    specs/Forms.antt    the number of each form and the list of all forms
    proofs/Numbered.antt   that each form stands at its number
    proofs/Facts.antt   what the proof knows of each form: what may begin and follow it, and its weights

Run `rt fmt` in the crate behind it. It stops where one token doesn't decide between two alternatives of a form. Nothing here is trusted: the proofs show that
the tables are those of the grammar, and that they serve it.
"""
import os
import re
import subprocess

CRATE = os.path.join(os.path.dirname(os.path.abspath(__file__)), "..", "crates", "sh_grammar")
KINDS = ["Word", "Val", "At", "HashToken", "Block", "Bang", "Number", "DimToken", "Str", "Sign", "End"]
GROUPS = ["signs", "dims", "bangs", "hashes", "words"]
START = "File"
LONG = 32


def read(path):
    with open(os.path.join(CRATE, path), encoding="utf-8") as file:
        return re.sub(r"(?m)[ \t]*(--|//).*$", "", file.read())


def write(path, text):
    with open(os.path.join(CRATE, path), "w", encoding="utf-8") as file:
        file.write(text)


class Reader:
    """Reads the terms of specs/Language.antt: rows joined by `∷`, and the words that it defines."""

    def __init__(self, text, keywords, words, forms):
        self.items = re.findall(r'"[^"]*"|∷|\(|\)|\[\]|\w+', text)
        self.at = 0
        self.keywords, self.words, self.forms = keywords, words, forms

    def next(self):
        self.at += 1
        return self.items[self.at - 1]

    def peek(self):
        return self.items[self.at] if self.at < len(self.items) else None

    def term(self):
        head = self.application()
        if self.peek() == "∷":
            self.next()
            return [head] + self.term()
        return head

    def atom(self):
        if self.peek() == "(":
            self.next()
            inner = self.term()
            assert self.next() == ")"
            return inner
        return self.application()

    def the(self, text):
        return ("class", len(KINDS) + self.keywords.index(text))

    def application(self):
        word = self.next()
        if word == "(":
            self.at -= 1
            return self.atom()
        if word == "[]":
            return []
        if word == "words":
            return self.words
        if word == "codes":
            return self.next().strip('"')
        if word == "the":
            return self.the(self.next().strip('"'))
        if word == "any":
            return ("class", KINDS.index(self.next()))
        if word == "Part":
            return ("form", self.forms.index(self.next()))
        if word == "one_of":
            return [[self.the(text)] for text in self.atom()]
        if word == "maybe":
            return [[], [self.atom()]]
        symbol, form = self.atom(), ("form", self.forms.index(self.next()))
        comma = [self.the(",")] if word == "rest_of_list" else []
        assert word in ("many", "list", "rest_of_list"), word
        return [[], comma + [symbol, form]]


def spellings(keywords, groups):
    """The texts that have a class of their own, in rows: words by length, an empty row, signs, dims, bangs, hashes."""
    first = len(KINDS)
    rows = []
    for name, texts in groups.items():
        former = re.search(r"(?s)\nformer_%s =(.*?)\[\]" % name, read("specs/Lexemes.antt"))
        pairs = re.findall(r'former "([^"]*)" "([^"]*)"', former[1]) if former else []
        row = [(text, first + i) for i, text in enumerate(texts)]
        row += [(old, len(KINDS) + keywords.index(present)) for old, present in pairs]
        first += len(texts)
        rows.append(row)
    words = rows.pop()
    return [[pair for pair in words if len(pair[0]) == length] for length in range(LONG)] + [[]] + rows


def grammar():
    forms = re.findall(r"(?m)^    ([A-Z]\w*),", read("src/forms.rt"))
    lexemes = read("specs/Lexemes.antt")
    texts = lambda name: re.findall(r'codes "([^"]*)"', re.search(r"(?s)\n%s =(.*?)\[\]" % name, lexemes)[1])
    groups = {name: texts(name) for name in GROUPS}
    words = groups["words"]
    keywords = [text for group in groups.values() for text in group]
    rules = re.split(r"(?m)^language (\w+) =", read("specs/Language.antt"))[1:]
    table = {name: Reader(body, keywords, words, forms).term() for name, body in zip(rules[::2], rules[1::2])}
    return forms, groups, keywords, [table[form] for form in forms]


def operations():
    return re.findall(r"(?m)^is_operation (\w+) = true", read("specs/Grammar.antt"))


def analyse(forms, rules, start, end):
    """What may begin and follow each form, whether it may be empty, and the choices."""
    count = len(forms)
    empty, begins = [False] * count, [form in operations() for form in forms]
    first, follow = [set() for _ in forms], [set() for _ in forms]
    follow[start].add(end)

    def is_empty(row):
        return all(kind == "form" and empty[n] for kind, n in row)

    def head(row):
        """The symbols that may stand first in a row."""
        for kind, n in row:
            yield kind, n
            if kind == "class" or not empty[n]:
                return

    def first_of(row):
        return set().union(*({n} if kind == "class" else first[n] for kind, n in head(row)), set())

    changed = True
    while changed:
        before = (list(empty), list(begins), [len(s) for s in first], [len(s) for s in follow])
        for i, rows in enumerate(rules):
            for row in rows:
                empty[i] |= is_empty(row)
                begins[i] |= any(kind == "form" and begins[n] for kind, n in head(row))
                first[i] |= first_of(row)
                for j, (kind, n) in enumerate(row):
                    if kind == "form":
                        rest = row[j + 1 :]
                        follow[n] |= first_of(rest) | (follow[i] if is_empty(rest) else set())
        changed = before != (list(empty), list(begins), [len(s) for s in first], [len(s) for s in follow])

    choices = [{} for _ in forms]
    for i, rows in enumerate(rules):
        for j, row in enumerate(rows):
            for c in first_of(row) | (follow[i] if is_empty(row) else set()):
                if c in choices[i]:
                    raise SystemExit(f"{forms[i]}: class {c} chooses both {choices[i][c] - 1} and {j}")
                choices[i][c] = j + 1

    weight = [None] * count

    def weigh(i, above):
        if i in above:
            raise SystemExit(f"{forms[i]} begins with itself")
        if weight[i] is None:
            weight[i] = 1 + max(sum(weigh(n, above | {i}) for kind, n in head(row) if kind == "form") for row in rules[i])
        return weight[i]

    for i in range(count):
        weigh(i, frozenset())
    depth, level = [None] * count, 0
    while None in depth:
        ended = [i for i in range(count) if depth[i] is None and any(all(k == "class" or depth[n] is not None for k, n in row) for row in rules[i])]
        if not ended:
            raise SystemExit("a form has no end")
        for i in ended:
            depth[i] = level
        level += 1
    return empty, begins, first, follow, weight, depth, choices


def lines(items, width, indent):
    """Items joined to lines of at most `width`."""
    out, line = [], ""
    for item in items:
        if line and len(line) + len(item) + 1 > width:
            out.append(indent + line)
            line = ""
        line += (" " if line else "") + item
    return "\n".join(out + [indent + line] if line else out)


def static(doc, name, kind, items):
    return f"/// {doc}\npub(crate) static {name}: [{kind}; {len(items)}] = [\n" + lines([item + "," for item in items], 96, "    ") + "\n];\n"


def starts(pieces):
    out = [0]
    for piece in pieces:
        out.append(out[-1] + len(piece))
    return out


def main():
    forms, groups, keywords, rules = grammar()
    end = KINDS.index("End")
    empty, begins, first, follow, weight, depth, choices = analyse(forms, rules, forms.index(START), end)
    bodies = [row for rows in rules for row in rows]
    symbols = [f"Symbol::Class({n})" if kind == "class" else f"Symbol::Part(Form::{forms[n]})" for row in bodies for kind, n in row]
    rows = [[row.get(c, 0) for c in range(max(row) + 1)] for row in choices]
    beginnings = ["Beginning::" + ("Operation" if b else "Empty" if e else "Other") for b, e in zip(begins, empty)]
    spelled = spellings(keywords, groups)
    write(
        "src/tables.rt",
        "// Written by tools/grammar_tables.py from the grammar in specs/Language.antt.\n\nuse crate::{Beginning, Form, Symbol};\n\n"
        + static("The texts with a class of their own, in rows: words by length, an empty row, signs, dims, bangs, hashes.", "SPELLINGS", "&str", [f'"{text}"' for row in spelled for text, _ in row])
        + "\n"
        + static("The class of each of them.", "CLASSES", "u16", [str(c) for row in spelled for _, c in row])
        + "\n"
        + static("Where each of their rows begins, and their end.", "SPELLING_ROWS", "u16", [str(n) for n in starts(spelled)])
        + "\n"
        + static("All alternatives of all forms, one behind the other.", "SYMBOLS", "Symbol", symbols)
        + "\n"
        + static("Where each alternative begins among the symbols, and their end.", "STARTS", "u16", [str(n) for n in starts(bodies)])
        + "\n"
        + static("Where the alternatives of each form begin among the alternatives, and their end.", "FIRSTS", "u16", [str(n) for n in starts(rules)])
        + "\n"
        + static("For each form and class the alternative to take, counted from 1, or 0: one row a form, without zeros at its end.", "CHOICES", "u16", [str(n) for row in rows for n in row])
        + "\n"
        + static("Where each row of choices begins, and their end.", "ROWS", "u16", [str(n) for n in starts(rows)])
        + "\n"
        + static("How each form begins.", "BEGINNINGS", "Beginning", beginnings),
    )
    write("specs/Forms.antt", forms_file(forms))
    write("proofs/Facts.antt", facts_file(empty, begins, first, follow, weight, depth))
    write("proofs/Numbered.antt", numbered_file(forms))
    print(f"{len(forms)} forms, {len(keywords)} keywords, {len(bodies)} alternatives, {len(symbols)} symbols, {starts(rows)[-1]} choices")


def forms_file(forms):
    return f"""-- Written by tools/grammar_tables.py: the forms by number.
use Rattle.std.specs.Prelude.{{ℕ, List, [], ◌∷◌}}
use Rattle.sh_grammar.specs.declared.forms.Form.{{Form}}
use Rattle.sh_grammar.specs.declared.forms.Form.TheVariants.{{{", ".join(forms)}}}

-- the place of a form among all
abbrev pub number : Form → ℕ
{"".join(f"number {form} = {i}{chr(10)}" for i, form in enumerate(forms))}
unfoldable pub all_forms : List Form
all_forms =
{lines([form + " ∷" for form in forms] + ["[]"], 94, "    ")}
"""


def numbered_file(forms):
    return f"""-- Written by tools/grammar_tables.py: each form stands at its number.
use Rattle.std.specs.Prelude.{{◌≡◌, refl, slice_get, Some}}
use Rattle.sh_grammar.specs.declared.forms.Form.{{Form}}
use Rattle.sh_grammar.specs.declared.forms.Form.TheVariants.{{{", ".join(forms)}}}
use Rattle.sh_grammar.specs.Forms.{{number, all_forms}}

pub form_at : (n : Form) → slice_get all_forms (number n) ≡ Some n
unfolding all_forms
{"".join(f"form_at {form} = refl{chr(10)}" for form in forms)}"""


def facts_file(empty, begins, first, follow, weight, depth):
    numbers = lambda s: "".join(f"{n} ∷ " for n in sorted(s)) + "[]"
    flag = lambda b: "true" if b else "false"
    rows = "".join(
        f"    record {{ empty = {flag(empty[i])}; begins = {flag(begins[i])}; first = {numbers(first[i])}; follow = {numbers(follow[i])}; weight = {weight[i]}; depth = {depth[i]} }} ∷\n"
        for i in range(len(empty))
    )
    return f"""-- Written by tools/grammar_tables.py: what is known of each form, in their order.
use Rattle.std.specs.Prelude.{{true, false, List, [], ◌∷◌}}
use Rattle.sh_grammar.specs.Predictive.{{Facts}}

unfoldable pub the_facts : List Facts
the_facts =
{rows}    []
"""


if __name__ == "__main__":
    main()
