"""Finds the assertions of a Metamath database, by a plain walk over its tokens, and breaks their proofs.

For the scripts in this folder. The database is taken to be good, so nothing here is refused.
"""
import re
import typing

KEYWORDS = {b"$c", b"$v", b"$f", b"$e", b"$d", b"$a", b"$p", b"${", b"$}", b"$=", b"$."}
STATEMENTS = KEYWORDS - {b"$=", b"$."}
NUMBERS = re.compile(rb"[U-Y]*[A-T]|Z")


class Assertion(typing.NamedTuple):
    """A `$a` or `$p`, with its number among the statements."""
    number: int
    label: bytes
    is_theorem: bool
    hypotheses: int
    """The number of mandatory hypotheses."""
    keyword: int
    """The offset of its `$a` or `$p` in the text."""
    begin: int
    """The offset right after its `$=`, where its proof begins (0 if it has none), and that of its `$.`."""
    end: int


def tokens(text):
    """Yields the tokens of a text outside comments."""
    is_comment = False
    for token in re.finditer(rb"\S+", text):
        word = token.group()
        if is_comment:
            is_comment = word != b"$)"
        elif word == b"$(":
            is_comment = True
        else:
            yield word, token


def assertions(text):
    """Returns the assertions of a database, in order."""
    found, number = [], 0
    blocks, floating, essential = [], {}, []
    label, kind, place, symbols, begin = b"", b"", 0, None, 0
    for word, token in tokens(text):
        if word in STATEMENTS:
            number, kind, place, begin = number + 1, word, token.start(), 0
            symbols = None if word in (b"${", b"$}") else []
            if word == b"${":
                blocks.append((dict(floating), len(essential)))
            elif word == b"$}":
                floating, count = blocks.pop()
                del essential[count:]
        elif word == b"$=":
            begin = token.end()
        elif word == b"$.":
            if kind == b"$f":
                floating[symbols[1]] = label
            elif kind == b"$e":
                essential.append(symbols)
            elif kind in (b"$a", b"$p"):
                variables = {symbol for symbols_of in (symbols, *essential) for symbol in symbols_of if symbol in floating}
                found.append(Assertion(number, label, kind == b"$p", len(variables) + len(essential), place, begin, token.start()))
            symbols = None
        elif symbols is None:
            label = word
        elif not begin:
            symbols.append(word)
    return found


def is_compressed(text, theorem):
    """Returns whether the proof of a theorem is compressed, and has letters."""
    proof = text[theorem.begin : theorem.end].split()
    return proof[:1] == [b"("] and proof[-1] != b")"


def cited(text, theorem):
    """Returns the labels that the proof of a theorem cites: in a compressed proof those listed labels that its letters name."""
    proof = text[theorem.begin : theorem.end].split()
    if proof[0] != b"(":
        return set(proof)
    last = proof.index(b")")
    listed, labels = proof[1:last], set()
    for letters in set(NUMBERS.findall(b"".join(proof[last + 1 :]))):
        at = number_of(letters) - theorem.hypotheses
        if letters != b"Z" and 0 < at <= len(listed):
            labels.add(listed[at - 1])
    return labels


def number_of(letters):
    """Returns the number that letters of a compressed proof write, from 1."""
    number = 0
    for letter in letters[:-1]:
        number = 5 * number + letter - ord("U") + 1
    return 20 * number + letters[-1] - ord("A") + 1


def broken(draw, proof, is_unfinished):
    """Returns an unfinished proof, or else a wrong one, in place of a compressed proof."""
    if is_unfinished:
        return b" ? "
    if draw.random() < 0.5:
        return b" ( ) AA "
    return proof.rstrip()[:-1] + b" "


def with_parts(text, parts):
    """Returns the text with parts of it replaced, each given as (begin, end, other); the parts do not overlap."""
    pieces, last = [], 0
    for begin, end, other in sorted(parts):
        pieces += [text[last:begin], other]
        last = end
    return b"".join([*pieces, text[last:]])
