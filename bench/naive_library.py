"""A plain Metamath checker, written from the definitions and from no program: the verdict on a text, and what judging it costs.

It is slow, and that is its use: each definition stands here once, in the words of docs/DEFINITIONS.md, with no structure that is there for
speed alone. The scripts of this folder compare the program with it.

    python3 bench/naive_library.py [--max-work N] [--work] [FILE ..]

The files (standard input if there is none) are texts that one author submits to an empty library one after another. Prints a line for each:
`proved N` or `refused CAUSE`, and with `--work` the work of it after that.

Work counts what judging a text reads and writes. For a variable v and a place of the database its *row* there is the sum, over the `$d` that
are active there and list v, of how many variables they list. The lengths of results and expressions count the typecode; images have none.

- a text: its bytes; 64 for each symbol that its `$c` and `$v` list and for each label that it declares; the sizes of its assertions; the work
  of its proofs;
- the size of an assertion: its mandatory hypotheses; the lengths of its conclusion and of its mandatory `$e`; the rows of its mandatory
  variables, behind the statements before it;
- a proof: 16 for each token of a normal proof, and for each token between the parentheses of a compressed one; if it is compressed the size
  of the theorem; its items;
- a mark: 1. A citation of a hypothesis and a recall: 1 and the length of the result. A citation of an assertion: 1 and the length of the
  result, the size of the assertion, and its disjointness if it has mandatory pairs;
- disjointness: for each variable of a mandatory pair, once, the symbols of its image; for each variable x that has mandatory pairs with
  variables whose `$f` stands before that of x, and for each variable of x's image, once: its row at the theorem, and how many variables the
  images of those others have, each image for itself.

Of a text that is not added the work is what is judged until that is known: its bytes; then its statements in order, up to the one that breaks
a rule and without it; then its proofs in order, up to the wrong one, and of that what stands before its fault. That is nothing if its tokens
are no proof code. Else it is the 16s, the size of the theorem, and the items up to the fault; the item at fault counts 1, the size of the
assertion that it cites, and the disjointness if typecodes and `$e` fit, but no result.

Where the definitions leave a choice, this is what stands here:

- a text with more bytes than the limit counts its bytes, like one that does not read; no limit on work is asked before that one is;
- what makes the weight of a proof pass its limit is an item at fault, like any other: its result does not count;
- a label that names nothing, a hypothesis that is not active, and a later assertion are no faults of proof code: the item that cites one is at
  fault and counts 1 (and a label that is listed and not cited is no fault at all);
- too few results are a fault of the item, which counts 1 and the size of the assertion that it cites;
- results left over, or another result than the theorem, are a fault behind all items;
- a proof without tokens is a normal one without items: it counts nothing.
"""
import re
import sys
import typing

TEXT_LIMIT = 67_108_864
WEIGHT_LIMIT = 67_108_864
ALLOWED = bytes(range(0x21, 0x7F)) + b" \t\r\n\f"
LABEL = re.compile(rb"[A-Za-z0-9._-]+\Z")
WORDS = re.compile(rb"[U-Y]*[A-T]|Z")


class Statement(typing.NamedTuple):
    kind: bytes
    """Its keyword: `${`, `$}`, `$c`, `$v`, `$d`, `$f`, `$e`, `$a` or `$p`."""
    label: bytes
    symbols: list
    proof: list


class Verdict(typing.NamedTuple):
    cause: str
    """Empty if the text is added; else `C1` to `C9`."""
    statement: int
    rule: int
    work: int
    proved: int

    def line(self):
        """Returns what `check` prints."""
        if not self.cause:
            return f"proved {self.proved}"
        words = ["refused", self.cause]
        if self.cause not in ("C1", "C2", "C3"):
            words.append(str(self.statement))
        if self.cause == "C4":
            words.append(f"G{self.rule}")
        return " ".join(words)

    def script_line(self):
        """Returns what the line `apply` of a script prints."""
        return self.line() if self.cause else "added"


class Refused(Exception):
    """A text is refused, by a cause and at a statement of it."""

    def __init__(self, cause, statement=0, rule=0):
        super().__init__()
        self.cause, self.statement, self.rule = cause, statement, rule


class BrokenRule(Exception):
    """A statement breaks a rule; the least one that it breaks."""


class Malformed(Exception):
    """Tokens are no proof code."""


class Wrong(Exception):
    """A proof is not right; `self.args[0]` is what the item at fault counts."""


# ---------------------------------------------------------------- texts


def tokens_of(text):
    """Returns the tokens outside comments, or raises `Refused`."""
    if text.translate(None, ALLOWED):
        raise Refused("C2")
    found, is_comment = [], False
    for token in text.split():
        if is_comment:
            if token == b"$(":
                raise Refused("C2")
            is_comment = token != b"$)"
        elif token == b"$)":
            raise Refused("C2")
        elif token == b"$(":
            is_comment = True
        else:
            found.append(token)
    if is_comment:
        raise Refused("C2")
    return found


def statements_of(tokens):
    """Returns the statements that the tokens spell, or raises `Refused`."""
    found, at = [], 0
    while at < len(tokens):
        if tokens[at] in (b"${", b"$}"):
            found.append(Statement(tokens[at], b"", [], []))
            at += 1
            continue
        label = b""
        if b"$" not in tokens[at]:
            label = tokens[at]
            at += 1
        kind = tokens[at] if at < len(tokens) else b""
        if kind not in ((b"$f", b"$e", b"$a", b"$p") if label else (b"$c", b"$v", b"$d")) or (label and not LABEL.match(label)):
            raise Refused("C3")
        symbols, at = until(tokens, at + 1, b"$=" if kind == b"$p" else b"$.")
        proof = []
        if kind == b"$p":
            proof, at = until(tokens, at, b"$.")
        least = 2 if kind in (b"$d", b"$f") else 1
        if len(symbols) < least or (kind == b"$f" and len(symbols) > 2):
            raise Refused("C3")
        found.append(Statement(kind, label, symbols, proof))
    return found


def until(tokens, at, end):
    """Returns the tokens from a place to the next one with a `$`, which has to be `end`, and the place behind it."""
    begin = at
    while at < len(tokens) and b"$" not in tokens[at]:
        at += 1
    if at == len(tokens) or tokens[at] != end:
        raise Refused("C3")
    return tokens[begin:at], at + 1


# ---------------------------------------------------------------- scopes and frames


class Frame(typing.NamedTuple):
    """The frame of an assertion."""
    label: bytes
    conclusion: list
    hypotheses: list
    """The mandatory ones, in order: statements."""
    others: list
    """For each variable x that has mandatory pairs with variables whose `$f` stands before that of x: x and those."""
    size: int


class Scope:
    """What is declared and active behind statements."""

    def __init__(self):
        self.constants, self.ever_variables, self.labels = set(), set(), set()
        self.blocks = [[]]
        """For each open block, and the outermost one, its `$v`, `$f`, `$e` and `$d`."""
        self.variables = set()
        self.floats = {}
        """By variable its active `$f`, with its number among all hypotheses."""
        self.essentials = []
        """The active `$e`, with their numbers among all hypotheses."""
        self.disjoint = {}
        """By variable the active `$d` that list it, as sets."""
        self.hypotheses = {}
        """The active hypotheses by label."""
        self.frames = {}
        """The frames of all assertions, by label."""
        self.count = 0

    def row(self, variable):
        return sum(len(names) for names in self.disjoint.get(variable, ()))

    def is_pair(self, x, y):
        """Returns whether the two are different and stand together in an active `$d`."""
        return x != y and any(y in names for names in self.disjoint.get(x, ()))

    def is_in_use(self, name):
        return name in self.constants or name in self.ever_variables or name in self.labels

    def demand(self, s):
        """Raises `BrokenRule` with the least rule that the statement breaks, if it breaks one."""
        for rule, is_broken in enumerate(self.broken(s), 1):
            if is_broken:
                raise BrokenRule(rule)

    def broken(self, s):
        """Yields for G1 to G10 whether the statement breaks it."""
        has_expression = s.kind in (b"$f", b"$e", b"$a", b"$p")
        twice = len(set(s.symbols)) < len(s.symbols)
        yield s.kind == b"$c" and len(self.blocks) > 1
        yield s.kind == b"$c" and (twice or any(self.is_in_use(c) for c in s.symbols))
        yield s.kind == b"$v" and (twice or any(v in self.variables or v in self.constants or v in self.labels for v in s.symbols))
        yield s.label != b"" and self.is_in_use(s.label)
        yield has_expression and any(c not in self.constants and c not in self.variables for c in s.symbols)
        yield has_expression and s.symbols[0] not in self.constants
        yield s.kind == b"$f" and (s.symbols[1] not in self.variables or s.symbols[1] in self.floats)
        yield s.kind == b"$d" and (twice or any(v not in self.variables for v in s.symbols))
        yield s.kind in (b"$e", b"$a", b"$p") and any(v in self.variables and v not in self.floats for v in s.symbols)
        yield s.kind == b"$}" and len(self.blocks) == 1

    def add(self, s):
        """Adds a statement that breaks no rule; returns its frame if it is an assertion."""
        if s.label:
            self.labels.add(s.label)
        if s.kind == b"${":
            self.blocks.append([])
        elif s.kind == b"$}":
            for inner in reversed(self.blocks.pop()):
                self.close(inner)
        elif s.kind == b"$c":
            self.constants.update(s.symbols)
        elif s.kind in (b"$a", b"$p"):
            self.frames[s.label] = self.frame(s)
            return self.frames[s.label]
        else:
            self.blocks[-1].append(s)
            self.declare(s)
        return None

    def declare(self, s):
        self.count += 1
        if s.kind == b"$v":
            self.variables.update(s.symbols)
            self.ever_variables.update(s.symbols)
        elif s.kind == b"$d":
            names = set(s.symbols)
            for v in names:
                self.disjoint.setdefault(v, []).append(names)
        else:
            self.hypotheses[s.label] = s
            if s.kind == b"$f":
                self.floats[s.symbols[1]] = (self.count, s)
            else:
                self.essentials.append((self.count, s))

    def close(self, s):
        """Takes away what a statement of a block that closes declared; the last one first."""
        if s.kind == b"$v":
            self.variables.difference_update(s.symbols)
        elif s.kind == b"$d":
            for v in set(s.symbols):
                self.disjoint[v].pop()
        else:
            del self.hypotheses[s.label]
            if s.kind == b"$f":
                del self.floats[s.symbols[1]]
            else:
                self.essentials.pop()

    def frame(self, s):
        essentials = [essential for _, essential in self.essentials]
        mandatory = {v for e in (s, *essentials) for v in e.symbols if v in self.variables}
        floats = sorted(self.floats[v] for v in mandatory)
        hypotheses = [h for _, h in sorted(floats + self.essentials, key=lambda pair: pair[0])]
        others, earlier = [], []
        for _, f in floats:
            x = f.symbols[1]
            before_x = [y for y in earlier if self.is_pair(x, y)] if self.disjoint.get(x) else []
            if before_x:
                others.append((x, before_x))
            earlier.append(x)
        size = len(hypotheses) + len(s.symbols) + sum(len(e.symbols) for e in essentials) + sum(self.row(v) for v in mandatory)
        return Frame(s.label, s.symbols, hypotheses, others, size)


# ---------------------------------------------------------------- proofs


def proof_code(tokens, mandatory):
    """Returns the items that the tokens of a proof write: a label is a citation, a number a recall, None a mark.

    `mandatory` has the labels of the mandatory hypotheses, in order."""
    if any(b"?" in token for token in tokens):
        raise Malformed
    if tokens[:1] != [b"("]:
        if not all(LABEL.match(token) for token in tokens):
            raise Malformed
        return list(tokens)
    if b")" not in tokens:
        raise Malformed
    end = tokens.index(b")")
    listed = tokens[1:end]
    if not all(LABEL.match(label) for label in listed) or set(listed) & set(mandatory):
        raise Malformed
    letters = b"".join(tokens[end + 1 :])
    if not re.fullmatch(rb"(?:[U-Y]*[A-T]|(?<!\A)Z)*", letters):
        raise Malformed
    labels, items, marks = mandatory + listed, [], 0
    for word in WORDS.findall(letters):
        if word == b"Z":
            items.append(None)
            marks += 1
            continue
        number = number_of(word)
        if number > len(labels) + marks:
            raise Malformed
        items.append(labels[number - 1] if number <= len(labels) else number - len(labels))
    return items


def number_of(word):
    """Returns the place of a word among all words, in order of length and then of the alphabet, from 1."""
    number = 0
    for letter in word[:-1]:
        number = 5 * number + letter - ord("U") + 1
    return 20 * number + word[-1] - ord("A") + 1


def substituted(images, expression):
    result = []
    for symbol in expression:
        image = images.get(symbol)
        if image is None:
            result.append(symbol)
        else:
            result += image
    return result


class Run:
    """A run over the items of a proof, at a theorem whose place has this scope."""

    def __init__(self, scope):
        self.scope, self.stack, self.saved, self.weight, self.work = scope, [], [], 0, 0

    def item(self, item):
        """Does an item and counts its work, or raises `Wrong`."""
        if item is None:
            self.saved.append(self.stack[-1])
            self.work += 1
        elif isinstance(item, int):
            self.push(self.saved[item - 1], 1)
        elif item in self.scope.hypotheses:
            self.push(self.scope.hypotheses[item].symbols, 1)
        elif item in self.scope.frames:
            self.cite(self.scope.frames[item])
        else:
            raise Wrong(1)

    def push(self, result, cost):
        """Pushes a result; `cost` is what the item counts without it."""
        self.weigh(len(result), cost)
        self.stack.append(result)

    def weigh(self, length, cost):
        self.weight += length
        if self.weight > WEIGHT_LIMIT:
            raise Wrong(cost)
        self.work += cost + length

    def cite(self, frame):
        cost = 1 + frame.size
        count = len(frame.hypotheses)
        if len(self.stack) < count:
            raise Wrong(cost)
        results = self.stack[len(self.stack) - count :]
        images = self.images(frame, results, cost)
        disjointness, are_disjoint = self.disjointness(frame, images)
        cost += disjointness
        if not are_disjoint:
            raise Wrong(cost)
        # The length is counted first: a result that is too heavy may be too long to be made.
        length = sum(len(images[s]) if s in images else 1 for s in frame.conclusion)
        self.weigh(length, cost)
        del self.stack[len(self.stack) - count :]
        self.stack.append(substituted(images, frame.conclusion))

    def images(self, frame, results, cost):
        images = {}
        for hypothesis, result in zip(frame.hypotheses, results):
            if hypothesis.kind == b"$f":
                typecode, variable = hypothesis.symbols
                if result[0] != typecode:
                    raise Wrong(cost)
                images[variable] = result[1:]
        for hypothesis, result in zip(frame.hypotheses, results):
            if hypothesis.kind == b"$e" and substituted(images, hypothesis.symbols) != result:
                raise Wrong(cost)
        return images

    def disjointness(self, frame, images):
        """Returns what the mandatory pairs count, and whether all images are disjoint."""
        work, are_disjoint = 0, True
        in_pairs = {v for x, others in frame.others for v in (x, *others)}
        variables = {v: set(images[v]) & self.scope.variables for v in in_pairs}
        for v in in_pairs:
            work += len(images[v])
        for x, others in frame.others:
            for u in variables[x]:
                work += self.scope.row(u)
                for y in others:
                    work += len(variables[y])
                    are_disjoint = are_disjoint and all(self.scope.is_pair(u, w) for w in variables[y])
        return work, are_disjoint


def judge_proof(scope, theorem, frame):
    """Returns whether the proof is right, and its work; `scope` is what stands before the theorem."""
    tokens = theorem.proof
    try:
        items = proof_code(tokens, [hypothesis.label for hypothesis in frame.hypotheses])
    except Malformed:
        return False, 0
    if tokens[:1] == [b"("]:
        work = 16 * (tokens.index(b")") - 1) + frame.size
    else:
        work = 16 * len(tokens)
    run = Run(scope)
    try:
        for item in items:
            run.item(item)
    except Wrong as wrong:
        return False, work + run.work + wrong.args[0]
    return run.stack == [theorem.symbols], work + run.work


# ---------------------------------------------------------------- the library


class Library:
    """The statements of the texts that were added."""

    def __init__(self):
        self.statements = []

    def scope(self):
        scope = Scope()
        for s in self.statements:
            scope.add(s)
        return scope

    def apply(self, text, limit=None):
        """Adds a text whole, or leaves the library as it was; returns the verdict. `limit` is one on its work, if there is one."""
        counts = [(0, len(text))]
        """What is judged, in order: the number of a statement (0 for the bytes), and what it counts."""
        statements = []
        refusal = Refused("")
        try:
            if len(text) > TEXT_LIMIT:
                raise Refused("C1")
            names = {}
            statements = statements_of([names.setdefault(token, token) for token in tokens_of(text)])
            self.enter(statements, counts)
            if limit is not None:
                self.demand_nothing_left(statements)
            self.prove(statements, counts)
        except Refused as refused:
            refusal = refused
        work = sum(count for _, count in counts)
        if limit is not None and work > limit and refusal.cause != "C1":
            refusal = Refused("C8", first_past(limit, counts))
        if not refusal.cause:
            self.statements += statements
        proved = sum(s.kind == b"$p" for s in statements)
        return Verdict(refusal.cause, refusal.statement, refusal.rule, work, proved)

    def enter(self, statements, counts):
        """Counts each statement without its proof, up to the first that breaks a rule."""
        scope = self.scope()
        for number, s in enumerate(statements, 1):
            try:
                scope.demand(s)
            except BrokenRule as broken:
                raise Refused("C4", number, broken.args[0])
            frame = scope.add(s)
            names = len(s.symbols) if s.kind in (b"$c", b"$v") else 1 if s.label else 0
            counts.append((number, 64 * names + (frame.size if frame else 0)))
        if len(scope.blocks) > 1:
            raise Refused("C4", len(statements) + 1, 10)

    def demand_nothing_left(self, statements):
        """Raises `Refused` if an `$e` or `$d` of the text stands outside all blocks."""
        depth = 0
        for number, s in enumerate(statements, 1):
            depth += (s.kind == b"${") - (s.kind == b"$}")
            if depth == 0 and s.kind in (b"$e", b"$d"):
                raise Refused("C9", number)

    def prove(self, statements, counts):
        """Counts each proof, up to the first that is not right."""
        scope = self.scope()
        for number, s in enumerate(statements, 1):
            if s.kind == b"$p":
                is_right, work = judge_proof(scope, s, scope.frame(s))
                counts.append((number, work))
                if not is_right:
                    raise Refused("C6" if any(b"?" in token for token in s.proof) else "C5", number)
            scope.add(s)


def first_past(limit, counts):
    """Returns the number of the first statement with which the count is past the limit."""
    count = 0
    for number, more in counts:
        count += more
        if count > limit:
            return number
    raise ValueError


def main(words):
    limit, shows_work, files = None, False, []
    while words:
        word = words.pop(0)
        if word == "--max-work":
            limit = int(words.pop(0))
        elif word == "--work":
            shows_work = True
        else:
            files.append(word)
    library, status = Library(), 0
    for file in files or ["/dev/stdin"]:
        with open(file, "rb") as opened:
            verdict = library.apply(opened.read(), limit)
        print(verdict.line(), *([verdict.work] if shows_work else []))
        status = status or int(verdict.cause != "")
    return status


if __name__ == "__main__":
    sys.exit(main(sys.argv[1:]))
