"""Adversarial texts for bench/hostile: each function makes those of one family, of about the size that it is given.

Each family has a loop of the program in mind that some author may want to be long. Sizes are bytes, unless the argument says otherwise.
"""
import bisect
import functools
import itertools

DIGITS = b"0123456789abcdefghijklmnopqrstuvwxyzABCDEFGHIJKLMNOPQRSTUVWXYZ"


# ---- parts of texts

def name(number, width=1):
    """Returns a short name for a number, in digits of base 62."""
    digits = b""
    while number > 0 or not digits:
        number, digit = divmod(number, 62)
        digits = DIGITS[digit:digit + 1] + digits
    return digits.rjust(width, b"0")


def names(front, count, width=1):
    return [front + name(number, width) for number in range(count)]


def word(number):
    """Returns the letters of a compressed proof that write a number, from 1."""
    number, digit = divmod(number - 1, 20)
    letters = bytes([65 + digit])
    while number > 0:
        number, digit = divmod(number - 1, 5)
        letters = bytes([85 + digit]) + letters
    return letters


def words(first, count):
    return [word(first + at) for at in range(count)]


def each(count, form, front=b"", width=1):
    """Returns a form with each of these names put in, as often as it has places."""
    return b"".join(form % ((one,) * form.count(b"%s")) for one in names(front, count, width))


def spelled(symbols):
    return b" ".join(symbols)


def floats(variables):
    return b"".join(b"f%s $f w %s $.\n" % (variable, variable) for variable in variables)


def lists(heads, others):
    """Returns a `$d` for each of the others, with one of the heads in turn."""
    return b"".join(b"$d %s %s $.\n" % pair for pair in zip(itertools.cycle(heads), others))


def joined(results, join):
    """Returns the letters of a compressed proof that joins results, half by half."""
    if len(results) == 1:
        return results[0]
    half = len(results) // 2
    return joined(results[:half], join) + joined(results[half:], join) + join


def others_of(size):
    """Returns many `$d u v $.`, a tenth of the size, of variables that no assertion has."""
    return b"$d u v $.\n" * max(70, size // 10)


# ---- names that collide

MACHINE = 1 << 64
FACTOR = 0x9E3779B97F4A7C15
LETTERS = b"abcdefghijklmnopqrstuvwxyzABCDEFGHIJKLMNOPQRSTUVWXYZ0123456789-_."


def crowded_names():
    """Names of seven bytes whose keys meet one place in each table of at most 2^20 slots.

    The key of a name is its bytes, the first as the lowest digit, times eight, and seven. The place is read from the highest bytes of its
    product with a fixed factor. So for each three bytes at the end those of the fronts are looked up that take the product to zeros there.
    """
    inverse = pow(FACTOR, -1, MACHINE)

    def product(letters, place):
        return sum(letter << 8 * (place + at) for at, letter in enumerate(letters)) * 8 * FACTOR % MACHINE

    fronts = sorted(product(letters, 0) for letters in itertools.product(LETTERS[:40], repeat=4))
    length = 7 * FACTOR % MACHINE
    for back in itertools.product(LETTERS, repeat=3):
        behind = (product(back, 4) + length) % MACHINE
        for third in range(16):
            least = ((third << 44) - behind) % MACHINE
            at = bisect.bisect_left(fronts, least)
            while at < len(fronts) and fronts[at] < least + (1 << 40):
                yield (fronts[at] * inverse % MACHINE // 8).to_bytes(4, "little") + bytes(back)
                at += 1


@functools.cache
def crowd():
    """Returns the names that were made, and the maker of more."""
    return [], crowded_names()


def short_names(count):
    known, more = crowd()
    known.extend(itertools.islice(more, max(0, count - len(known))))
    return known[:count]


def spread(number):
    return int.from_bytes((number * FACTOR % MACHINE).to_bytes(8, "little"), "big")


def words_of_one_hint(hint):
    """Returns four words of sixteen bytes that all take this hint to the same next one, and that one. The last eight bytes of a word are
    computed from its first; a word is dropped if they are not all letters."""
    found, after = [], (spread((hint + int.from_bytes(b"hintaaaa", "little")) % MACHINE) + int.from_bytes(b"followed", "little")) % MACHINE
    for letters in itertools.product(LETTERS, repeat=4):
        first = b"hint" + bytes(letters)
        last = ((after - spread((hint + int.from_bytes(first, "little")) % MACHINE)) % MACHINE).to_bytes(8, "little")
        if not last.translate(None, LETTERS):
            found.append(first + last)
            if len(found) == 4:
                break
    return found, spread(after)


@functools.cache
def blocks_of_words(front):
    """Returns, for each of ten places after a front, four words that take the hint there to the same next one."""
    hint, found = len(front) + 160, []
    for at in range(0, len(front), 8):
        hint = spread((hint + int.from_bytes(front[at:at + 8], "little")) % MACHINE)
    for _ in range(10):
        block, hint = words_of_one_hint(hint)
        found.append(block)
    return found


def long_names(count, front=b""):
    """Returns names of one hint, each of a front and 160 bytes; eight divides the length of the front. To get the next hint, eight bytes
    of the name are added to the hint, the sum is multiplied by a fixed factor, and the bytes of the product are reversed."""
    return [front + b"".join(parts) for parts in itertools.islice(itertools.product(*blocks_of_words(front)), count)]


def as_symbols(found):
    return b"$c " + spelled(found) + b" $.\n"


def as_labels(found):
    return b"$c |- $.\n" + b"".join(one + b" $a |- $.\n" for one in found)


def looked_up(found):
    """The first half of the names as symbols, and each of them once more in an axiom, so that it is looked up."""
    half = len(found) // 2
    return as_symbols(found[:half]) + b"".join(b"a%d $a %s $.\n" % pair for pair in enumerate(found[:half]))


# ---- tokens, blocks and declarations

def comments(size):
    """Comments in which each token has a `$`."""
    return b"$c w $.\n$( " + b"$x " * (size // 6) + b"$)\n$( " + b"a$" * (size // 4) + b" $)\n"


def blocks(size):
    return b"${ $}\n" * (size // 6)


def axioms(count):
    return b"$c |- $.\n" + each(count, b"a%s $a |- $.\n")


def normal_proof(size):
    """A proof in normal form, of two bytes a step."""
    return b"$c w $. $v x $. f $f w x $. e $a w $. a $a w x $.\nt $p w $= e" + b" a" * (size // 2) + b" $.\n"


def listed_alone(size):
    """Proofs that list many labels and cite one."""
    return b"$c w $. e $a w $.\n" + each(10, b"t%s $p w $= ( e" + b" e" * (size // 20) + b" ) A $.\n")


def nested(count, form):
    """Blocks one inside the other, and assertions at the bottom."""
    return b"$c |- w $. $v x $. wx $f w x $.\n" + b"${\n" * count + each(count, form) + b"$}\n" * count


def declared_in_blocks(size):
    """Blocks one inside the other, each with a variable, its `$f` and a `$d`."""
    count = size // 53
    return b"$c w $. $v y $.\n" + each(count, b"${ $v v%s $. f%s $f w v%s $. $d y v%s $.\n", b"", 4) + b"$}\n" * count


def redeclared(size):
    """A variable that each block declares anew, with a proof that has it under a `$d`."""
    front = b"$c w $. $v y $. fy $f w y $. ${ $v x $. fx $f w x $. $d x y $. a $a w x y $. $}\n"
    return front + each(size // 60, b"${ $v x $. g%s $f w x $. $d x y $. t%s $p w x y $= fy g%s a $. $}\n")


def variables(count):
    """Axioms under an `$e` of many variables."""
    found = names(b"v", count)
    front = b"$c |- w $. $v " + spelled(found) + b" $.\n" + floats(found) + b"e $e |- " + spelled(found) + b" $.\n"
    return front + each(count, b"a%s $a |- v0 $.\n")


def turned_variables(count):
    """One axiom with all variables, the last one first."""
    found = names(b"v", count)
    return b"$c |- w $. $v " + spelled(found) + b" $.\n" + floats(found) + b"a $a |- " + spelled(found[::-1]) + b" $.\n"


# ---- hypotheses that are active

def under_many(size, front, form):
    """Half: `$e` of 12 bytes; half: a form behind them, of 22 bytes."""
    half = size // 2
    return front + b"${\n" + each(half // 13, b"h%s $e o $.\n", b"", 4) + each(half // 22, form) + b"$}\n"


def hyps(size):
    """Proofs that name the first of many `$e`."""
    return under_many(size, b"$c o $.\n", b"t%s $p o $= ( ) A $.\n")


def hyps_of_others(size):
    """The same, where each theorem has a variable, which no `$e` has."""
    return under_many(size, b"$c w o $. $v x $. fx $f w x $.\n", b"t%s $p w x $= ( ) A $.\n")


def one_hypothesis(count):
    """A hypothesis of a hundred times as many symbols as there are axioms."""
    return b"$c |- $.\ne $e |-" + b" |-" * (100 * count) + b" $.\n" + each(count, b"a%s $a |- $.\n")


def cited_hypotheses(count):
    """Ten proofs that cite an axiom under many hypotheses."""
    front = b"$c |- $.\n" + each(count, b"e%s $e |- $.\n") + b"c $a |- $.\n"
    return front + each(10, b"p%s $p |- $= " + spelled(names(b"e", count)) + b" c $.\n")


def one_more_each(size):
    """Before each `$p` one more `$e`; the proof of the `$p` names the last `$e` but one."""
    return b"$c o $.\n${\n" + b"".join(b"h%s $e o $.\nt%s $p o $= ( ) %s $.\n" % (one, one, word(max(1, number)))
                                       for number, one in enumerate(names(b"", size // 36, 4))) + b"$}\n"


def blocks_of_one_more(size):
    """One more `$e` in each of many blocks, under as many as a short list has."""
    front = b"$c o $.\n${\n" + each(32, b"o%s $e o $.\n")
    return front + each(size // 50, b"${ h%s $e o $. t%s $p o $= ( ) UA $. $}\n") + b"$}\n"


def short_lists(size, essentials, pair_count):
    """Axioms of 11 bytes under `$e` of two variables each and `$d` of two."""
    found = [b"v%d" % number for number in range(2 * essentials)]
    pairs = [(one, other) for at, one in enumerate(found) for other in found[:at]][:pair_count]
    front = b"$c w o $. $v " + spelled(found) + b" $.\n" + b"".join(b"f%d $f w v%d $.\n" % (at, at) for at in range(len(found))) + b"${\n"
    front += b"".join(b"e%d $e w v%d v%d $.\n" % (at, 2 * at, 2 * at + 1) for at in range(essentials))
    front += b"".join(b"$d %s %s $.\n" % pair for pair in pairs)
    parts, length = [front], len(front)
    while length < size:
        parts.append(b"a%s $a o $.\n" % name(len(parts) - 1))
        length += len(parts[-1])
    return b"".join(parts) + b"$}\n"


def few(size):
    """Axioms under 63 hypotheses and 63 pairs."""
    return short_lists(size, 21, 63)


def square_hypotheses(size):
    """An axiom under as many `$e` as each of them has variables, cited on empty images."""
    count = max(2, int((size / 6) ** 0.5))
    found = names(b"v", count)
    front = b"$c w $. $v " + spelled(found) + b" $.\n" + floats(found) + b"e $a w $.\n${\n" + each(count, b"h%s $e w " + spelled(found) + b" $.\n")
    unit = b"A" * (2 * count - 1) + b"B"
    return front + b"a $a w $.\n$}\nt $p w $= ( e a ) A" + unit * max(1, (size - len(front)) // len(unit)) + b" $.\n"


# ---- disjoint variable conditions

FOUR = b"$c w $. $v x y p q u v $. a1 $f w x $. a2 $f w y $. c $f w p $. d $f w q $.\n${ $d x y $. a $a w x y $. $}\n"
PAIR = b"t%s $p w p q $= c d a $.\n"


def walk(size):
    """Small proofs that ask for a pair whose `$d` stands before many `$d` of other variables."""
    half = size // 2
    return FOUR + b"${ $d p q $.\n" + others_of(half) + each(half // 27, PAIR) + b"$}\n"


def walk_of_its_own(size):
    """The same, where each of the other `$d` has a variable of the pair."""
    half = size // 2
    others = names(b"u", half // 22)
    return FOUR + b"$v " + spelled(others) + b" $.\n${ $d p q $.\n" + lists((b"p", b"q"), others) + each(half // 27, PAIR) + b"$}\n"


def walk_after_blocks(size):
    """Small proofs after blocks that have `$d` of their variables, one inside the other."""
    half = size // 2
    others = names(b"u", half // 24)
    nest = b"".join(b"${ $d p %s $.\n" % other for other in others) + b"$} " * len(others)
    return FOUR + b"$v " + spelled(others) + b" $.\n${ $d p q $.\n" + nest + each(half // 27, PAIR) + b"$}\n"


def walk_of_long_list(size):
    """Proofs that ask for two neighbours in a `$d` of all variables."""
    found = names(b"v", size // 60)
    text = b"$c w $. $v x y " + spelled(found) + b" $. f1 $f w x $. f2 $f w y $.\n" + floats(found)
    text += b"${ $d x y $. a $a w x y $. $}\n$d " + spelled(found) + b" $.\n"
    return text + b"".join(b"t%s $p w %s %s $= f%s f%s a $.\n" % (one, one, other, one, other) for one, other in zip(found, found[1:]))


def one_wide_d(size):
    """One axiom of many variables, all of one `$d`."""
    found = [b"v%d" % number for number in range(size // 41)]
    return b"$c w $. $v " + spelled(found) + b" $.\n" + floats(found) + b"${ $d " + spelled(found) + b" $. a $a w " + spelled(found) + b" $. $}\n"


def gather(size):
    """One proof that cites an axiom under many `$d`, which has none of their variables."""
    half = size // 2
    return (b"$c w o $. $v x u v $. f $f w x $. o1 $a w o $.\n${\n" + others_of(half) + b"a $a w x $.\n$}\nt $p w o $= ( o1 a ) A"
            + b"B" * half + b" $.\n")


def gather_of_its_own(size):
    """The same, where each of the `$d` has the axiom's variable."""
    half = size // 2
    others = names(b"u", half // 14)
    return (b"$c w o $. $v x " + spelled(others) + b" $. f $f w x $. o1 $a w o $.\n${\n" + lists((b"x",), others)
            + b"a $a w x $.\n$}\nt $p w o $= ( o1 a ) A" + b"B" * half + b" $.\n")


def few_pairs(size):
    """An axiom of twenty variables under many `$d`, no two of them equal, cited again and again on empty images."""
    half = size // 2
    found = names(b"v", 20)
    text = b"$c w $. $v " + spelled(found) + b" $.\n" + floats(found) + b"e $a w $.\n${\n"
    for number in range(half // 35):
        chosen = (number + 1) * 0x9E377 % (1 << 20) | 3 << number % 19
        text += b"$d " + spelled([one for at, one in enumerate(found) if chosen >> at & 1]) + b" $.\n"
    text += b"a $a w " + spelled(found) + b" $.\n$}\n"
    return text + b"t $p w $= ( e a ) A" + (b"A" * 19 + b"B") * (half // 20) + b" $.\n"


def long_lists(size):
    """Two axioms of eighty variables under many `$d` that have one of these, cited in turn on empty images."""
    half = size // 2
    found, others = names(b"v", 80), names(b"u", half // 18)
    text = b"$c w $. $v " + spelled(found + others) + b" $.\n" + floats(found) + b"e $a w $.\n${\n" + lists(found, others)
    text += b"a $a w " + spelled(found) + b" $.\nb $a w " + spelled(found[::-1]) + b" $.\n$}\n"
    return text + b"t $p w $= ( e a b ) A" + (b"A" * 79 + b"B" + b"A" * 79 + b"C") * (half // 160) + b" $.\n"


def groups(size):
    """An axiom under many equal `$d`, cited again and again on an image of 64 symbols and an empty one."""
    half = size // 2
    front = b"$c w o $. $v x y $. f $f w x $. g $f w y $. e $a w $. b $a w " + b"o " * 64 + b"$.\n${\n" + b"$d x y $.\n" * max(70, half // 10)
    return front + b"a $a w x y $.\n$}\nt $p w " + b"o " * 64 + b"$= ( b e a ) A" + b"BC" * min(half // 2, 1_000_000) + b" $.\n"


def groupsweight(size, wide=30):
    """An axiom under many equal `$d`, cited by proofs of 40 bytes on an image of `wide` to the fourth symbols."""
    half = size // 2
    front = b"$c w o $. $v x y $. f $f w x $. g $f w y $. e $a w $. a $a w o $. b $a w " + b"x " * wide + b"$. ${ h $e w x $.\n"
    return front + b"$d x y $.\n" * max(70, half // 10) + b"r $a w y $. $}\n" + each(max(1, half // 42), b"t%s $p w $= ( a b r e ) ABBBBZDEC $.\n")


def many(size):
    """Two images of sixty variables each, cited again and again, after many `$d` of others."""
    half = size // 2
    ps, qs = [b"p%d" % number for number in range(60)], [b"q%d" % number for number in range(60)]
    text = b"$c w o $. $v x y u v " + spelled(ps + qs) + b" $. a1 $f w x $. a2 $f w y $.\n" + floats(ps + qs)
    text += b"j $a w x y $.\n${ $d x y $. a $a w x y $. $}\n${ z $e w x $. k $a w o $. $}\n"
    text += b"${ h $e w " + spelled(ps + qs) + b" $.\n$d " + spelled(ps + qs[:30]) + b" $.\n$d " + spelled(ps + qs[30:]) + b" $.\n" + others_of(half)
    join, apart, drop = words(122, 3)
    proof = b"Z".join(first + b"".join(other + join for other in more) for first, *more in (words(1, 60), words(61, 60))) + b"Z" + apart
    unit = word(125) + word(126) + apart + b"Z"
    count = max(1, (half - len(proof)) // (len(unit) + 7))
    proof += b"".join(unit + recalled + drop + join for recalled in words(127, count))
    return text + b"t $p w " + spelled(ps + qs) + b" o" * count + b" $= ( j a k ) " + proof + b" $.\n$}\n"


def many3(size):
    """One citation on two images of hundreds of variables each, under two `$d` that cover each pair only together."""
    count = max(70, size // 110)
    ps, qs = names(b"p", count), names(b"q", count)
    text = b"$c w o $. $v x y u v " + spelled(ps + qs) + b" $. a1 $f w x $. a2 $f w y $.\n" + floats(ps + qs)
    text += b"j $a w x y $.\n${ $d x y $. a $a w x y $. $}\n${ $d " + spelled(ps + qs[:count // 2]) + b" $.\n$d " + spelled(ps + qs[count // 2:])
    return text + b" $.\n" + b"$d u v $.\n" * max(70, size // 40) + b"t $p w " + spelled(ps + qs) + b" $= " + joined_in_turn(ps, qs) + b" a $.\n$}\n"


def joined_in_turn(*sides):
    """Returns a normal proof that makes a result of all variables of each side."""
    return spelled([spelled([b"f" + side[0], *(b"f" + one + b" j" for one in side[1:])]) for side in sides])


def dead_others(size):
    """An axiom with a `$d` of one variable and each of many, cited on a long image of the one, with empty images of the others."""
    count = size // 100
    ys, ms = [b"y%d" % number for number in range(count)], [b"m%d" % number for number in range(count)]
    text = b"$c w o $. $v x z " + spelled(ys + ms) + b" $.\n" + floats(ys) + b"fx $f w x $. fz $f w z $.\n" + floats(ms)
    text += b"e $a w $. j $a w x z $.\n${ " + lists((b"x",), ys) + b"a $a w x " + spelled(ys) + b" $. $}\n${ hh $e w x $. k $a w o $. $}\n"
    image = word(count + 5)
    proof = joined(words(5, count), b"B") + b"Z" + image + b"D"
    proof += b"".join(b"A" * count + image + b"CZ" + marked + b"DB" for marked in words(count + 6, 20))
    return text + b"t $p w" + b" o" * 21 + b" $= ( e j a k " + spelled([b"f" + one for one in ms]) + b" ) " + proof + b" $.\n"


AGAIN = b"j $a w x y $.\n${ $d x y $. a $a w x y $. $}\n${ z $e w x y $. k $a w o $. $}\n${ g $e w o $. g2 $e w o $. s $a w o $. $}\n"


def many_again(size):
    """Two images of thousands of variables each under one `$d`, made once and cited twenty times."""
    count = max(2, size // 66)
    found = names(b"v", 2 * count)
    text = b"$c w o $. $v x y " + spelled(found) + b" $. a1 $f w x $. a2 $f w y $.\n" + floats(found) + AGAIN
    text += b"${ $d " + spelled(found) + b" $. h $e w " + spelled(found) + b" $.\n"
    letters = words(1, 2 * count)
    join, apart, drop, both, one, other = words(2 * count + 2, 6)
    proof = joined(letters[:count], join) + b"Z" + joined(letters[count:], join) + b"Z" + one + other + apart + drop
    return text + b"t $p w o $= ( j a k s ) " + proof + (one + other + one + other + apart + drop + both) * 20 + b" $.\n$}\n"


def many_spread(size):
    """Two images of 128 variables each, which are spread among 8,192 variables, cited again and again."""
    found = names(b"v", 8192)
    text = b"$c w o $. $v x y " + spelled(found) + b" $. a1 $f w x $. a2 $f w y $.\n" + floats(found) + AGAIN + b"e $a w $.\n"
    text += b"${ $d " + spelled(found[::32]) + b" $.\nt $p w o $= ( " + spelled([b"f" + one for one in found]) + b" j a k s e ) "
    letters = words(1, 8192)
    join, apart, drop, both, empty, every, one, other = words(8193, 8)
    text += joined(letters, join) + b"Z" + empty + every + empty + apart + drop
    text += joined(letters[::64], join) + b"Z" + joined(letters[32::64], join) + b"Z" + one + other + apart + drop + both
    unit = one + other + one + other + apart + drop + both
    return text + unit * max(1, (size - len(text)) // len(unit)) + b" $.\n$}\n"


# ---- expressions and weight

def emptyimage(size):
    """An axiom that is one variable again and again, cited again and again on the empty image."""
    half = size // 2
    return b"$c w $. $v x $. f $f w x $. e $a w $.\na $a w " + b"x " * (half // 2) + b"$.\nt $p w $= ( e a ) A" + b"B" * half + b" $.\n"


def empty_hypothesis(size):
    """A `$e` that is one variable again and again, asked for again and again on the empty image."""
    half = size // 2
    return (b"$c w $. $v x $. f $f w x $. e $a w $.\n${ h $e w " + b"x " * (half // 2) + b"$. a $a w $. $}\nt $p w $= ( e a ) A"
            + b"AB" * (half // 2) + b" $.\n")


def empty_beside_long(size):
    """An axiom with two variables, one of them again and again, whose image is empty; the other has one of a thousand symbols."""
    half = size // 2
    front = b"$c w o $. $v y x $. g $f w y $. f $f w x $. e $a w $. b $a w " + b"o " * 1100 + b"$.\na $a w y " + b"x " * (half // 2)
    return front + b"$.\nt $p w " + b"o " * 1100 + b"$= ( e b a ) B" + b"AC" * min(half // 2, 55_000) + b" $.\n"


def weight(count):
    """Proofs of 36 bytes that weigh 64 million symbols each."""
    front = b"$c w o $. $v x $. f $f w x $. a $a w o $. b $a w " + b"x " * 75 + b"$. ${ h $e w x $. r $a o $. $}\n"
    return front + b"".join(b"t%d $p o $= ( a b r ) ABBBBZDC $.\n" % number for number in range(count))


def weight_by_steps(count):
    """Proofs of a few hundred bytes that weigh 65 million symbols each, in 64 results of a million."""
    front = b"$c w o $. $v x $. f $f w x $. a $a w o $. b $a w " + b"x " * 100 + b"$. ${ h $e w " + b"x " * 100
    front += b"$. k $a w o $. $}\n${ g1 $e w o $. g2 $e w o $. s $a w o $. $}\n"
    return front + each(count, b"t%s $p w o $= ( a b k s ) ABBZEBC" + b"EEBCD" * 63 + b" $.\n")


def weight_of_variables(size):
    """A proof whose results have 1,100 variables each, 59,000 results at most."""
    found = names(b"v", 1100)
    front = b"$c w $. $v x y " + spelled(found) + b" $. a1 $f w x $. a2 $f w y $.\n" + floats(found) + b"i $a w x $.\nj $a w x y $.\n"
    front += b"t $p w " + spelled(found) + b" $= ( i j ) " + joined(words(1, 1100), word(1102))
    return front + word(1101) * min(59_000, max(1, (size - len(front)) // 4)) + b" $.\n"


# ---- wrong proofs

def refused_at_its_end(size):
    """Right proofs, and a wrong one behind them."""
    front = b"$c w o $. $v x $. f $f w x $. e $a w $. a $a w x o $.\n"
    return front + each(size // 30, b"t%s $p w o o $= e a a $.\n") + b"t $p w o $= e $.\n"


def marks(count):
    """A result of two million symbols, which each further letter marks."""
    return b"$c w o $. $v x $. f $f w x $. a $a w o $. b $a w " + b"x " * 128 + b"$. t $p o $= ( a b ) ABBB" + b"Z" * count + b" $.\n"


def listed(size):
    """A compressed proof with a byte that is no letter, after many listed labels, under many `$e`."""
    half = size // 2
    return b"$c o $.\n${\n" + each(half // 13, b"h%s $e o $.\n", b"", 4) + b"zz $a o $.\nt $p o $= ( " + b"zz " * (half // 3) + b") a $.\n$}\n"


def explainpairs(size):
    """A wrong proof that cites an axiom with a `$d` again and again, under many `$d` of others."""
    half = size // 2
    return FOUR + b"${ $d p q $.\n" + others_of(half) + b"t $p w p q $= ( a ) " + b"ABC" * (half // 3) + b" $.\n$}\n"


def explained_symbol(size):
    """A wrong proof whose result has one long symbol four hundred times."""
    symbol = b"s" * (size // 2)
    return b"$c w " + symbol + b" $. $v x $. f $f w x $. a $a w " + symbol + b" $. b $a w " + b"x " * 20 + b"$. t $p w $= ( a b ) ABB $.\n"


def explained_images(size):
    """A wrong citation of an axiom with a `$e` of many variables, whose last one stands there again and again."""
    half = size // 2
    found = names(b"v", half // 26)
    front = b"$c w o $. $v " + spelled(found) + b" $.\n" + floats(found) + b"e $a w $. e2 $a w o $.\n${ h $e w " + spelled(found)
    return front + (b" " + found[-1]) * (half // 5) + b" $.\na $a w o $. $}\nt $p w o $= ( e e2 a ) " + b"A" * len(found) + b"BC $.\n"


def explained_last_pair(size):
    """A wrong citation on two images of many variables, of which only the last two stand together in no `$d`."""
    count = max(2, size // 79)
    ps, qs = names(b"p", count), names(b"q", count)
    text = b"$c w $. $v x y " + spelled(ps + qs) + b" $. a1 $f w x $. a2 $f w y $.\n" + floats(ps + qs)
    text += b"j $a w x y $.\n${ $d x y $. a $a w x y $. $}\n${ $d " + spelled(ps[:-1] + qs) + b" $.\n$d " + spelled(ps + qs[:-1]) + b" $.\n"
    return text + b"t $p w " + spelled(ps + qs) + b" $= " + joined_in_turn(ps, qs) + b" a $.\n$}\n"


# ---- questions

def listing(size):
    """A theorem `t` whose proof lists many axioms under many `$e`, and cites another one."""
    labels = names(b"a", size // 40, 4)
    text = b"$c w $.\n${\n" + each(size // 52, b"h%s $e w $.\n", b"", 4) + b"".join(label + b" $a w $.\n" for label in labels)
    return text + b"$}\ne $a w $.\nt $p w $= ( e " + spelled(labels) + b" ) A $.\n"


def hypotheses_in_turn(size):
    """Before each axiom one more `$e`; then blocks, each with a `$e` and an axiom."""
    front = b"$c o $.\n${\n" + each(size // 52, b"h%s $e o $.\na%s $a o $.\n", b"", 4) + b"$}\n"
    return front + each(size // 64, b"${ i%s $e o $. b%s $a o $. $}\n", b"", 4)


def variables_of_own_types(size):
    """A theorem `t` of many variables, each with a constant of its own in its `$f`."""
    found = names(b"", size // 60, 4)
    text = b"$c w " + each(len(found), b"k%s ", b"", 4) + b"$. $v " + each(len(found), b"v%s ", b"", 4) + b"$.\n"
    text += b"".join(b"f%s $f k%s v%s $.\n" % (one, one, one) for one in found)
    expression = spelled([b"v" + one for one in found])
    return text + b"a $a w " + expression + b" $.\nt $p w " + expression + b" $= ( a ) " + b"".join(words(1, len(found) + 1)) + b" $.\n"


# ---- scripts: a text that is long, and then short ones, each on a line

def persist(size):
    """Symbols, and then theorems of ninety bytes."""
    front = b"$c w $. $c " + spelled(names(b"", size // 6, 5)) + b" $. $v x y $. fx $f w x $. fy $f w y $. ${ $d x y $. a $a w x y $. $}"
    return [front] + [b"${ $d x y $. t%d $p w x y $= fx fy a $. $}" % number for number in range(500)]


def after_axioms(size):
    """Axioms, and then theorems of thirty bytes."""
    front = b"$c o $. e $a o $. " + each(size // 14, b"a%s $a o $. ", b"", 4)
    return [front] + [b"t%d $p o $= ( e ) A $." % number for number in range(500)]


def after_refused(size):
    """Axioms that are refused, since a wrong proof stands at the end, and then theorems of thirty bytes."""
    front = b"$c o $. e $a o $. " + each(size // 14, b"a%s $a o $. ", b"", 4) + b"t $p o $= $."
    return [front, b"$c o $. e $a o $. "] + [b"t%d $p o $= ( e ) A $." % number for number in range(500)]


def refused_again(size):
    """Axioms, and then texts whose names are taken back, since each is refused at its end."""
    front = b"$c o $. " + each(size // 14, b"a%s $a o $. ", b"", 4)
    return [front] + [b"$c c%d d%d $. b%d $a o $. t $p o $= $." % ((number,) * 3) for number in range(5000)]


def again(text):
    """One text again and again, which has to be refused."""
    return [b"$c 0 $."] + [text.replace(b"\n", b" ")] * 20
