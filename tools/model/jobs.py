#!/usr/bin/env python3
"""A second reading of job files, written from the definitions and not from the crates.

    tools/model/jobs.py < FILE      writes the listing of a job file
    tools/model/jobs.py --selftest  tries the definitions against each other

Nothing here is clever. The forms of letters G and B are searched for: every form of the number is a
candidate, digit by digit from the low end, and what is kept is what meets the definition; that exactly one
is left is asserted each time. The form of letter L is made by its walk. A line's fault is looked for by
asking of each of its beginnings whether some lawful line goes on from it.

What the program must write for crates/pantrycove/stdin was made by this file and by nothing else:

    tools/model/jobs.py < crates/pantrycove/stdin | cmp - crates/pantrycove/stdout
"""

import itertools
import random
import re
import sys

MOST_BYTES = 65536
MOST_DIGITS = 120
DIGITS = b"0123456789ABCDEF"


# Forms. A form is a list of digits, the top place first.

def value(radix, form):
    total = 0
    for digit in form:
        total = total * radix + digit
    return total


def from_top(form):
    """The form without its leading zeros."""
    for i, digit in enumerate(form):
        if digit != 0:
            return form[i:]
    return []


def count_cost(digit):
    return 0 if digit == 0 else 1


def square_cost(digit):
    return digit * digit


COST = {"G": count_cost, "B": square_cost, "L": count_cost}


def weight(cost, form):
    return sum(cost(digit) for digit in form)


# The two definitions by neighbours: may `below` stand right below `above`?

def beside(radix, above, below):
    """Letter G: the sum is smaller than the radix; of opposed digits the lower is the smaller."""
    if abs(above + below) >= radix:
        return False
    return above * below >= 0 or abs(below) < abs(above)


def half(radix, above, below):
    """Letter B: at most a half; above an exact half a smaller digit that is not of the opposite sign."""
    if abs(below) > radix // 2:
        return False
    if 2 * abs(below) == radix:
        return abs(above) < abs(below) and above * below >= 0
    return True


RULE = {"G": beside, "B": half}


def meets(rule, radix, form):
    return all(rule(radix, above, below) for above, below in zip([0] + form, form))


def search(rule, radix, number, places):
    """All forms of `number` in which `rule` holds of all neighbours, in at most `places` places.

    Answers how many there are, and one of them. From the low end: what is left of the number, and the digit
    just placed, tell all that matters for the digits above.
    """
    found = {(number, None): (1, [])}
    for _ in range(places):
        longer = {}
        for (left, below), (ways, form) in found.items():
            low = left % radix
            for digit in {low, low - radix} if low else {0}:
                if below is not None and not rule(radix, digit, below):
                    continue
                state = ((left - digit) // radix, digit)
                before = longer.get(state, (0, None))[0]
                longer[state] = (before + ways, [digit] + form)
        found = longer
    # above the top place stands 0
    whole = [(ways, form) for (left, top), (ways, form) in found.items() if left == 0 and rule(radix, 0, top)]
    return sum(ways for ways, _ in whole), whole[0][1] if whole else None


def only_form(letter, radix, number, places):
    ways, form = search(RULE[letter], radix, number, places)
    assert ways == 1, (letter, radix, number, ways)
    assert value(radix, form) == number and meets(RULE[letter], radix, form)
    return form


# Letter L, by its walk over the plain digits, of which the lowest has place 0.

def star_form(radix, plain):
    m = len(plain)

    def n(place):
        return plain[m - 1 - place] if 0 <= place < m else 0

    form = []
    borrow = 0
    memory = 0
    for i in range(m, -1, -1):
        s = n(i) + n(i - 1)
        if s != radix - 1:
            memory = n(i - 1)
            new = 1 if s >= radix else 0
        elif borrow == 1 and n(i - 1) == radix - 1 - memory and n(i - 1) + n(i - 2) < radix - 1:
            new = 0
        elif borrow == 0 and n(i - 1) == radix - 1 - memory and n(i - 1) + n(i - 2) >= radix:
            new = 1
        else:
            new = borrow
        form.append(n(i) + new - radix * borrow)
        borrow = new
    return form


def form_of(letter, radix, negative, plain):
    """The form that a letter gives the number that is written with these digits and this sign."""
    number = value(radix, plain)
    if letter == "L":
        form = star_form(radix, plain)
        assert value(radix, form) == number and all(abs(digit) < radix for digit in form)
        return [-digit for digit in form] if negative else form
    return only_form(letter, radix, -number if negative else number, len(plain) + 2)


# Job lines.

def goes_on(text):
    """Is there a lawful line that begins with these bytes?"""
    for radix in range(2, 17):
        for letter in b"GBL":
            head = b"%c %d " % (letter, radix)
            if head.startswith(text):
                return True
            if text.startswith(head):
                digits = b"[" + DIGITS[:radix] + b"]"
                open_end = b"-?" + digits + b"{0,%d}" % MOST_DIGITS
                ended = b"-?" + digits + b"{1,%d}\n" % MOST_DIGITS
                if re.fullmatch(open_end, text[len(head):]) or re.fullmatch(ended, text[len(head):]):
                    return True
    return False


def lawful(line):
    """Letter, radix, sign and digits of a lawful line, or None."""
    parts = re.fullmatch(rb"([GBL]) ([2-9]|1[0-6]) (-?)([0-9A-F]{1,120})\n", line)
    if parts is None:
        return None
    letter, radix, minus, spelled = parts.groups()
    plain = [DIGITS.index(byte) for byte in spelled]
    if max(plain) >= int(radix):
        return None
    return letter.decode(), int(radix), minus != b"", plain


def fault_column(line):
    """The first column, from 1, at which no lawful line goes on; one past the end if the whole line still does."""
    for column in range(1, len(line) + 1):
        if not goes_on(line[:column]):
            return column
    return len(line) + 1


def entry(number, line):
    job = lawful(line)
    if job is None:
        return "fault %d %d 8\n" % (number, fault_column(line))
    letter, radix, negative, plain = job
    form = from_top(form_of(letter, radix, negative, plain))
    shown = ",".join(str(digit) for digit in form) if form else "0"
    return "%s %d %d %s\n" % (letter, radix, weight(COST[letter], form), shown)


def lines_of(file):
    """Cut behind each line feed; what follows the last one is a line too."""
    return re.findall(rb"[^\n]*\n|[^\n]+", file)


def listing(file):
    if len(file) > MOST_BYTES:
        return "fault 0 0 2\n"
    return "".join(entry(number, line) for number, line in enumerate(lines_of(file), 1))


# The definitions against each other.

def plain_digits(radix, number):
    digits = []
    while number:
        digits.insert(0, number % radix)
        number //= radix
    return digits or [0]


def least_weight(cost, radix, number, places):
    """The least weight among all forms of a number: by what is left of it above each place."""
    best = {number: 0}
    for _ in range(places):
        lighter = {}
        for left, paid in best.items():
            low = left % radix
            for digit in {low, low - radix} if low else {0}:
                above = (left - digit) // radix
                lighter[above] = min(lighter.get(above, paid + cost(digit)), paid + cost(digit))
        best = lighter
    return best[0]


def try_all_forms(radix, places):
    """Every list of so many digits, by its value: which of them each letter gives, and that none is lighter."""
    every = {}
    for form in itertools.product(range(1 - radix, radix), repeat=places):
        every.setdefault(value(radix, form), []).append(list(form))
    for number, forms in every.items():
        if abs(number) >= radix ** (places - 1):
            continue
        plain = plain_digits(radix, abs(number))
        for letter in "GBL":
            given = from_top(form_of(letter, radix, number < 0, plain))
            assert given in map(from_top, forms), (letter, radix, number)
            least = min(weight(COST[letter], form) for form in forms)
            assert weight(COST[letter], given) == least, (letter, radix, number)
            assert least == least_weight(COST[letter], radix, number, places + 2)
            if letter != "L":
                meeting = [form for form in forms if meets(RULE[letter], radix, form)]
                assert [from_top(form) for form in meeting] == [given], (letter, radix, number)


def try_long_numbers(radix, rounds):
    for _ in range(rounds):
        plain = [random.randrange(radix) for _ in range(random.randrange(1, 40))]
        number = value(radix, plain)
        for letter in "GBL":
            for negative in (False, True):
                form = form_of(letter, radix, negative, plain)
                side = -number if negative else number
                assert value(radix, form) == side
                assert weight(COST[letter], form) == least_weight(COST[letter], radix, side, len(plain) + 3)
            mirrored = [-digit for digit in form_of(letter, radix, False, plain)]
            assert from_top(form_of(letter, radix, True, plain)) == from_top(mirrored)


def try_beginnings():
    """A text goes on if and only if some byte more, or none, makes a text that goes on; a lawful line does."""
    for text in (b"", b"G", b"B ", b"L 1", b"G 2", b"G 16", b"B 10 ", b"L 3 -", b"G 2 0", b"G 16 -F"):
        assert goes_on(text) and lawful(text) is None
        assert any(goes_on(text + bytes([byte])) for byte in range(256))
    for line in (b"G 2 0\n", b"L 16 -" + 120 * b"F" + b"\n"):
        assert goes_on(line) and lawful(line)
        assert not any(goes_on(line + bytes([byte])) for byte in range(256))
    assert not goes_on(b"G 2 2") and not goes_on(b"G 17") and not goes_on(b"G 01") and not goes_on(b"G 2 \n")
    assert not goes_on(b"G 2 " + 121 * b"0") and goes_on(b"G 2 " + 120 * b"0")


def selftest():
    random.seed(1)
    for radix in range(2, 17):
        places = {2: 9, 3: 6, 4: 5, 5: 4, 6: 4, 7: 4}.get(radix, 3)
        try_all_forms(radix, places)
        try_long_numbers(radix, 40)
    try_beginnings()
    assert listing(b"B 4 22\nL 2 1011\nG 4 0\nS 4 1\n") == "B 4 6 1,-1,-2\nL 2 3 1,1,0,-1\nG 4 0 0\nfault 4 1 8\n"
    print("the definitions agree: every form of small numbers at radices 2 to 16, and 600 long numbers")


def main(words):
    if words == ["--selftest"]:
        selftest()
    elif words:
        sys.exit(__doc__)
    else:
        sys.stdout.write(listing(sys.stdin.buffer.read()))


if __name__ == "__main__":
    main(sys.argv[1:])
