#!/usr/bin/env python3
"""What the program `digits_check` should print, from the definitions alone.

    tools/model/digits.py > crates/digits_check/stdout

It shares nothing with the crates. Least weights are found over all forms by their lowest digit, and the forms of
letters G and B by a search that must end in exactly one form.
"""
from functools import lru_cache

FREE = 10**9  # more than any form weighs

BAD_FORMS = [
    (0, [0, 0, 0, 0]), (1, [0, 0, 0, 0]), (17, [9, 9, 9, 9]), (2, [2, 0, 0, 0]), (2, [0, -2, 0, 0]),
    (2, [0, 0, 0, 2]), (2, [0, -2, 3, 2]), (16, [16, 0, 0, 0]), (16, [0, 0, -16, 0]), (16, [15, -15, 15, -16]),
    (16, [-128, 127, 15, 0]), (10, [5, 5, -5, -5]), (16, [8, -8, 8, 8]), (2, [1, 1, -1, -1]),
]
PLAIN = [
    (0, [0, 0, 0, 0]), (1, [0, 0, 0, 0]), (17, [1, 1, 1, 1]), (2, [2, 1, 1, 1]), (2, [1, 1, 1, 2]),
    (2, [1, 3, 2, 1]), (16, [15, 255, 0, 16]), (2, [1, 0, 1, 1]), (4, [1, 1, 3, 1]), (10, [5, 4, 5, 5]),
    (15, [7, 7, 14, 0]), (16, [8, 8, 15, 15]),
]


def value(radix, form):
    total = 0
    for digit in form:
        total = total * radix + digit
    return total


def beside(radix, above, digit):
    return abs(above + digit) < radix and (above * digit >= 0 or abs(digit) < abs(above))


def half(radix, above, digit):
    if 2 * abs(digit) != radix:
        return 2 * abs(digit) < radix
    return abs(above) < abs(digit) and above * digit >= 0


def meets(near, radix, form):
    return all(near(radix, above, digit) for above, digit in zip([0] + form, form))


def count_cost(digit):
    return 1 if digit else 0


def square_cost(digit):
    return digit * digit


def digits_for(radix, number):
    """The digits that a form of `number` may have in its lowest place."""
    return [d for d in range(1 - radix, radix) if (number - d) % radix == 0]


def least(radix, number, cost):
    @lru_cache(None)
    def among(number, places):
        if number == 0:
            return 0
        if places == 0:
            return FREE
        return min(cost(d) + among((number - d) // radix, places - 1) for d in digits_for(radix, number))

    places = 1
    while radix**places <= 2 * abs(number) + 2:
        places += 1
    return among(number, places + 2)


def only_form(near, radix, number, places):
    found = []

    def search(number, low_end, left):
        if left == 0:
            form = low_end[::-1]
            if number == 0 and meets(near, radix, form):
                found.append(form)
            return
        for digit in digits_for(radix, number):
            if not low_end or near(radix, digit, low_end[-1]):
                search((number - digit) // radix, low_end + [digit], left - 1)

    search(number, [], places)
    assert len(found) == 1, (radix, number, found)
    return found[0]


def star(radix, plain):
    top = len(plain)

    def n(place):
        return plain[top - 1 - place] if 0 <= place < top else 0

    borrow, memory, form = 0, 0, []
    for i in range(top, -1, -1):
        total, ahead = n(i) + n(i - 1), n(i - 1) + n(i - 2)
        new = borrow
        if total != radix - 1:
            memory, new = n(i - 1), int(total >= radix)
        elif n(i - 1) == radix - 1 - memory:
            if borrow == 1 and ahead < radix - 1:
                new = 0
            if borrow == 0 and ahead >= radix:
                new = 1
        form.append(n(i) + new - radix * borrow)
        borrow = new
    return form


def recoded(letter, radix, plain):
    if letter == "L":
        form = star(radix, plain)
    elif len(plain) <= 6:
        form = only_form(beside if letter == "G" else half, radix, value(radix, plain), len(plain) + 1)
    else:  # a long run of the highest digit
        assert set(plain) == {radix - 1}
        form = [1] + [0] * (len(plain) - 1) + [-1]
        assert meets(beside if letter == "G" else half, radix, form)
    assert value(radix, form) == value(radix, plain)
    return form


def refusal(radix, digits, most, below):
    if not 2 <= radix <= 16:
        return "refused 1 at 0"
    if len(digits) > most:
        return "refused 2 at 0"
    for i, digit in enumerate(digits):
        if not below(digit):
            return f"refused 5 at {len(digits) - 1 - i}"
    return None


def form_refusal(radix, form):
    return refusal(radix, form, 121, lambda d: abs(d) < radix)


def shown(digits):
    return "(" + ",".join(map(str, digits)) + ")"


def settled(radix, form, area):
    fault = form_refusal(radix, form) or ("refused 21 at 0" if len(area) < len(form) else None)
    sign = fault
    if fault is None:
        number = value(radix, form)
        sign = "-" if number < 0 else "+"
        number, plain = abs(number), []
        for _ in form:
            plain.insert(0, number % radix)
            number //= radix
        area = plain + area[len(form):]
    places = len(form)
    return f"{sign} " + shown(area[: places + 1] if places < 6 and places < len(area) else area[:2])


def judged(radix, form):
    verdict = form_refusal(radix, form)
    if verdict is None:
        number = value(radix, form)
        letters = ("G" if meets(beside, radix, form) else "-") + ("B" if meets(half, radix, form) else "-")
        weights = [sum(map(cost, form)) for cost in (count_cost, square_cost)]
        weights += [least(radix, number, cost) for cost in (count_cost, square_cost)]
        verdict = " ".join([letters, *map(str, weights)])
    name = shown(form) if len(form) < 6 else f"[{len(form)} places]"
    print(f"{radix} {name}: {verdict} | {settled(radix, form, [9] * 122)}")


def recode_lines(radix, plain, room, call="recode"):
    for letter in "GBL":
        area = [99] * room
        fault = refusal(radix, plain, 120, lambda d: d < radix) or ("refused 21 at 0" if room < len(plain) + 1 else None)
        if fault is None:
            form = recoded(letter, radix, plain)
            if call == "minus":
                form = [-d for d in form]
            area = form + area[len(form):]
        print(f"{call} {radix}: {fault or 'made'} {shown(area[:7])}")


def signed_lines(radix, plain, room):
    for call in ("plus", "minus"):
        recode_lines(radix, plain, room, call)


def mirror_line(radix, form):
    fault = form_refusal(radix, form)
    print(f"mirror {radix}: {fault or 'made'} {shown(form if fault else [-d for d in form])}")


def weigh_line(form):
    weights = [str(sum(map(cost, form))) if len(form) <= 121 else "refused 2 at 0" for cost in (count_cost, square_cost)]
    print(f"weigh [{len(form)} places]: {', '.join(weights)}")


def main():
    for places in range(6):
        for radix in (2, 3):
            span = 2 * radix - 1
            for code in range(span**places):
                judged(radix, [code // span**j % span - (radix - 1) for j in range(places)])
    for radix, form in BAD_FORMS:
        judged(radix, form)
    for radix in (2, 16):
        judged(radix, [0] * 121)
        judged(radix, [0] * 122)
    for radix in (16, 15):
        judged(radix, [15] + [0] * 119 + [-15])
    print("short area | " + settled(10, [1, -2, 3], [7, 7]))
    for radix, plain in PLAIN:
        recode_lines(radix, plain, 5)
    for plain, room in (([1, 8, 1, 9], 6), ([1, 8, 1, 9], 4), ([], 1), ([], 0)):
        recode_lines(10, plain, room)
    recode_lines(16, [15] * 120, 121)
    recode_lines(16, [15] * 121, 122)
    for radix, form in BAD_FORMS:
        mirror_line(radix, form)
    for form in ([3, 0, -2, 15], [-128, 127], [1] * 121, [1] * 122):
        weigh_line(form)
    for radix, plain in PLAIN:
        signed_lines(radix, plain, 6)
    for radix, plain, room in ((10, [1, 8, 1, 9], 4), (10, [], 1), (10, [], 0), (16, [15] * 120, 121), (16, [15] * 121, 122)):
        signed_lines(radix, plain, room)
    for number in (0, 1, 2, 10, 16, 17, 255):
        print(f"radix {number}" if 2 <= number <= 16 else f"{number} is no radix")
    for character in "GBLAg1 ":
        print(f"letter {character}" if character in "GBL" else f"{character}: none of the letters")


if __name__ == "__main__":
    main()
