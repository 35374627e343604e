"""The cases, in groups. Each group is a function that gives its cases; its first line of text is the group's note."""

import itertools

import link1
import lines
from values import (FIRST, LEGAL_PAIRS, LENT, N, P, Q, SECOND, T, Stream, changed, checks_kept, image, label_bits,
                    message, turned, turned_in_both, turned_in_message, word_image)

LENT16 = LENT[:16]
PLAIN16 = bytes([0x5a]) * 16

# A legal pair for a message of each kind in each place that it may have: the other message of the pair.
PLACES = (("S4", 1, "Blank"), ("S4", 2, "S6"), ("S4+", 1, "S3"), ("S6", 1, "Blank"), ("S6", 2, "S4"),
          ("S8", 1, "Blank"), ("S8", 2, "S4"), ("S8+", 1, "S5"), ("S3", 2, "S4+"), ("S5", 2, "S4+"), ("S3", 2, "S8+"),
          ("S5", 2, "S8+"), ("S9", 1, "S9"), ("S9", 2, "S9"))


def pair_of(given, which, other):
    """This message in its place and a message of the other kind, all zero."""
    return (given, message(other)) if which == 1 else (message(other), given)


def closes(pairs, buffer=PLAIN16):
    return [lines.close_pair(first, second, buffer) for first, second in pairs]


def opens(images):
    return [lines.open_image(octets) for octets in images]


# 01 'Examples to hold against it'.

def examples():
    """The examples of the scope paper."""
    track, strobe, blank = message("S4", number=5203, quality=3), message("S6"), message("Blank")
    cases = [lines.verdict(T), lines.open_image(T), lines.verdict(N), lines.open_image(N), lines.verdict(P),
             lines.open_image(P), lines.verdict(Q), lines.open_image(Q),
             ("verdict x00 xba*14 xff", "0 0 0"), ("open x00ba*14 xff", "0 0 0 S0 S0"),
             ("open x00c480*13 xbb", "0 0 0 S4 number 0 quality 0 x 0 y 0 Blank")]
    for octets in (P[:15] + b"\xba", P[:15] + b"\xb9", b"\x01" + P[1:], P[:15]):
        cases += [lines.verdict(octets), lines.open_image(octets)]
    cases += closes([(message("S0"), message("S0")), (message("Blank"), message("Blank")),
                     (message("S4"), message("Blank")), (message("S4+"), message("S5")),
                     (message("S4+"), message("Blank"))])
    for step, offsets in ((1, [374]), (1, [375]), (-1, [-375]), (0, [400, 400]), (4095, [374]), (4095, [375]),
                          (-4096, [-374]), (-4096, [-375])):
        for first, second in ((changed(track, x=step), blank), (strobe, changed(track, x=step))):
            cases += relays([image(first, second)], offsets, [])
        for first, second in ((changed(track, y=step), blank), (strobe, changed(track, y=step))):
            cases += relays([image(first, second)], [], offsets)
    cases += [lines.altitude(feet) for feet in (562, 563, 191812, 191813)]
    for text in (b"EG123", b"MM777", b"BA000", b"AA000"):
        cases.append(lines.track_number(text, ["=" + text.decode("ascii")]))
    cases += [lines.track_text(number, LENT[:5]) for number in (5203, 32767, 0)]
    cases += [lines.search(start, b"") for start in (0, 1)] + [lines.search(start, P) for start in (0, 128, 129)]
    return cases


# 01 'Messages', labels; 01 'Numbers a caller may get back'.

def names():
    """Every label, kind and number by itself."""
    cases = [lines.numbers()]
    cases += [lines.label(kind) for kind in link1.KINDS]
    cases += [lines.kind_named(number) for number in range(256)]
    cases += [lines.kind_of(message(kind)) for kind in link1.KINDS]
    cases += [lines.kind_of(given) for given in (FIRST["S4"], FIRST["S6"], SECOND["S3"], SECOND["S5"], FIRST["S9"])]
    cases += [lines.kind_of(message("S3", request=7, mode1=65535)), lines.kind_of(message("S8+", x=32767, y=-32768)),
              lines.kind_of(message("S9", area=255, site=255, number=255, drop=1, x=-32768, y=32767))]
    cases += [lines.refusal_of(number) for number in (*link1.NUMBERS, 16, 17, 63, 64, 127, 128, 200, 254, 255)]
    for place in (0, 1, 2, 3, 4, 9, 128, 255):
        cases += [lines.refusal_at(number, place) for number in (*link1.NUMBERS, 16, 128, 255)]
    for number in (*link1.NUMBERS, 16, 255):
        cases += [lines.refusal_inside(number, place, bit) for place, bit in ((0, 0), (1, 7), (2, 49), (255, 255))]
    cases += [lines.refusal_inside(13, 2, bit) for bit in (*range(49), 50, 63, 64, 127, 128, 200, 254, 255)]
    return cases


# 01 'Which pairs may share a frame'.

def pairs_closed():
    """Every entry of the pair table, on closing."""
    return closes([(message(first), message(second)) for first in link1.KINDS for second in link1.KINDS], LENT16)


def pairs_opened():
    """Every entry of the pair table, on opening."""
    return opens([image(message(first), message(second)) for first in link1.KINDS for second in link1.KINDS])


def labels_opened():
    """Every label in the first place and in the second, beside known labels and unknown ones."""
    cases = []
    for label in range(64):
        for before, behind in ((17, 0), (24, 37), (5, 5)):
            cases += opens([word_image(label_bits(label), label_bits(behind)),
                            word_image(label_bits(before), label_bits(label))])
    return cases


# 01 'Messages', the fields; 001 Annex C Appendix 3.

def whole_messages():
    """Each legal pair with fields that all differ, closed and opened."""
    pairs = [(FIRST[first], SECOND[second]) for first, second in LEGAL_PAIRS]
    return closes(pairs, LENT16) + opens([image(*pair) for pair in pairs])


def random_messages():
    """Each legal pair with random-looking fields, closed and opened."""
    stream = Stream(1)
    cases = []
    for first, second in LEGAL_PAIRS * 6:
        pair = (stream.message(first), stream.message(second))
        cases += closes([pair]) + opens([image(*pair)])
    return cases


def fields_whole():
    """Each field alone, all its bits set, closed and opened."""
    cases = []
    for kind, which, other in PLACES:
        for word, first, last in link1.FIELDS[kind]:
            lowest, highest = link1.field_range(word, first, last)
            pair = pair_of(message(kind, **{word: -1 if lowest < 0 else highest}), which, other)
            cases += closes([pair]) + opens([image(*pair)])
    return cases


def field_bits_closed():
    """Each bit of each field alone, on closing."""
    cases = []
    for kind, which, other in PLACES:
        for word, first, last in link1.FIELDS[kind]:
            for n in range(first, last + 1):
                value = 2 ** (n - first)
                if word in link1.SIGNED and n == last:
                    value = -value
                cases += closes([pair_of(message(kind, **{word: value}), which, other)])
    return cases


def bits_opened():
    """Each bit of a message alone above its label, on opening."""
    return opens([turned_in_message(*pair_of(message(kind), which, other), which, n)
                  for kind, which, other in PLACES for n in range(7, 50)])


def bits_missing():
    """Each bit of a message turned where the fields all differ, on opening."""
    images = []
    for first, second in (("S4", "S6"), ("S8+", "S3"), ("S4+", "S5"), ("S6", "S8"), ("S9", "S9")):
        images += [turned_in_message(FIRST[first], SECOND[second], which, n) for which in (1, 2) for n in range(1, 50)]
    return opens(images)


# The fields that a call holds in 16 bits; the track number too, but not the strobe number and the corner number.
WIDE = ("altitude", "azimuth", "mode1", "mode2", "mode3a")


def field_values(word, first, last):
    """Both ends of a field's range, one beyond each, and far beyond, as far as the call's type holds them."""
    lowest, highest = link1.field_range(word, first, last)
    if word in link1.SIGNED:
        return (lowest, lowest - 1, highest, highest + 1, 0, 255, 256, -256, -8192, 8192, 32767, -32768)
    if highest == 1:
        return (0, 1)
    if word in WIDE or word == "number" and highest > 255:
        return (0, highest, highest + 1, highest + 2, 255, 256, 32767, 32768, 65535)
    return tuple(value for value in (0, highest, highest + 1, 2 * highest + 2, 128, 255) if value <= 255)


def field_ranges():
    """Each field at both ends of its range and beyond, on closing."""
    cases = []
    for kind, which, other in PLACES:
        for word, first, last in link1.FIELDS[kind]:
            cases += closes([pair_of(message(kind, **{word: value}), which, other)
                             for value in field_values(word, first, last)], LENT16)
    return cases


# The code fields, those of up to four bits.
CODES = (("S3", "request"), ("S3", "emergency"), ("S3", "validation"), ("S4", "quality"), ("S4+", "quality"),
         ("S8", "quality"), ("S8+", "quality"), ("S5", "strength"), ("S5", "identification"), ("S5", "special23"),
         ("S5", "simulated"), ("S5", "drop"), ("S5", "traffic"), ("S5", "allocation"), ("S5", "special39"),
         ("S6", "acquisition"), ("S6", "width"), ("S6", "strobe_type"), ("S6", "simulated"), ("S6", "sensor"),
         ("S6", "elevation"), ("S9", "area"), ("S9", "number"), ("S9", "drop"))


def codes():
    """Every value of every code field, closed and opened."""
    cases = []
    for kind, which, other in PLACES:
        for word, first, last in link1.FIELDS[kind]:
            if (kind, word) in CODES:
                values = range(2 ** (last - first + 1))
                pairs = [pair_of(message(kind, **{word: value}), which, other) for value in values]
                cases += closes(pairs, LENT16) + opens([image(*pair) for pair in pairs])
    return cases


def small_numbers():
    """Every value of Mode 1, strobe number, a strobe's site and an area's, and age."""
    cases = []
    for kind, word, which, other in (("S3", "mode1", 2, "S8+"), ("S6", "number", 1, "S4"), ("S6", "site", 2, "S6"),
                                     ("S6", "age", 1, "S8"), ("S9", "site", 1, "S9"), ("S9", "site", 2, "S9")):
        first, last = next((first, last) for name, first, last in link1.FIELDS[kind] if name == word)
        pairs = [pair_of(message(kind, **{word: value}), which, other) for value in range(2 ** (last - first + 1))]
        cases += opens([image(*pair) for pair in pairs]) + closes(pairs[::3])
    return cases


def signed_patterns():
    """Positions and velocities around zero and at their ends, closed and opened."""
    cases = []
    for kind, which, other in PLACES:
        for word, first, last in link1.FIELDS[kind]:
            if word in link1.SIGNED:
                lowest, highest = link1.field_range(word, first, last)
                pairs = [pair_of(message(kind, **{word: value}), which, other)
                         for value in (lowest, lowest + 1, -2, -1, 1, highest)]
                cases += closes(pairs) + opens([image(*pair) for pair in pairs])
    return cases


# 01 'Messages', Blank, S.0, S.3 and spare bits; 02 Item 2, absent modes.

def test_message():
    """The test message with each of its bits turned, first and second."""
    both = (message("S0"), message("S0"))
    cases = closes([both], LENT16)
    return cases + opens([turned_in_message(*both, which, n) for which in (1, 2) for n in range(1, 50)])


def blank_message():
    """Blank with each of its bits one, behind S.4, S.6 and S.8."""
    return opens([turned_in_message(FIRST[first], message("Blank"), 2, n) for first in ("S4", "S6", "S8")
                  for n in range(1, 50)])


def modes_opened():
    """Presence bits in every combination with code bits, and each code bit of an absent or present mode."""
    present = {25: (31, 35), 26: (38, 49), 27: (9, 20)}
    base = (FIRST["S8+"], message("S3"))
    images = []
    for chosen in range(8):
        shown = [n for n in present if chosen // 2 ** (n - 25) % 2 == 1]
        for filled in range(8):
            coded = [present[n][filled % 2] for n in present if filled // 2 ** (n - 25) % 2 == 1]
            images.append(turned_in_message(*base, 2, *shown, *coded))
    for n, (first, last) in present.items():
        others = [other for other in present if other != n]
        for code in range(first, last + 1):
            images += [turned_in_message(*base, 2, n, code), turned_in_message(*base, 2, *others, code)]
    return opens(images)


def modes_closed():
    """Each mode absent, present with code 0, present with a code and too wide, in every combination."""
    values = {"mode1": (None, 0, 13, 32), "mode2": (None, 0, 0x3a5, 4096), "mode3a": (None, 0, 0xd16, 4096)}
    return closes([(message("S4+"), message("S3", mode1=mode1, mode2=mode2, mode3a=mode3a)) for mode1 in values["mode1"]
                   for mode2 in values["mode2"] for mode3a in values["mode3a"]], LENT16)


# 01 'Messages', S.3: the bit numbers of each mode's code.
MODES = {word: tuple(range(first, last + 1)) for word, first, last in link1.FIELDS["S3"] if word in link1.PRESENCE}


def digits_of(*words):
    """The bit numbers of these modes' codes."""
    return [n for word in words for n in MODES[word]]


def filled(kind):
    """A message of another kind than S.3 with ones where S.3 has its codes and zeros where it has its presence bits."""
    bits = {n: 1 if n in digits_of(*MODES) else 0 for n in range(1, 50)}
    if kind == "S6":
        bits[42] = 0  # 01 'Messages': elevation 15 is not used; this one is 11
    return link1.read_message(kind, bits)


def digits_in_modes():
    """Modes to hold and bits to set besides: digits in each choice of absent modes, and none in modes that hold 0."""
    codes = {"mode3a": 0xc53, "mode1": 0x0b, "mode2": 0x72a}
    given = [(dict.fromkeys(MODES, 0), []), ({}, digits_of(*MODES))]
    for chosen in range(1, 7):
        absent = [word for place, word in enumerate(MODES) if chosen // 2 ** place % 2 == 1]
        others = [word for word in MODES if word not in absent]
        given += [(held, digits_of(*absent))
                  for held in ({}, dict.fromkeys(others, 0), {word: codes[word] for word in others})]
    for absent, numbers in MODES.items():
        others = {word: codes[word] for word in MODES if word != absent}
        given += [(held, [n]) for n in (numbers[0], numbers[-1]) for held in ({}, others)]
    return given


def images_with_digits():
    """S.3 with digits in absent modes, behind S.4+ and S.8+ with ones in the same places or with fields that differ."""
    rest = ({}, {"request": 2}, {"request": 4, "emergency": 1}, {"validation": 1},
            {"request": 2, "emergency": 1, "validation": 1})
    images = []
    for number, (held, digits) in enumerate(digits_in_modes()):
        for turn, kind in enumerate(("S4+", "S8+"), number):
            first = filled(kind) if turn % 2 == 0 else FIRST[kind]
            images.append(turned_in_message(first, message("S3", **held, **rest[turn % 5]), 2, *digits))
    return images


def random_images_with_digits():
    """S.3 of random-looking bits, no spare bit and no request that is not used among them, behind S.4+ and S.8+."""
    stream = Stream(10)
    images = []
    for kind in ("S4+", "S8+") * 12:
        bits = stream.word()
        link1.write_bits(bits, 1, 6, link1.LABELS["S3"])
        link1.write_bits(bits, 21, 23, (0, 2, 4)[stream.below(3)])
        for n in link1.SPARE["S3"]:
            bits[n] = 0
        images.append(word_image(link1.message_bits(stream.message(kind)), bits))
    return images


def opened_and_closed(octets, buffer):
    """An accepted image opened, and what it opened as closed: 02 Item 2 says that this gives the image zeroed."""
    result, pair = link1.open_image(octets)
    after = link1.zeroed(octets)
    assert result == link1.GOOD and link1.close_pair(*pair, buffer) == (link1.GOOD, after)
    assert link1.zeroed(after) == after and link1.open_image(after) == (link1.GOOD, pair)
    call, _ = lines.close_pair(*pair, buffer)
    return opens([octets]) + [(call, lines.answer(link1.GOOD, lines.octet_part(after)))]


def refused(result, images):
    """Images opened that are all refused so."""
    assert all(link1.open_image(octets)[0] == result for octets in images)
    return opens(images)


def digits_refused():
    """Digits in absent modes beside a spare bit, a request, a check bit, a mark, a label or a pair that is refused."""
    first, digits = FIRST["S8+"], digits_of(*MODES)
    octets = turned_in_message(first, message("S3", emergency=1), 2, *digits)
    part = digits_of("mode2", "mode3a")
    cases = []
    for n in link1.SPARE["S3"]:
        cases += refused((13, 2, n), [turned_in_message(first, given, 2, n, *some)
                                      for given, some in ((message("S3"), digits), (message("S3", mode1=21), part))])
    cases += refused((14, 2, 21), [turned_in_message(message("S4+"), message("S3", request=code), 2, *some)
                                   for code in link1.NOT_USED["request"] for some in (digits, MODES["mode3a"])])
    cases += refused((5, 0, 0), [turned(octets, 121 + j) for j in range(1, 7)])
    cases += refused((4, 0, 0), [turned(octets, 73)]) + refused((3, 0, 0), [turned(octets, 8)])
    left = {**link1.message_bits(message("S3")), **dict.fromkeys(digits, 1)}
    cases += refused((6, 1, 0), [word_image(label_bits(37), left)])
    cases += refused((6, 2, 0), [word_image(left, label_bits(37))])
    cases += refused((7, 0, 0), [turned_in_message(message("S3"), message(kind), 1, *digits) for kind in link1.KINDS])
    cases += refused((7, 0, 0), [turned_in_message(message(kind), message("S3"), 2, *digits) for kind in link1.KINDS
                                 if kind not in ("S4+", "S8+")])
    return cases


def digits_left():
    """Digits left in absent modes: opened, closed with zeros there, opened again; beside what is still refused."""
    cases = []
    for number, octets in enumerate(images_with_digits() + random_images_with_digits()):
        after = link1.zeroed(octets)
        buffer = LENT16 if number % 3 == 0 or after == octets else octets
        cases += opened_and_closed(octets, buffer) + opens([after])
        if number % 4 == 1:
            cases.append(lines.verdict(checks_kept(octets)))
    return cases + digits_refused()


def digits_elsewhere():
    """Ones where S.3 has its codes, in each legal pair of other kinds: opened, and closed to the same image."""
    cases = []
    for first, second in LEGAL_PAIRS:
        if second != "S3":
            octets = image(filled(first), filled(second))
            assert link1.zeroed(octets) == octets
            cases += opened_and_closed(octets, LENT16)
    return cases


def spare_bits():
    """Each spare bit of S.3 and of S.9 and every two, by themselves, with every mode present, with every field full."""
    full = message("S3", mode1=0x15, mode2=0x9c1, mode3a=0x2f4, request=2, validation=1)
    images, spare = [image(message("S4+"), full)], link1.SPARE["S3"]
    for base in (message("S3"), full):
        images += [turned_in_message(message("S4+"), base, 2, n) for n in spare]
        images += [turned_in_message(message("S8+"), base, 2, n, m) for n in spare for m in spare if n < m]
    full, spare = message("S9", area=3, site=63, number=3, drop=1, x=-1, y=-1), link1.SPARE["S9"]
    images.append(image(full, full))
    for base in (message("S9"), full):
        for which in (1, 2):
            images += [turned_in_message(base, base, which, n) for n in spare]
            images += [turned_in_message(base, base, which, n, m) for n in spare for m in spare if n < m]
    return opens(images)


# 02 Item 4: what is wrong inside a message, of several troubles the one at the lowest bit.

def choices_of(numbers, least):
    """Every choice of so many of these bit numbers or more."""
    return [chosen for length in range(least, len(numbers) + 1) for chosen in itertools.combinations(numbers, length)]


def some_from(stream, numbers):
    """One of these bit numbers, the lowest, and random-looking ones above it."""
    lowest = stream.below(len(numbers))
    return [n for at, n in enumerate(numbers) if at == lowest or at > lowest and stream.below(3) == 0]


def broken_patterns():
    """Blank and S.0 with two bits wrong, a whole group, random-looking ones and all, opened: the lowest is told."""
    stream, cases, test = Stream(11), [], message("S0")
    for first, second, which in ((test, test, 1), (test, test, 2), (FIRST["S8"], message("Blank"), 2)):
        chosen = [(n, n + 1) for n in range(7, 49)]
        chosen += [(n, 49) for n in range(7, 48, 3)] + [(7, n) for n in range(9, 49, 3)]
        chosen += [range(7 * group + 1, 7 * group + 8) for group in range(1, 7)] + [range(7, 50)]
        chosen += [some_from(stream, range(7, 50)) for _ in range(24)]
        for numbers in chosen:
            cases += refused((12, which, min(numbers)), [turned_in_message(first, second, which, *numbers)])
    pattern, zeros = link1.message_bits(test), label_bits(link1.LABELS["S0"])
    above_blank = {n: 0 if n <= 6 else pattern[n] for n in range(1, 50)}
    cases += refused((12, 1, 9), [word_image(zeros, pattern), word_image(zeros, zeros)])
    return cases + refused((12, 2, 9), [word_image(pattern, zeros),
                                        word_image(link1.message_bits(FIRST["S6"]), above_blank)])


def spare_beside_codes():
    """Spare bits of S.3 beside a request that is not used, three and more of S.9, opened: the lowest bit is told."""
    spare, requests, cases = link1.SPARE["S3"], link1.NOT_USED["request"], []
    for number, chosen in enumerate(choices_of(spare, 1)):
        result = (13, 2, chosen[0]) if chosen[0] < 21 else (14, 2, 21)
        for code in requests if len(chosen) == 1 else [requests[number % 5]]:
            given = changed(SECOND["S3"] if number % 2 == 0 else message("S3"), request=code)
            cases += refused(result, [turned_in_message(FIRST["S8+"], given, 2, *chosen)])
    for chosen in choices_of(link1.SPARE["S9"], 3):
        for which in (1, 2):
            cases += refused((13, which, chosen[0]),
                             [turned_in_message(FIRST["S9"], SECOND["S9"], which, *chosen)])
    return cases


def wrong_values(kind):
    """The fields that a call may hold wrong: for each a list of what is too wide, and one of codes not used if any."""
    fields = {}
    for word, first, last in link1.FIELDS[kind]:
        lowest, highest = link1.field_range(word, first, last)
        wide = [value for value in field_values(word, first, last) if value < lowest or value > highest]
        if wide:
            fields[word] = [wide, link1.NOT_USED[word]] if word in link1.NOT_USED else [wide]
    return fields


def wrong_in_two(kind):
    """Messages with every two fields wrong, each too wide and each with a code that is not used."""
    fields, given = wrong_values(kind), []
    for one, two in itertools.combinations(fields, 2):
        for ones, twos in itertools.product(fields[one], fields[two]):
            turn = len(given)
            given.append(message(kind, **{one: ones[turn % len(ones)], two: twos[turn % len(twos)]}))
    return given


def wrong_from_each_on(kind):
    """Messages with all fields wrong from each on, three and more: all too wide, and others with codes not used."""
    fields, given = wrong_values(kind), []
    for at, way in itertools.product(range(len(fields) - 2), (0, -1)):
        wrong = {word: values[way] for word, values in list(fields.items())[at:]}
        given.append(message(kind, **{word: values[(at + way) % len(values)] for word, values in wrong.items()}))
    return given


def troubles_closed():
    """Every two fields of a message wrong, and all from each on, closed: the lowest bit is told."""
    cases = []
    for kind, which, other in PLACES:
        wrong = wrong_in_two(kind) + wrong_from_each_on(kind)
        cases += closes([pair_of(given, which, other) for given in wrong], LENT16)
    return cases


def codes_too_wide():
    """Numbers that are too wide and whose lowest bits are a code that is not used, closed: too wide is told."""
    cases = []
    for kind, which, other in PLACES:
        for word, first, last in link1.FIELDS[kind]:
            values = 2 ** (last - first + 1)
            cases += closes([pair_of(message(kind, **{word: code + values * times}), which, other)
                             for code in link1.NOT_USED.get(word, ()) for times in (1, 2, 14)], LENT16)
    return cases


def random_wrong(stream, kind):
    """A message of random-looking fields, some of them wrong."""
    given = stream.message(kind)
    for word, ways in wrong_values(kind).items():
        if stream.below(4) == 0:
            values = ways[stream.below(len(ways))]
            given = changed(given, **{word: values[stream.below(len(values))]})
    return given


def random_troubles():
    """Random-looking fields beside spare bits and codes that are not used, opened; some of them wrong, closed."""
    stream, images = Stream(12), []
    for number in range(48):
        given = stream.message("S3")
        if number % 3 != 0:
            given = changed(given, request=stream.below(8))
        images.append(turned_in_message(stream.message(("S4+", "S8+")[number % 2]), given, 2,
                                        *some_from(stream, link1.SPARE["S3"])))
        images.append(turned_in_message(stream.message("S9"), stream.message("S9"), number % 2 + 1,
                                        *some_from(stream, link1.SPARE["S9"])))
    for number in range(12):
        strobe = changed(stream.message("S6"), elevation=13 + number % 3)
        images += [image(stream.message(("S4+", "S8+")[number % 2]), changed(stream.message("S5"), strength=1)),
                   image(strobe, stream.message("S8")), image(stream.message("S4"), strobe)]
    return opens(images) + closes([(random_wrong(stream, first), random_wrong(stream, second))
                                   for first, second in LEGAL_PAIRS * 5 if first != "S0"], LENT16)


def both_wrong_opened():
    """Something wrong in each message, opened: the first message's is told, also where the second's bit is lower."""
    test, blank, spare, elevations = message("S0"), message("Blank"), link1.SPARE["S9"], link1.NOT_USED["elevation"]
    cases = []
    for n in range(7, 50):
        cases += refused((12, 1, n), [turned_in_both(test, [n], test, [56 - n])])
    cases += refused((14, 1, 40), [turned_in_both(message("S6", elevation=elevations[n % 3]), [], blank, [n])
                                   for n in range(7, 50)])
    cases += refused((14, 1, 40), [image(message("S6", elevation=one), message("S6", elevation=two))
                                   for one in elevations for two in elevations])
    for n in spare:
        cases += refused((13, 1, n), [turned_in_both(FIRST["S9"], [n], SECOND["S9"], [m]) for m in spare])
    return cases


def both_wrong_closed():
    """A field wrong in each message, closed: the first message's is told, also where the second's bit is lower."""
    pairs = []
    for first, second in LEGAL_PAIRS:
        ones = [(word, values) for word, ways in wrong_values(first).items() for values in ways]
        twos = [(word, values) for word, ways in wrong_values(second).items() for values in ways]
        chosen = [(one, twos[0]) for one in ones] + [(ones[-1], two) for two in twos[1:]] if ones and twos else []
        for number, ((one, one_values), (two, two_values)) in enumerate(chosen):
            pairs.append((message(first, **{one: one_values[number % len(one_values)]}),
                          message(second, **{two: two_values[number % len(two_values)]})))
    return closes(pairs, LENT16)


# 01 'From levels to a frame', the good frame.

# The bits of a frame that are not message bits.
FRAMING = (*range(1, 9), *link1.MARKS, *range(122, 128))


def frame_bits():
    """Each frame bit turned, of an example and of a pair with fields that all differ: verdict and opening."""
    other = image(FIRST["S6"], SECOND["S8"])
    cases = [lines.verdict(turned(octets, n)) for octets in (N, other) for n in range(1, 129)]
    return cases + opens([turned(other, n) for n in range(1, 129)])


def check_bits():
    """Each message bit by itself with right check bits, and two turned in one column or in two."""
    blank = message("Blank")
    cases = []
    for which in (1, 2):
        cases += [lines.verdict(turned_in_message(blank, blank, which, n)) for n in range(1, 50)]
    for j in range(1, 8):
        for group in range(1, 15):
            there, same_column, other_column = 8 * group + 1 + j, 8 * (group % 14 + 1) + 1 + j, 8 * group + 2 + j % 7
            cases += [lines.verdict(turned(P, there, other)) for other in (same_column, other_column)]
            if j < 7:
                cases.append(lines.verdict(turned(T, there, 121 + j)))
    return cases


def octets_judged():
    """Random-looking octets, random words in good frames, legal labels above random bits."""
    stream = Stream(2)
    cases = []
    for _ in range(20):
        octets = stream.octets(16)
        cases += [lines.verdict(octets), lines.open_image(octets), lines.verdict(b"\x00" + octets[1:])]
    for _ in range(40):
        octets = word_image(stream.word(), stream.word())
        cases += [lines.verdict(octets), lines.open_image(octets)]
    for first, second in LEGAL_PAIRS * 6:
        words = (stream.word(), stream.word())
        link1.write_bits(words[0], 1, 6, link1.LABELS[first])
        link1.write_bits(words[1], 1, 6, link1.LABELS[second])
        cases.append(lines.open_image(word_image(*words)))
    return cases


def lengths():
    """Images and buffers of every wrong length about the right one."""
    cases = []
    for length in (*range(0, 36), 127, 128, 129, 255, 256):
        octets = (T * 16)[:length]
        cases += [lines.verdict(octets), lines.open_image(octets)]
        if length != 16:
            cases.append(lines.close_pair(message("S0"), message("S0"), LENT[:length]))
    cases += [lines.close_pair(FIRST["S4"], SECOND["S6"], LENT[:length]) for length in (0, 1, 15, 17, 32, 128)]
    return cases


# 01 'Orders of checks'.

# What an area's corner is refused for, a field each: a number too wide for it.
BAD_CORNERS = ({"area": 4}, {"site": 64}, {"number": 4}, {"x": 4096}, {"y": -4097})


def faulty_image(faults):
    """An image with these of the faults 2 3 4 5 6a 6b 7 'in a' 'in b'; a is the first message and b the second."""
    first, second = message("S6", age=1), message("S6", age=2)
    if "7" in faults:
        first, second = (message("S3"), second) if "in a" in faults or "6b" in faults else (first, message("S5"))
    faulty = {"S6": (40, 42, 43), "S3": (7,), "S5": (16,)}
    bits = {1: link1.message_bits(first), 2: link1.message_bits(second)}
    for which, fault, kind in ((1, "in a", first[0]), (2, "in b", second[0])):
        if fault in faults:
            for n in faulty[kind]:
                bits[which][n] = 1
    if "6a" in faults:
        link1.write_bits(bits[1], 1, 6, 22)
    if "6b" in faults:
        link1.write_bits(bits[2], 1, 6, 50)
    turns = [number for fault, number in (("3", 5), ("4", 73), ("5", 125)) if fault in faults]
    octets = turned(word_image(bits[1], bits[2]), *turns)
    return octets[:15] if "2" in faults else octets


def order_of_opening():
    """Opening: each fault, every two of them, all from each on, told as the first; S.9 with spare bits by each kind."""
    faults = ("2", "3", "4", "5", "6a", "6b", "7", "in a", "in b")
    chosen = [[fault] for fault in faults] + [[one, two] for at, one in enumerate(faults) for two in faults[at + 1:]]
    chosen += [list(faults[at:]) for at in range(len(faults) - 2)] + [[]]
    cases = []
    for some in chosen:
        octets = faulty_image(some)
        cases += [lines.open_image(octets), lines.verdict(octets)]
    labelled = [(22, "S4+"), (22, "Blank"), ("S5", 50), ("Blank", 50), ("S3", 63), (63, "S8+"), (1, 2), ("S0", 47),
                (47, "S0")]
    for labels in labelled:
        first, second = (label_bits(link1.LABELS.get(label, label)) for label in labels)
        cases.append(lines.open_image(word_image(first, second)))
    for first, second in (("S0", "S0"), ("S6", "Blank"), ("S6", "S6")):
        bits = link1.message_bits(message(first)), link1.message_bits(message(second))
        for n in (40, 42, 43):
            bits[0][n] = bits[1][n] = 1
        cases.append(lines.open_image(word_image(*bits)))
    others = [label for label in (*link1.LABELS.values(), 37) if label != 5]
    for labels in [(5, 5)] + [(5, label) for label in others] + [(label, 5) for label in others]:
        bits = label_bits(labels[0]), label_bits(labels[1])
        for n in (10, 23):
            bits[0][n] = bits[1][n] = 1
        cases.append(lines.open_image(word_image(*bits)))
    return cases


def order_of_closing():
    """Closing: every choice of its faults, told as the first, and the buffer stays."""
    cases = []
    bad = {"S3": {"mode2": 4096}, "S4": {"quality": 4}, "S5": {"strength": 1}, "S6": {"age": 64}, "S9": {"site": 64}}
    for kind, faulty, right, wrong in (("S6", {"elevation": 13}, "S6", "S5"), ("S4", {"quality": 4}, "S6", "S3"),
                                       ("S9", {"area": 4}, "S9", "S4"), ("S4", {"x": 4096}, "S4", "S9")):
        for chosen in range(16):
            length, wrong_pair, wrong_first, wrong_second = (chosen // 8, chosen // 4 % 2, chosen // 2 % 2, chosen % 2)
            first = message(kind, **(faulty if wrong_first else {}))
            other = wrong if wrong_pair else right
            second = message(other, **(bad[other] if wrong_second else {}))
            cases.append(lines.close_pair(first, second, LENT[:(15, 17)[chosen % 2]] if length else LENT16))
    bad_first = (message("S3", request=1), message("S5", altitude=512), message("S4+", x=4096), message("S8+", y=-4097),
                 message("S9", number=4))
    bad_second = (message("S3", mode1=32), message("S5", vx=128), message("S4+", quality=4),
                  message("S8+", number=32768), message("S9", y=4096))
    cases += [lines.close_pair(first, second, LENT16) for first in bad_first for second in bad_second]
    cases += [lines.close_pair(message("Blank"), message("S4", x=4096), LENT16),
              lines.close_pair(message("S4", x=4096), message("S0"), LENT16)]
    cases += [lines.close_pair(changed(FIRST["S9"], **first), changed(SECOND["S9"], **second), LENT16)
              for first in ({}, *BAD_CORNERS) for second in ({}, *BAD_CORNERS)]
    return cases


def order_of_sending():
    """Sending: every choice of its faults, told as the first, and the buffer stays."""
    cases = []
    for chosen in range(64):
        wrong = [chosen // 2 ** place % 2 == 1 for place in range(6)]
        octets = image(FIRST["S4"], SECOND["S8"])
        octets = turned(octets, *[number for fault, number in zip(wrong[3:], (8, 121, 122)) if fault])
        length = 7 if wrong[1] else 128
        cases.append(lines.send(6 if wrong[2] else 1, length, octets[:15] if wrong[0] else octets))
    return cases


# 01 'From levels to a frame', levels.

HEARD = (T, N, P, Q, image(FIRST["S8+"], SECOND["S3"]), image(FIRST["S6"], SECOND["S4"]),
         image(FIRST["S4"], SECOND["S6"]), image(FIRST["S9"], SECOND["S9"]))


def levels_of(bits, last):
    """The levels that these bits are on the line, behind this level."""
    levels = []
    for bit in bits:
        last = 1 - last if bit == 1 else last
        levels.append(last)
    return levels


def run_of(bits, first):
    """A first level and these bits behind it."""
    return [first] + levels_of(bits, first)


def swapped(levels):
    return [1 - level for level in levels]


def bits_of(*images):
    return [bit for octets in images for bit in link1.octet_bits(octets)]


def capture_of(bits, filler=1):
    """These bits as octets, the last filled up."""
    return link1.octets_of(bits + [filler] * (-len(bits) % 8))


def sending():
    """Images sent from both levels, with every kind of refusal and wrong lengths."""
    stream = Stream(3)
    images = (*HEARD, stream.good_image(), stream.good_image(), word_image(stream.word(), stream.word()))
    cases = [lines.send(previous, 128, octets) for octets in images for previous in (0, 1)]
    cases += [lines.send(previous, 128, T) for previous in (2, 3, 4, 5, 6, 7, 8, 9, 10, 48, 49, 127, 128, 129, 254,
                                                            255)]
    cases += [lines.send(0, length, P) for length in (0, 1, 2, 15, 16, 17, 126, 127, 129, 130, 255, 256)]
    cases += [lines.send(1, 128, (P * 2)[:length]) for length in (0, 1, 8, 14, 15, 17, 18, 32)]
    cases += [lines.send(n % 2, 128, turned(HEARD[4], n)) for n in (*FRAMING, 10, 16, 60, 64, 66, 72, 120)]
    return cases


def frames_heard():
    """A frame behind a first level, from both levels; the fresh receiver hands it over on the last level."""
    stream = Stream(9)
    images = (*HEARD, stream.good_image(), word_image(stream.word(), stream.word()))
    return [lines.hear(run_of(bits_of(octets), first)) for octets in images for first in (0, 1)]


def noise_heard():
    """Bits before a frame: idle ones, random ones, 1 to 20 zeros, a start that is nearly right."""
    stream = Stream(4)
    cases = []
    for number in range(1, 21):
        octets = HEARD[number % len(HEARD)]
        cases += [lines.hear(run_of([0] * number + bits_of(octets), number % 2)),
                  lines.hear(run_of([1] + [0] * number + bits_of(octets), 0))]
        cases.append(lines.hear(run_of([stream.below(2) for _ in range(number)] + bits_of(octets), number % 2)))
    for ones in (1, 2, 7, 8, 9, 127, 128, 129):
        cases.append(lines.hear(run_of([1] * ones + bits_of(P), 1)))
    for zeros in range(1, 9):
        cases.append(lines.hear(run_of([0] * zeros + [1] + bits_of(Q), 0)))
        cases.append(lines.hear(run_of(bits_of(P)[:8 * zeros + 3] + bits_of(Q), 1)))
    for zeros in (24, 64, 120, 128, 136, 200, 256):
        cases.append(lines.hear(run_of([0] * zeros + bits_of(T), 0)))
    return cases


def false_locks():
    """Eight zeros that lead into no frame, and the frame that begins inside what was taken for one."""
    cases = []
    for octets in (P, T, HEARD[4]):
        for kept in (8, 9, 15, 16, 17, 24, 63, 64, 100, 120, 127):
            cases.append(lines.hear(run_of(bits_of(N)[:kept] + bits_of(octets), kept % 2)))
    for number in range(1, 9):
        cases.append(lines.hear(run_of([0] * 8 + [1] * number + bits_of(Q), 0)))
        cases.append(lines.hear(run_of([0] * 8 + [1] + [0] * number + bits_of(Q), 1)))
    return cases


def refused_levels():
    """Levels that are neither 0 nor 1 before, inside and behind a frame count for nothing."""
    cases = []
    run = run_of(bits_of(HEARD[5]), 0)
    for level in (2, 3, 7, 9, 255):
        for at in (0, 1, 8, 9, 64, 127, 128, 129):
            cases.append(lines.hear(run[:at] + [level] + run[at:]))
    cases.append(lines.hear([level for pair in zip(run, [2, 255, 9, 128, 48] * 26) for level in pair][:80]))
    cases += [lines.hear([level]) for level in range(256)]
    cases += [lines.hear([0, level, 1]) for level in (2, 4, 5, 6, 8, 10, 100, 128, 129, 254)]
    return cases


def frames_in_turn():
    """Two and three frames in turn, with no gap and with a gap of 1 to 9 ones or zeros."""
    cases = []
    for gap in range(10):
        one, two = HEARD[gap % len(HEARD)], HEARD[(gap + 3) % len(HEARD)]
        for bit in (0, 1):
            cases.append(lines.hear(run_of(bits_of(one) + [bit] * gap + bits_of(two), gap // 2 % 2)))
    cases += [lines.hear(run_of(bits_of(P, P, Q), 1)), lines.hear(run_of(bits_of(T, N, T, N), 0)),
              lines.hear(run_of(bits_of(*HEARD), 0))]
    return cases


def faulty_runs():
    """A run that lacks a level, has one twice or turned, or has its wires swapped, and a good frame behind it."""
    cases = []
    for octets in HEARD:
        for first in (0, 1):
            cases.append(lines.hear(levels_of(bits_of(octets), first)))
    run = run_of(bits_of(HEARD[6]), 1)
    for at in (0, 1, 2, 8, 9, 10, 17, 63, 64, 65, 100, 120, 121, 127, 128):
        lacking, doubled = run[:at] + run[at + 1:], run[:at + 1] + run[at:]
        level_turned = run[:at] + [1 - run[at]] + run[at + 1:]
        for faulty in (lacking, doubled, level_turned):
            cases += [lines.hear(faulty), lines.hear(swapped(faulty))]
        cases.append(lines.hear(level_turned + levels_of(bits_of(Q), level_turned[-1])))
        cases.append(lines.hear(lacking + levels_of(bits_of(P), lacking[-1])))
    return cases


def turned_runs():
    """Each frame bit turned, on the line."""
    octets = image(FIRST["S4+"], SECOND["S5"])
    return [lines.hear(run_of(bits_of(turned(octets, n)), n % 2)) for n in range(1, 129)]


def cut_runs():
    """Runs cut short at every place up to 20 and many behind it, so that the state after each is told."""
    run = run_of(bits_of(HEARD[4], T), 0)
    cases = [lines.hear(run[:length]) for length in (*range(0, 21), *range(23, 129, 7), *range(125, 140), 200, 256,
                                                     257)]
    cases += [lines.hear(swapped(run[:length])) for length in (1, 2, 3, 9, 10, 60, 127, 128, 129, 130)]
    return cases


def resumed():
    """Receivers whose state is given by hand."""
    cases = []
    ones, stream = bytes([255]) * 16, Stream(5)
    for octets in HEARD:
        bits = bits_of(octets)
        lacking_one = link1.octets_of([1] + bits[:127])
        lacking_nine = link1.octets_of([0] * 9 + bits[:119])
        for last in (0, 1):
            cases += [lines.resume(1, last, lacking_one, levels_of(bits[127:], last)),
                      lines.resume(1, last, lacking_one, [last]),
                      lines.resume(1, last, lacking_nine, levels_of(bits[119:], last)),
                      lines.resume(1, last, ones, levels_of(bits, last)),
                      lines.resume(0, last, ones, levels_of(bits, last)),
                      lines.resume(0, last, ones, run_of(bits, last)),
                      lines.resume(1, last, octets, []), lines.resume(1, last, octets, [1 - last]),
                      lines.resume(1, last, octets, [last]), lines.resume(1, last, octets, [2, 255]),
                      lines.resume(0, last, lacking_one, [1 - last, last])]
    for last in (0, 1, 2, 7, 48, 128, 254, 255):
        for started in (0, 1):
            window = stream.octets(16)
            cases += [lines.resume(started, last, window, []), lines.resume(started, last, window, [0]),
                      lines.resume(started, last, window, [1]), lines.resume(started, last, window, [last, 3]),
                      lines.resume(started, last, window, [0, 0, 1, 1, 1, 0])]
            lacking_one = link1.octets_of([1] + bits_of(P)[:127])
            cases += [lines.resume(started, last, lacking_one, [0]), lines.resume(started, last, lacking_one, [1])]
    cases += [lines.resume(0, last, octets, [level]) for octets in (P, N) for last in (0, 1, 9) for level in (0, 1, 2)]
    cases += [lines.resume(1, 0, b"\x00" * 16, levels_of(bits_of(Q)[8:], 0)),
              lines.resume(1, 1, b"\x00" * 16, [1] * 20), lines.resume(1, 1, ones, levels_of(bits_of(Q)[1:], 1))]
    return cases


# 02 Item 5: the receiver fed by octets.

def handed_by_octets(window, octets):
    """What an octet receiver with this window hands over: each frame's image, and behind which bit."""
    frames = []
    for number, octet in enumerate(octets):
        window, (handed, bit, frame) = link1.hear_octet(window, octet)
        if handed == 1:
            frames.append((8 * number + bit, frame))
    return frames


def handed_by_levels(state, octets):
    """What the first receiver in this state hands over when its levels decode to the bits of these octets."""
    frames = []
    for number, level in enumerate(levels_of(bits_of(octets), state[1]), 1):
        state, (_, handed, frame) = link1.hear(state, level)
        if handed == 1:
            frames.append((number, frame))
    return frames


def found_in_turn(capture):
    """The positions that searches find, from 0 and then from one behind the last that was found."""
    positions = []
    result, position = link1.search(capture, 0)
    while result == link1.GOOD:
        positions.append(position)
        result, position = link1.search(capture, position + 1)
    return positions


def heard_alike(octets):
    """02 Item 5: fresh receivers of both kinds hand over the same behind the same bits, and searches find just that."""
    started, _ = link1.hear(link1.FRESH, 0)
    frames, found = handed_by_octets(link1.IDLE, octets), found_in_turn(octets)
    return (frames == handed_by_levels(started, octets) and found == link1.frames_in(octets)
            and [bit for bit, _ in frames] == [position + 128 for position in found])


def hears(runs):
    """Runs of octets for a fresh octet receiver."""
    assert all(heard_alike(octets) for octets in runs)
    return [lines.hear_octets(octets) for octets in runs]


def resumes(window, octets):
    """An octet receiver with this window; the first receiver, once started with it, hands over the same."""
    bits = tuple(link1.image_frame(window))
    assert handed_by_octets(bits, octets) == handed_by_levels((1, 1, bits), octets)
    return lines.resume_octets(window, octets)


def octet_frames():
    """Octets: a frame that ends at each of the eight bits, behind ones, behind zeros, behind random-looking bits."""
    stream, runs = Stream(13), []
    for number, octets in enumerate(HEARD):
        for at in range(8):
            before = 8 * ((number + at) % 4) + at
            runs += [capture_of([bit] * before + bits_of(octets), bit) for bit in (1, 0)]
            bits = stream.bits(before) + bits_of(octets)
            runs.append(link1.octets_of(bits + stream.bits(-len(bits) % 8 + 8 * (at % 3))))
    return hears(runs)


def octet_runs_cut():
    """Octets: runs that end 1 to 8 bits before a frame does, an octet earlier, at every octet; a last bit missing."""
    runs = []
    for at in range(8):
        for octets in (HEARD[at], HEARD[(at + 3) % 8]):
            run = capture_of([1] * at + bits_of(octets))
            runs += [run[:-1], run[:-2]]
        bits = [1] * at + bits_of(HEARD[(at + 5) % 8])[:-1]
        runs += [capture_of(bits, 0), capture_of(bits + [0] + bits_of(Q))]
    run = capture_of([1] * 3 + bits_of(HEARD[4], T))
    return hears(runs + [run[:length] for length in range(len(run) + 1)])


def octet_frames_in_turn():
    """Octets: frames back to back at each alignment, and two frames with a gap of 1 to 9 ones or zeros."""
    runs = []
    for at in range(8):
        before = [at % 2] * at
        runs += [capture_of(before + bits_of(*HEARD[at:], *HEARD[:at]), 0), capture_of(before + bits_of(P, P, Q)),
                 capture_of(before + bits_of(T, N, T, N), 0)]
    for gap in range(1, 10):
        one, two = HEARD[gap % 8], HEARD[(gap + 3) % 8]
        for bit in (0, 1):
            runs += [capture_of([1 - bit] * (at % 8) + bits_of(one) + [bit] * gap + bits_of(two), bit)
                     for at in (gap, gap + 3, gap + 6)]
    return hears(runs)


def octet_false_locks():
    """Octets: eight zeros and marks that lead into no frame, and the frame inside or behind; more than eight zeros."""
    runs = []
    for number, kept in enumerate((8, 9, 15, 16, 17, 24, 63, 64, 72, 100, 120, 127)):
        runs += [capture_of([1] * (at % 8) + bits_of(N)[:kept] + bits_of(HEARD[at % 8]))
                 for at in (number, number + 3, number + 6)]
    for at in range(8):
        runs.append(capture_of([1] * at + bits_of(T)[:16 + 8 * at] + bits_of(HEARD[(at + 1) % 8]), 0))
        runs += [capture_of([0] * 8 + [1] * (at + 1) + bits_of(Q)),
                 capture_of([0] * 8 + [1] + [0] * (at + 1) + bits_of(Q), 0)]
    for number, mark in enumerate(link1.MARKS):
        bits, octets = [1] * (number % 8) + bits_of(turned(N, mark)), HEARD[number % 8]
        runs += [capture_of(bits + bits_of(octets)), capture_of(bits[:number % 8 + mark] + bits_of(octets))]
    for zeros in range(1, 21):
        runs.append(capture_of([1] * (5 * zeros % 8) + [0] * zeros + bits_of(HEARD[zeros % 8])))
    return hears(runs)


def octets_turned():
    """Octets: each frame bit turned, where the frame ends with an octet and where it ends at bit 5."""
    octets = image(FIRST["S4+"], SECOND["S5"])
    return hears([capture_of([1] * before + bits_of(turned(octets, n))) for before in (0, 5) for n in range(1, 129)])


def octet_frames_damaged():
    """Octets: a frame with a bit of its start, a mark, a check bit or its final one turned, and a good one behind."""
    return hears([capture_of([n % 2] * at + bits_of(turned(HEARD[at], n)) + [1] * (n % 3) + bits_of(HEARD[n % 8]))
                  for at in range(8) for n in (1, 8, 9, 65, 121, 122, 127, 128)])


# Octets that stand in turn for long; a sieve of zeros or of marks finds no quick way through them.
STRETCHES = (b"\x00", b"\xff", b"\xfe", b"\x80", b"\x01", b"\x7f", b"\x00\x80")


def stretched(octets, length):
    """The first bits of these octets in turn."""
    return (bits_of(octets) * (length // (8 * len(octets)) + 1))[:length]


def framed(octets, before, frame, behind):
    """A capture of these octets in turn, with a frame behind so many bits and at least so many bits behind it."""
    bits = stretched(octets, before) + bits_of(frame)
    length = behind + -(len(bits) + behind) % 8
    return link1.octets_of(bits + stretched(octets, len(bits) + length)[len(bits):])


def octet_stretches():
    """Octets: long stretches of one octet or two in turn, and a frame behind them at each alignment."""
    runs = [link1.octets_of(stretched(octets, 8 * length)) for octets in STRETCHES for length in (1, 16, 17, 40, 300)]
    runs += [framed(octets, 192 + at, HEARD[(at + number) % 8], 8 * (at % 3))
             for number, octets in enumerate(STRETCHES) for at in range(8)]
    return hears(runs)


def octets_before_the_first():
    """Octets: what would be a frame if bits before the first octet counted, and a good frame behind it."""
    runs = []
    for octets in (T, P, Q, HEARD[4]):
        runs += [capture_of(bits_of(octets)[-kept:]) for kept in (*range(127, 119, -1), 112, 104, 64, 8, 1)]
    for kept in range(127, 119, -1):
        runs.append(capture_of(bits_of(HEARD[kept % 8])[-kept:] + bits_of(HEARD[(kept + 1) % 8]), 0))
    return hears(runs)


def octets_of_noise():
    """Octets: random-looking ones, and frames among them."""
    stream = Stream(14)
    runs = [stream.octets(40) for _ in range(24)]
    for _ in range(32):
        bits = stream.bits(stream.below(100)) + bits_of(stream.good_image()) + stream.bits(stream.below(40))
        bits += bits_of(word_image(stream.word(), stream.word()))
        runs.append(link1.octets_of(bits + stream.bits(-len(bits) % 8)))
    return hears(runs)


def lacking(octets, j, bit):
    """A window that holds an image but for its last j bits; before it the other bits are these."""
    return link1.octets_of([bit] * j + bits_of(octets)[:-j])


def completing(octets, j, bit):
    """The octet with the last j bits of an image and other bits behind them."""
    return link1.octets_of(bits_of(octets)[-j:] + [bit] * (8 - j))


def octet_windows():
    """Octet receivers given by hand: frames that lack 1 to 8 bits, whole ones, windows of zeros and of ones."""
    cases = []
    for number, octets in enumerate(HEARD):
        for j in range(1, 9):
            window = lacking(octets, j, (number + j) % 2)
            cases.append(resumes(window, completing(octets, j, number % 2)))
            if number % 2 == 0:
                cases.append(resumes(window, completing(turned(octets, 128), j, 1)))
        cases += [resumes(octets, behind) for behind in (b"", b"\x00", b"\xff", b"\x80", octets, Q[:15] + b"\x9c")]
    zeros, ones = bytes(16), bytes([255]) * 16
    for window in (zeros, ones):
        cases += [resumes(window, octets) for octets in (b"", b"\x00", b"\xff", b"\x01" * 20, Q, Q[1:],
                                                         capture_of(bits_of(P)[5:]), zeros, ones)]
    return cases


def octet_windows_damaged():
    """Octet receivers given by hand: a frame would end at bit j but for a bit turned in it; a good one behind it."""
    cases = []
    for j in range(1, 9):
        for number, n in enumerate((1, 8, 9, 57, 60, 64, 113, 121, 122, 127, 129 - j)):
            octets = turned(HEARD[(j + number) % 8], n)
            cases.append(resumes(lacking(octets, j, number % 2), completing(octets, j, 1)))
        for octets in (HEARD[j - 1], turned(HEARD[j - 1], 73)):
            cases.append(resumes(lacking(octets, j, 1), capture_of(bits_of(octets)[-j:] + bits_of(P), 0)))
    return cases


def octet_windows_random():
    """Octet receivers given by hand: random-looking windows and octets, frames among them with a bit turned or none."""
    stream = Stream(15)
    cases = [resumes(stream.octets(16), stream.octets(1 + stream.below(4))) for _ in range(60)]
    for number in range(120):
        octets, lack = stream.good_image(), 1 + stream.below(40)
        if number % 3 == 0:
            octets = turned(octets, 1 + stream.below(128))
        bits = stream.bits(lack) + bits_of(octets)
        bits += stream.bits(-len(bits) % 8 + 8 * stream.below(2))
        run = link1.octets_of(bits)
        cases.append(resumes(run[:16], run[16:]))
    return cases


def backwards(octets):
    """Octets with the bits of each in the other order."""
    return b"".join(link1.octets_of(bits_of([octet])[::-1]) for octet in octets)


def octets_backwards():
    """Octets whose bits, read least significant first, would be a frame or complete one; frames read from behind."""
    same_both_ways = bytes([0] + [0x81] * 14 + [0xff])
    runs = [backwards(octets) for octets in HEARD] + [octets[::-1] for octets in HEARD]
    runs += [backwards(octets[::-1]) for octets in HEARD] + [same_both_ways, same_both_ways + backwards(Q)]
    runs += [backwards(capture_of([1] * at + bits_of(HEARD[at], HEARD[(at + 1) % 8]), 0)) for at in range(1, 8)]
    cases = hears(runs)
    for j in range(1, 9):
        for turn, octets in enumerate(HEARD[j % 2::2]):
            cases.append(resumes(lacking(octets, j, 1), backwards(completing(octets, j, turn % 2))))
    return cases


# 01 'Orders of checks', search.

def aligned_captures():
    """A frame at each alignment behind ones and behind zeros, searched from around it and from around the end."""
    cases = []
    for before in range(0, 17):
        bits = bits_of(HEARD[before % len(HEARD)])
        for bit in (0, 1):
            capture = capture_of([bit] * before + bits, bit)
            starts = {0, max(before - 1, 0), before, before + 1, 8 * len(capture) - 128, 8 * len(capture) - 127,
                      8 * len(capture), 8 * len(capture) + 1}
            cases += [lines.search(start, capture) for start in sorted(starts)]
    return cases


def two_frame_captures():
    """Two frames in a capture, searched from around each of them."""
    cases = []
    for gap in range(0, 10):
        one, two = HEARD[(gap + 1) % len(HEARD)], HEARD[gap % len(HEARD)]
        capture = capture_of([1] * gap + bits_of(one) + [gap % 2] * gap + bits_of(two))
        second = 2 * gap + 128
        cases += [lines.search(start, capture) for start in (0, gap, gap + 1, second - 1, second, second + 1)]
    return cases


def damaged_captures():
    """A damaged frame before a good one, frames that lack a bit, a frame at the very end, a frame in noise."""
    cases = []
    for n in (*FRAMING, 10, 15, 16, 60, 64, 66, 119, 120):
        cases.append(lines.search(0, turned(P, n) + Q))
    for lacking in range(1, 9):
        cases += [lines.search(0, capture_of([1] * lacking + bits_of(P))[:16]),
                  lines.search(0, link1.octets_of([1] * (8 - lacking) + bits_of(P) + [1] * lacking)[:16]),
                  lines.search(0, link1.octets_of([0] * (8 - lacking) + bits_of(Q) + [1] * lacking))]
    stream = Stream(6)
    for number in range(40):
        noise = [stream.below(2) for _ in range(8 + stream.below(100))]
        bits = noise + bits_of(stream.good_image())
        tail = [stream.below(2) for _ in range((-len(bits)) % 8 + 8 * (number % 3))]
        capture = link1.octets_of(bits + tail)
        cases += [lines.search(start, capture) for start in (0, len(noise), len(noise) + 1)]
    return cases


def plain_captures():
    """Captures of 0 to 40 octets that are all zeros, all ones or FE."""
    return [lines.search(0, bytes([octet]) * length) for octet in (0x00, 0xff, 0xfe) for length in range(41)]


def long_captures():
    """Captures up to the longest and one octet beyond it, starts up to the farthest."""
    longest = bytes([255]) * 65520
    cases = [lines.search(524000, longest + P), lines.search(524160, longest + P), lines.search(524161, longest + P),
             lines.search(524288, longest + P), lines.search(524289, longest + P), lines.search(0, P + longest),
             lines.search(1, P + bytes(65520)), lines.search(0, bytes(8) + P + longest[:65512]),
             lines.search(0, P + longest + b"\xff"), lines.search(524297, P + longest + b"\xff"),
             lines.search(2 ** 40, P + longest + b"\x00"), lines.search(524290, bytes(65537)),
             lines.search(0, bytes(65664)), lines.search(524288, bytes(65536)), lines.search(524289, bytes(65536)),
             lines.search(524200, bytes(65536)), lines.search(524279, longest + Q[:15]),
             lines.search(524152, longest[1:] + Q), lines.search(0, bytes(3000))]
    for start in (17, 255, 256, 257, 65535, 65536, 65537, 524288, 524289, 2 ** 32, 2 ** 32 + 128, 2 ** 40 - 1, 2 ** 40):
        cases += [lines.search(start, b""), lines.search(start, P), lines.search(start, T + N)]
    return cases


def striped_captures():
    """Captures of FE, 7F, 80, 01, 00 80 in turn, without a frame and with one at each alignment, from around it."""
    cases = []
    for number, octets in enumerate(STRETCHES[2:]):
        for length, start in ((16, 0), (17, 0), (17, 7), (40, 7)):
            cases.append(lines.search(start, link1.octets_of(stretched(octets, 8 * length))))
        for at in range(8):
            position = 64 + 8 * (at % 3) + at
            capture = framed(octets, position, HEARD[(number + at) % 8], 8 * (at % 4))
            cases += [lines.search(start, capture) for start in (0, position - 1, position, position + 1)]
    return cases


def false_lock_captures():
    """A false lock before a frame, and a frame with a bit of its framing turned before a good one, unaligned."""
    cases = []
    for number, kept in enumerate((8, 9, 10, 15, 16, 17, 24, 63, 64, 72, 100, 120, 127)):
        cases += [lines.search(at, capture_of([1] * at + bits_of(false)[:kept] + bits_of(HEARD[number % 8])))
                  for at, false in ((number % 8, N), ((number + 3) % 8, T))]
    for number, n in enumerate(FRAMING):
        for octets, at in ((HEARD[number % 8], number % 8), (Q, (number + 5) % 8)):
            cases.append(lines.search(at, capture_of([1] * at + bits_of(turned(octets, n), P))))
    return cases


def every_start():
    """A short capture with two frames, searched from each of its first positions and from around the second."""
    capture = capture_of([1] * 10 + [0] * 3 + bits_of(HEARD[5]) + [0] * 4 + bits_of(HEARD[7]), 0)
    return [lines.search(start, capture) for start in (*range(41), 144, 145, 146)]


def frames_at_the_end():
    """Captures of 16 to 40 octets with a frame at the very end, whole and cut by an octet."""
    stream, cases = Stream(16), []
    for length in range(16, 41):
        before = (b"\x80" * 24, b"\xfe" * 24, stream.octets(24))[length % 3][:length - 16]
        capture, position = before + HEARD[length % 8], 8 * len(before)
        cases += [lines.search(start, capture) for start in (0, position, position + 1)]
        cases.append(lines.search(0, capture[:-1]))
    return cases


def marked(stream, count):
    """So many groups with good marks and random-looking bits, none of them a start group."""
    return [bit for _ in range(count) for bit in [1] + stream.bits(7)]


def marks_in_step():
    """A frame between groups whose marks are in step with its own, at each alignment; without its start group too."""
    stream, cases = Stream(17), []
    for at in range(8):
        for number, around in enumerate((marked(stream, 16), bits_of(b"\x80" * 16))):
            octets, position = HEARD[(at + 4 * number) % 8], at + 64
            before, behind = [1] * at + around[:64], around[64:]
            capture = capture_of(before + bits_of(octets) + behind)
            cases += [lines.search(start, capture) for start in (0, position - 1, position, position + 1)]
            cases.append(lines.search(at, capture_of(before + bits_of(b"\x80" + octets[1:]) + behind)))
    return cases


def frames_from_each_octet():
    """A frame that begins in each of the octets 0 to 17 of a capture filled with 80, C0, FE or AA."""
    cases = []
    for number, octet in enumerate((0x80, 0xc0, 0xfe, 0xaa)):
        for at in range(18):
            position = 8 * at + (3 * at + 5 * number) % 8
            capture = framed(bytes([octet]), position, HEARD[(at + number) % 8], 8 * (17 - at))
            cases += [lines.search(start, capture) for start in (0, position + 1)]
    return cases


# 01 'The shift'; 02 Item 6: the relay.

STEPS = (-4096, -4095, -2, -1, 0, 1, 2, 4094, 4095)
AROUND = (0, 1, 374, 375, 376, 749, 750, 1124, 1125, 1126)
OFFSETS = tuple(-offset for offset in AROUND[:0:-1]) + AROUND

# The farthest that an offset may go, and lists that are refused for their length and for each offset.
FAR = 6144000
BAD = [FAR + 1] * 9

# Each kind with a position in each place that it may have, and the other kind of the pair.
POSITIONS = tuple((first, 1, second) for first, second in LEGAL_PAIRS if first in link1.WITH_POSITION) + tuple(
    (second, 2, first) for first, second in LEGAL_PAIRS if second in link1.WITH_POSITION)
TRACK_PLACES = tuple(place for place in POSITIONS if place[0] != "S9")
CORNER_PLACES = tuple(place for place in POSITIONS if place[0] == "S9")

# The legal pairs whose messages both have a position, and those of which none has.
BOTH_POSITIONS = tuple(pair for pair in LEGAL_PAIRS if all(kind in link1.WITH_POSITION for kind in pair))
NO_POSITION = tuple(pair for pair in LEGAL_PAIRS if all(kind not in link1.WITH_POSITION for kind in pair))


def nearest(before, after, offsets):
    """01 'The shift': no step is nearer to the sum than this one, and of two as near it is farther from zero."""
    feet = 750 * before + sum(offsets)
    apart = abs(750 * after - feet)
    return apart < 375 or apart == 375 and abs(750 * after) > abs(feet)


def moved_rightly(before, after, x_offsets, y_offsets):
    """02 Item 6: a message without a position passes through; of the others all but X and Y stays."""
    if before[0] not in link1.WITH_POSITION:
        return after == before
    return (after == changed(before, x=after[1]["x"], y=after[1]["y"])
            and nearest(before[1]["x"], after[1]["x"], x_offsets)
            and nearest(before[1]["y"], after[1]["y"], y_offsets))


def relayed_rightly(octets, x_offsets, y_offsets, length):
    """02 Item 6: opening's refusal comes first and no refusal writes; else both messages are moved."""
    buffer = bytes([5]) * length
    opened, pair = link1.open_image(octets)
    result, after = link1.relay(octets, x_offsets, y_offsets, buffer)
    if result != link1.GOOD:
        return after == buffer and (opened == link1.GOOD or result == opened)
    again, pair_after = link1.open_image(after)
    return again == link1.GOOD and link1.zeroed(after) == after and all(
        moved_rightly(one, two, x_offsets, y_offsets) for one, two in zip(pair, pair_after))


def relays(images, x_offsets, y_offsets, length=16):
    """Images relayed by these lists, with so many octets lent."""
    assert all(relayed_rightly(octets, x_offsets, y_offsets, length) for octets in images)
    return [lines.relay(length, x_offsets, y_offsets, octets) for octets in images]


def relays_answered(result, images, x_offsets, y_offsets, length=16):
    """Images relayed that are all answered so."""
    assert all(link1.relay(octets, x_offsets, y_offsets, bytes(length))[0] == result for octets in images)
    return relays(images, x_offsets, y_offsets, length)


def relays_through(images, x_offsets, y_offsets):
    """Images relayed that come out with absent modes' codes zeroed and else as they were."""
    assert all(link1.relay(octets, x_offsets, y_offsets, bytes(16)) == (link1.GOOD, link1.zeroed(octets))
               for octets in images)
    return relays(images, x_offsets, y_offsets)


def at_steps(kind, number, x, y):
    """A track or an area's corner at these steps, one number after the other."""
    if kind == "S9":
        return message("S9", area=number % 4, site=(number + 43) % 64, number=number // 4 % 4, drop=(number + 1) % 2,
                       x=x, y=y)
    return message(kind, number=20311 + number, quality=number // 4 % 4, x=x, y=y)


def beside(kind, which, x, y):
    """A message with fields that all differ, for this place; if it has a position, it is at these steps."""
    given = (FIRST if which == 1 else SECOND)[kind]
    return changed(given, x=x, y=y) if kind in link1.WITH_POSITION else given


def positioned(place, number, x, y, same=False):
    """The image of a message at these steps in its place; the other's position is the same or across zero from it."""
    kind, which, other = place
    given = at_steps(kind, number, x, y)
    if which == 1:
        return image(given, beside(other, 2, *((x, y) if same else (-1 - x, -1 - y))))
    return image(beside(other, 1, *((x, y) if same else (-1 - x, -1 - y))), given)


def positions(number, x, y, same=False):
    """A track and a corner at these steps, in one place after the other."""
    return [positioned(places[7 * number % len(places)], number, x, y, same)
            for places in (TRACK_PLACES, CORNER_PLACES)]


def relays_around_steps():
    """Relays around each half step from the steps at the edges and about zero: X alone, Y alone, both."""
    cases = []
    for at, step in enumerate(STEPS):
        for number, offset in enumerate(OFFSETS):
            turn, other = 19 * at + number, STEPS[(at + 4) % 9]
            cases += relays(positions(turn, step, other), [offset], [])
            cases += relays(positions(turn + 1, other, step), [], [offset])
            if number % 3 == 0:
                cases += relays(positions(turn + 2, step, STEPS[8 - at]), [offset], [-offset])
                cases += relays(positions(turn + 3, step, STEPS[(at + 1) % 9]), [offset],
                                [OFFSETS[(number + 7) % len(OFFSETS)]])
    return cases


def relays_by_lists():
    """Relays by lists of every length, sums whose parts would round otherwise, sums that pass far and come back."""
    cases = []
    for length in (*range(0, 10), 16):
        offsets = [(-1) ** place * (300 + 17 * place) for place in range(length)]
        cases += relays(positions(length, 7, -7), offsets, []) + relays(positions(length + 1, 7, -7), [], offsets)
        cases += relays(positions(length + 2, -100, 100), offsets, offsets[:8])
        cases += relays(positions(length + 3, -100, 100), offsets[:8], offsets)
        cases += relays(positions(length + 4, 0, 0), [375] * length, [-375] * length)
    lists = ([400, 400], [-400, -400], [100] * 4, [-100] * 4, [1] * 8, [374, 1], [-374, -1], [47] * 8, [-47] * 8,
             [376, -1], [-376, 1], [FAR, FAR, -FAR, -FAR], [-FAR, -FAR, FAR, FAR, 375], [FAR] * 4 + [-FAR] * 4,
             [-FAR] * 4 + [FAR] * 4, [FAR, -FAR, -750], [FAR] * 8, [-FAR] * 8,
             [FAR, FAR, FAR, -FAR, -FAR, -FAR, 374, 1], [5000, -1, -6000, 250, 375, -3000], [1500, -1500, 1125],
             [0] * 8)
    for number, offsets in enumerate(lists):
        for turn, step in enumerate((0, 1, -1, 4095, -4096), 5 * number):
            cases += relays(positions(turn, step, 55), offsets, [750])
            cases += relays(positions(turn + 1, -66, step), [-750], offsets)
    return cases


def relay_limits():
    """Offsets at their limits and beyond in each place of a list, and relays across the whole range."""
    cases = []
    beyond = (FAR, FAR + 1, -FAR, -FAR - 1, 2147483647, -2147483648, 10000000, -10000000)
    for number, offset in enumerate(beyond):
        for turn, (length, at) in enumerate(((1, 0), (3, 0), (3, 1), (3, 2), (8, 0), (8, 4), (8, 7)), 7 * number):
            offsets = [0] * length
            offsets[at] = offset
            if length > 1:
                offsets[at - 1] = -FAR if offset > 0 else FAR
            cases += relays(positions(turn, 3, 4), offsets, []) + relays(positions(turn + 1, 3, 4), [], offsets)
    for number, offsets in enumerate(([-2147483648, -2147483648], [2147483647, 2147483647, 2], [FAR + 1, -FAR - 1],
                                      [-FAR - 1, FAR + 1])):
        cases += relays(positions(number, 5, 6), offsets, []) + relays(positions(number + 1, 5, 6), [], offsets)
    for number, (start, offset) in enumerate((
            (-4096, 6144000), (-4096, 6143250), (-4096, 6143624), (-4096, 6143625), (4095, -6143250), (4095, -6143624),
            (4095, -6143625), (4095, -6144000), (0, 3071250), (0, 3071624), (0, 3071625), (0, -3072000), (0, -3072374),
            (0, -3072375), (0, 3072000), (2000, -4500000), (-2000, 4500374))):
        cases += relays(positions(number, start, 1, True), [offset], [])
        cases += relays(positions(number + 1, 2, start, True), [], [offset])
    stream = Stream(7)
    for number in range(60):
        steps = [stream.below(8192) - 4096 for _ in range(2)]
        lists = [[stream.below(2000000) - 1000000 for _ in range(stream.below(6))] for _ in range(2)]
        cases += relays(positions(number, *steps, number % 2 == 0), *lists)
    return cases


def relay_edges():
    """Results at each edge and over it in each of the places 1 to 4, where no other result is over."""
    cases = []
    for number, place in enumerate(POSITIONS):
        for axis, sign in itertools.product((1, 2), (1, -1)):
            for back, feet in ((0, 374), (0, 375), (0, 1000), (1, 750), (1, 1124), (1, 1125)):
                step, lists = (4095 - back if sign == 1 else -4096 + back), ([sign * feet], [])
                x, y = (step, 10 * number) if axis == 1 else (10 * number, step)
                refusal = (9, 2 * place[1] - 2 + axis, 0)
                cases += relays_answered(link1.GOOD if feet < 750 * back + 375 else refusal,
                                         [positioned(place, number, x, y)], *(lists if axis == 1 else lists[::-1]))
    return cases


def relay_results():
    """Every choice of the four results over an edge, in each pair of two positions: the first of them is told."""
    cases = []
    for (first, second), chosen in itertools.product(BOTH_POSITIONS, range(16)):
        over = [place for place in (1, 2, 3, 4) if chosen // 2 ** (place - 1) % 2 == 1]
        for turn in (0, 1):
            signs = (1, -1) if (chosen + turn) % 2 == 0 else (-1, 1 - 2 * turn)
            edges = [4095 if sign == 1 else -4096 for sign in signs * 2]
            x1, y1, x2, y2 = (edge if place in over else -1 - edge for place, edge in enumerate(edges, 1))
            octets = image(at_steps(first, chosen, x1, y1), at_steps(second, chosen + 1, x2, y2))
            cases += relays_answered((9, over[0], 0) if over else link1.GOOD, [octets], [400 * signs[0]],
                                     [200 * signs[1], 300 * signs[1]])
    return cases


def relay_contents():
    """Every legal pair relayed; each field of a message with a position at both ends of its range."""
    cases = []
    lists = (([750], [-1500]), ([400, 400], []), ([], [400, 400]), ([1, 20, 300, 4000, -5, -60, -700, -8000], [375]),
             ([-375], [-374, -1, 0, 0, 0, 0, 0, 0]), ([2147483647], [1] * 9))
    for first, second in LEGAL_PAIRS:
        octets = image(FIRST[first], SECOND[second])
        cases += relays_through([octets], [], [])
        for x_offsets, y_offsets in lists:
            cases += relays([octets], x_offsets, y_offsets)
    for kind, which, other in POSITIONS:
        for word, first, last in link1.FIELDS[kind]:
            lowest, highest = link1.field_range(word, first, last)
            for value in sorted({lowest, -1, 0, highest} if lowest < 0 else {lowest, highest}):
                octets = image(*pair_of(message(kind, **{word: value}), which, other))
                cases += relays_through([octets], [0], [1, -1])
    return cases


def random_relays():
    """Each legal pair with random-looking fields, relayed by random-looking lists."""
    stream, cases = Stream(20), []
    for first, second in LEGAL_PAIRS * 8:
        lists = [[375 * (stream.below(41) - 20) + stream.below(3) - 1 for _ in range(stream.below(9))] for _ in "XY"]
        cases += relays([image(stream.message(first), stream.message(second))], *lists)
    return cases


def relays_of_damaged():
    """Each frame bit of two images turned, and each message bit of three with right check bits, relayed."""
    cases = []
    for octets in (image(FIRST["S4"], SECOND["S8"]), image(FIRST["S9"], SECOND["S9"])):
        for n in range(1, 129):
            cases += relays([turned(octets, n)], [400, 400], [-1125])
    for first, second in (("S8", "S4"), ("S8+", "S3"), ("S6", "S4")):
        for which, n in itertools.product((1, 2), range(1, 50)):
            cases += relays([turned_in_message(FIRST[first], SECOND[second], which, n)], [-750], [1500, 374])
    return cases


def relay_buffers():
    """Relays into buffers of other lengths: of good images and of refused ones, by good lists and by bad ones."""
    cases = []
    refused_images = (P[:15], turned(P, 125), N, turned_in_message(FIRST["S9"], SECOND["S9"], 2, 20))
    for length in (0, 1, 2, 15, 17, 18, 32, 127, 128, 129, 255, 256):
        for octets in (T, image(FIRST["S4"], SECOND["S8"]), image(FIRST["S9"], SECOND["S9"])):
            for lists in (([750], []), (BAD, []), ([FAR], [FAR])):
                cases += relays_answered((2, 0, 0), [octets], *lists, length)
        for octets in refused_images:
            cases += relays_answered(link1.open_image(octets)[0], [octets], BAD[:length % 3], [], length)
    return cases


def relays_without_position():
    """Relays where no message has a position: it passes through, and the lists are checked all the same."""
    cases = []
    good = ([], [0], [400, 400], [375], [-375] * 8, [FAR], [-FAR], [FAR] * 8, [-FAR] * 8, [FAR] * 7 + [-FAR])
    bad = (([0] * 9, 2), ([0] * 16, 2), (BAD, 2), ([FAR + 1], 9), ([-FAR - 1], 9), ([0] * 7 + [FAR + 1], 9),
           ([2147483647], 9), ([-2147483648] * 8, 9))
    for first, second in NO_POSITION:
        octets = image(FIRST[first], SECOND[second])
        for number, offsets in enumerate(good):
            cases += relays_through([octets], offsets, good[number - 1]) + relays_through([octets], [], offsets)
        for number, (offsets, refusal) in enumerate(bad):
            cases += relays_answered((refusal, 1, 0), [octets], offsets, good[number])
            cases += relays_answered((refusal, 2, 0), [octets], good[number], offsets)
            cases += relays([octets], offsets, bad[number - 1][0])
    return cases


def images_refused():
    """Images that opening refuses: unknown labels, pairs not in the table, what is wrong inside, several faults."""
    test, blank = message("S0"), message("Blank")
    faults = ("2", "3", "4", "5", "6a", "6b", "7", "in a", "in b")
    images = [faulty_image(chosen) for chosen in choices_of(faults, 1) if len(chosen) < 3]
    unknown = [label for label in range(64) if label not in link1.LABELS.values()]
    images += [word_image(label_bits(label), link1.message_bits(SECOND["S8"])) for label in unknown[::2]]
    images += [word_image(link1.message_bits(FIRST["S4"]), label_bits(label)) for label in unknown[1::2]]
    images += [image(message(first), message(second)) for first in link1.KINDS for second in link1.KINDS
               if (first, second) not in LEGAL_PAIRS]
    images += [turned_in_message(test, test, which, n) for which in (1, 2) for n in (7, 14, 28, 43, 49)]
    images += [turned_in_message(FIRST[kind], blank, 2, n) for kind in ("S4", "S8") for n in (7, 30, 49)]
    images += [turned_in_message(FIRST["S4+"], SECOND["S3"], 2, n) for n in link1.SPARE["S3"]]
    images += [turned_in_message(FIRST["S9"], SECOND["S9"], which, n) for which in (1, 2) for n in link1.SPARE["S9"]]
    images += [image(FIRST["S8+"], changed(SECOND["S3"], request=code)) for code in link1.NOT_USED["request"]]
    images += [image(FIRST[kind], changed(SECOND["S5"], strength=1)) for kind in ("S4+", "S8+")]
    for code in link1.NOT_USED["elevation"]:
        images += [image(changed(FIRST["S6"], elevation=code), SECOND["S4"]),
                   image(FIRST["S8"], changed(SECOND["S6"], elevation=code))]
    return images + [(T * 16)[:length] for length in (0, 1, 14, 15, 17, 32, 127, 128, 256)]


def relays_refused_as_opened():
    """Relays of images that opening refuses, beside good lists, and beside a bad buffer, bad lists, far results."""
    cases = []
    for number, octets in enumerate(images_refused()):
        result, _ = link1.open_image(octets)
        assert result != link1.GOOD
        cases += relays_answered(result, [octets], [750], [-375])
        lists = ((BAD, BAD), ([FAR], [-FAR]), ([0] * 16, []), ([], [FAR + 1]))[number % 4]
        cases += relays_answered(result, [octets], *lists, (16, 15, 0, 17)[number // 4 % 4])
    return cases


# 02 Item 6: what a relay is refused for, in order, a the first message and b the second; corners with spare bits 9, 20.
RELAY_FAULTS = {"2": (2, 0, 0), "3": (3, 0, 0), "4": (4, 0, 0), "5": (5, 0, 0), "6a": (6, 1, 0), "6b": (6, 2, 0),
                "7": (7, 0, 0), "in a": (13, 1, 9), "in b": (13, 2, 20), "buffer": (2, 0, 0), "2 X": (2, 1, 0),
                "2 Y": (2, 2, 0), "9 X": (9, 1, 0), "9 Y": (9, 2, 0), "X a": (9, 1, 0), "Y a": (9, 2, 0),
                "X b": (9, 3, 0), "Y b": (9, 4, 0)}


def faulty_relay(faults, kinds, number):
    """A relay of two messages of these kinds with these of the faults; those inside are a corner's."""
    x1, y1, x2, y2 = (4095 if fault in faults else -4096 for fault in ("X a", "Y a", "X b", "Y b"))
    if "7" in faults:  # a corner beside a track, the corner where its spare bits are wanted
        kinds = ("S9", "S4") if "in a" in faults else ("S8", "S9")
    bits = {1: link1.message_bits(at_steps(kinds[0], number, x1, y1)),
            2: link1.message_bits(at_steps(kinds[1], number + 1, x2, y2))}
    for which, fault, n in ((1, "in a", 9), (2, "in b", 20)):
        if fault in faults and kinds[which - 1] == "S9":
            bits[which][n] = 1
    for which, fault, label in ((1, "6a", 37), (2, "6b", 4)):
        if fault in faults:
            link1.write_bits(bits[which], 1, 6, label)
    turns = [n for fault, n in (("3", 2), ("4", 128), ("5", 127)) if fault in faults]
    octets = turned(word_image(bits[1], bits[2]), *turns)
    lists = []
    for axis in "XY":
        over = any(fault in faults for fault in (axis + " a", axis + " b"))
        offsets = ([FAR + 1] if "9 " + axis in faults else []) + [375 if over else 1]
        lists.append(offsets + [0] * (9 - len(offsets)) if "2 " + axis in faults else offsets)
    length = (0, 15, 17, 128)[number % 4] if "buffer" in faults else 16
    first_told = next(result for fault, result in RELAY_FAULTS.items() if fault in faults)
    return relays_answered(first_told, [octets[:15] if "2" in faults else octets], *lists, length)


def order_of_relaying():
    """Relaying: each fault, every two, and all from each on, told as the first; of corners and of two tracks."""
    cases, inside, faults = [], ("in a", "in b"), tuple(RELAY_FAULTS)
    chosen = [[fault] for fault in faults] + list(itertools.combinations(faults, 2))
    chosen += [faults[at:] for at in range(len(faults) - 2)]
    for number, some in enumerate(chosen):
        cases += faulty_relay(some, ("S9", "S9"), number)
        if not any(fault in some for fault in inside):
            cases += faulty_relay(some, (("S4", "S8"), ("S8", "S4"), ("S4", "S4"), ("S8", "S8"))[number % 4], number)
    tracks = [fault for fault in faults if fault not in inside]
    for number in range(len(tracks) - 2):
        cases += faulty_relay(tracks[number:], ("S8", "S4"), number)
    return cases


def relays_of_digits():
    """Digits left in absent modes, relayed: zeros stand there afterwards; beside what is still refused."""
    cases = []
    for number, octets in enumerate(images_with_digits() + random_images_with_digits()):
        cases += relays_through([octets], [], [])
        for sign in (1, -1) if number % 5 == 0 else (1,):
            lists = ([375 * sign * (number % 7)], [-400 * sign, -400 * sign])
            assert link1.relay(octets, *lists, LENT16) == link1.relay(link1.zeroed(octets), *lists, LENT16)
            cases += relays([octets], *lists)
    left = turned_in_message(FIRST["S8+"], message("S3", emergency=1), 2, *digits_of(*MODES))
    cases += relays_answered((5, 0, 0), [turned(left, 121 + j) for j in range(1, 7)], [750], [])
    cases += relays_answered((5, 0, 0), [checks_kept(left)], [750], [])
    for n in link1.SPARE["S3"]:
        cases += relays_answered((13, 2, n), [turned_in_message(FIRST["S4+"], message("S3"), 2, n, *digits_of(*MODES))],
                                 [], [750])
    cases += relays_answered((9, 1, 0), [left], [-FAR], [FAR]) + relays_answered((9, 2, 0), [left], [], [FAR])
    return cases + relays_answered((2, 0, 0), [left], [], [], 15) + relays_answered((2, 2, 0), [left], [], BAD)


# 02 Item 6: there by a list, and back by one offset that is the opposite of its sum.

def odd_375(feet):
    """An odd multiple of 375."""
    return feet % 750 == 375


def given_back(octets, back, sums):
    """02 Item 6: on each axis whose sum is no odd multiple of 375 the positions are as they were, on both the image."""
    _, pair = link1.open_image(octets)
    _, again = link1.open_image(back)
    kept = [word for word, feet in zip("xy", sums) if not odd_375(feet)]
    return (all(one[1].get(word) == two[1].get(word) for one, two in zip(pair, again) for word in kept)
            and (len(kept) < 2 or back == link1.zeroed(octets)))


def there_and_back(images, x_offsets, y_offsets):
    """Images relayed and, where that is not refused, relayed back."""
    cases, sums = [], (sum(x_offsets), sum(y_offsets))
    for octets in images:
        cases += relays([octets], x_offsets, y_offsets)
        result, there = link1.relay(octets, x_offsets, y_offsets, bytes(16))
        if result == link1.GOOD:
            result, back = link1.relay(there, [-sums[0]], [-sums[1]], bytes(16))
            assert result != link1.GOOD or given_back(octets, back, sums)
            cases += relays([there], [-sums[0]], [-sums[1]])
    return cases


def relays_and_back():
    """Relays there and back: sums about each half step, large ones, lists of many, digits in absent modes."""
    cases = []
    lists = ([1], [-1], [374], [-374], [376], [-376], [750], [-749], [751], [400, 400], [-400, -400], [1124], [-1126],
             [100] * 7, [12345, -54321], [750000, 1], [-1500000, -373], [47] * 8, [FAR, -FAR, 376])
    for number, offsets in enumerate(lists):
        other = lists[(4 * number + 3) % len(lists)]
        for turn, step in enumerate((0, -1, 1, 4095 if sum(offsets) < 0 else -4096), 4 * number):
            cases += there_and_back(positions(turn, step, 2 * number, True), offsets, other)
        cases += there_and_back(positions(number, -number, 2 * number), other[::-1], offsets)
    stream = Stream(21)
    for first, second in LEGAL_PAIRS * 2:
        octets = image(stream.message(first), stream.message(second))
        cases += there_and_back([octets], [stream.below(200000) - 100000], [stream.below(2000) - 1000])
    for number, octets in enumerate(images_with_digits()[::4]):
        cases += there_and_back([octets], [100 * number], [-5000, 70 * number])
    for step, feet in ((-4096, 6143624), (4095, -6143624), (-4096, 6143250), (4095, -6143250), (0, 3071250)):
        cases += there_and_back(positions(step + feet, step, step, True), [feet], [feet])
    return cases


def relays_half_way_back():
    """Relays there and back by odd multiples of 375; sums over the limit of an offset, so that back is refused."""
    cases = []
    for number, feet in enumerate((375, -375, 1125, -1125, 1875, 749625)):
        for turn, step in enumerate((0, -1, 1, -2, 2, 4095 if feet < 0 else -4096), number):
            x_offsets, y_offsets = [feet], [[-feet], [200], []][turn % 3]
            lists = (x_offsets, y_offsets) if turn % 2 == 0 else (y_offsets, x_offsets)
            cases += there_and_back(positions(turn, step, step, True), *lists)
    for number, (first, second) in enumerate(NO_POSITION):
        octets = image(FIRST[first], SECOND[second])
        for offsets in ([FAR, 1], [-FAR, -1], [FAR] * 8, [-FAR, -FAR, FAR - 1, -2]):
            cases += there_and_back([octets], *((offsets, [7]) if number % 2 == 0 else ([7], offsets)))
        cases += there_and_back([octets], [FAR], [-FAR]) + there_and_back([octets], [-FAR, -1], [FAR, 1])
    for octets in positions(0, -4096, 0, True) + positions(1, -4096, 0, True):
        cases += there_and_back([octets], [FAR, 1], []) + there_and_back([octets], [FAR, -375], [])
    return cases


# 02 Item 7: one wrong level.

def handed_over(levels):
    """What a fresh receiver hands over of these levels: each frame's image, and on which level."""
    state, frames = link1.FRESH, []
    for number, level in enumerate(levels, 1):
        state, (_, handed, frame) = link1.hear(state, level)
        if handed == 1:
            frames.append((number, frame))
    return frames


def wrong_rightly(previous, octets):
    """02 Item 7: each wrong level is refused, as 001 argues by its place, and a fresh receiver hands over nothing."""
    levels = link1.sent_levels(previous, octets)
    return (levels == run_of(bits_of(octets), previous) and link1.decoded_image(levels) == octets
            and link1.one_wrong_verdicts(previous, octets) == [link1.one_wrong_by_place(n) for n in range(129)]
            and all(handed_over(link1.with_wrong(levels, n)) == [] for n in range(129)))


def wrongs(previous, images):
    """Images with one wrong level each, after this previous level."""
    for octets in images:
        sent = link1.send(previous, octets, bytes(128))[0] == link1.GOOD
        assert not sent or wrong_rightly(previous, octets)
    return [lines.wrong_levels(previous, octets) for octets in images]


# Every bit of both messages one, and ones and zeros in turn.
FULL_WORDS = word_image(dict.fromkeys(range(1, 50), 1), dict.fromkeys(range(1, 50), 1))
STRIPED = tuple(word_image({n: (n + bit) % 2 for n in range(1, 50)}, {n: (n + bit) % 2 for n in range(1, 50)})
                for bit in (0, 1))


def one_wrong_level():
    """One wrong level of the examples, of each legal pair, of all zeros, all ones and random-looking bits."""
    stream = Stream(22)
    images = [T, P, N, Q, FULL_WORDS, *STRIPED] + [image(FIRST[first], SECOND[second]) for first, second in LEGAL_PAIRS]
    cases = wrongs(0, images) + wrongs(1, images)
    for previous in (0, 1):
        cases += wrongs(previous, [word_image(stream.word(), stream.word()) for _ in range(30)])
    return cases


def one_wrong_refused():
    """One wrong level of what is not sent: lengths, previous levels, each framing bit, every choice of faults."""
    cases = wrongs(1, [(P * 2)[:length] for length in (0, 1, 8, 14, 15, 17, 18, 32)])
    cases += [case for previous in (2, 3, 7, 9, 10, 48, 49, 127, 128, 129, 254, 255) for case in wrongs(previous, [T])]
    cases += [case for n in FRAMING for case in wrongs(n % 2, [turned(HEARD[4], n)])]
    cases += wrongs(0, [turned(HEARD[6], n) for n in (10, 15, 60, 65, 66, 70, 115)])
    for chosen in range(32):
        wrong = [chosen // 2 ** place % 2 == 1 for place in range(5)]
        octets = turned(HEARD[5], *[number for fault, number in zip(wrong[2:], (1, 128, 127)) if fault])
        cases += wrongs(2 + chosen if wrong[1] else 0, [octets + octets[:1] if wrong[0] else octets])
    return cases


def one_wrong_writings():
    """One wrong level, written in other ways, and lines of it that are not understood."""
    by_hand = (("0", 0, b""), ("255", 255, b""), ("2 x", 2, b""), ("1 x x", 1, b""), ("0 x00ba*14 xff", 0, T),
               ("1 x00 xba*14 xff", 1, T), ("1 :0 x xba*7 xba*7 xff*1", 1, T), ("2 :0 xba*14 xff", 2, T),
               ("0 x00c4 x80*13 xbb", 0, P), ("1 x%s" % P.hex(), 1, P), ("0 :0*16", 0, bytes(16)),
               ("1 =0123456789abcdef", 1, b"0123456789abcdef"), ("0 =0", 0, b"0"), ("3 x00*65664", 3, bytes(65664)),
               ("0 :" + "0" * 8176, 0, bytes(8176)))
    cases = [("wrong_levels " + text, wrongs(previous, [octets])[0][1]) for text, previous, octets in by_hand]
    p = "x00c480*13 xbb"
    numbers = ["00", "01", "-0", "-1", "+1", "-", "256", "257", "1000", "1.0", "0x1", "1e0", "one", "O", "'1'", "1,",
               "\xb2", "1_0", "18446744073709551617", "99999999999999999999999999", "x00", ":0", "=0"]
    texts = [" %s %s" % (number, p) for number in numbers] + [" 256", " 00", " -1", " a"]
    texts += ["", " ", " " + p, " x", "  0 " + p, " 0  " + p, " 0 ", " 0 %s " % p, " 0 x00  x00", " 0 0 " + p,
              " 0 128 " + p, " %s 0" % p, " 0 %s 0" % p, " 0 %s ?" % p, " 0 00c4", " 0 0", " 0 x0", " 0 x000",
              " 0 xBA", " 0 x0g", " 0 X00", " 0 x 00", " 0 x*3", " 0 x00*0", " 0 x00*01", " 0 x00*", " 0 x00:0",
              " 0 :a", " 0 *3", " 0 x00*65665", " 0 x00*65664 x00", " 0 :" + "0" * 8177, "0 " + p, " 0" + p,
              "\t0 " + p, " 0\t" + p, " 0 x00\r", " 0\r", " 0 x00\x00", " 0\xa0" + p, " 0 S0 S0"]
    texts = ["wrong_levels" + text for text in texts]
    texts += [word + " 0 " + p for word in ("Wrong_levels", "WRONG_LEVELS", "wrong_level", "wrong_levels_", "wrong",
                                            "wrong levels", " wrong_levels", "wronglevels")]
    return cases + [lines.not_understood(text) for text in texts] + wrongs(0, [P])


def hears_levels(levels, frames):
    """Levels for a fresh receiver, which hands over these frames and no other."""
    assert handed_over(levels) == frames
    return lines.hear(levels)


def one_wrong_heard():
    """Each of the 129 levels of T and of P changed, after both previous levels: nothing is handed over."""
    return [hears_levels(link1.with_wrong(run_of(bits_of(octets), previous), n), [])
            for octets in (T, P) for previous in (0, 1) for n in range(129)]


def one_wrong_in_noise():
    """A frame with one wrong level behind random-looking levels, and a good frame, which alone is handed over."""
    stream, cases = Stream(23), []
    for number, n in enumerate((0, 0, 1, 127, 128, 128, *range(4, 126, 3))):
        noise = [(0, 1, 0, 1, 2, 0, 1, 7)[stream.below(8)] for _ in range(1 + stream.below(24))]
        spoilt = run_of(bits_of(stream.good_image() if number % 2 == 0 else HEARD[number % 8]), stream.below(2))
        spoilt, good = link1.with_wrong(spoilt, n), stream.good_image()
        run = noise + spoilt + levels_of(bits_of(good), spoilt[-1])
        cases.append(hears_levels(run, [(len(run), good)]))
    return cases


def one_wrong_between():
    """Three frames in turn with one wrong level; that which ends a frame and stands before the next spoils both."""
    cases = []
    run = run_of(bits_of(P, HEARD[4], T), 0)
    for n in (0, 1, 9, 64, 120, 126, 127, 128, 129, 130, 137, 200, 255, 256, 257, 258, 300, 383, 384):
        frames = [(128 * place + 129, octets) for place, octets in enumerate((P, HEARD[4], T))
                  if not 128 * place <= n <= 128 * place + 128]
        assert len(frames) == (1 if n in (128, 256) else 2)
        cases += [hears_levels(levels, frames) for levels in (link1.with_wrong(run, n),
                                                              swapped(link1.with_wrong(run, n)))]
    return cases


def pass_together(n, m):
    """Two wrong levels among the same two columns of two groups turn each column twice, and no check tells it."""
    return n % 8 == m % 8 and link1.one_wrong_by_place(n) == link1.one_wrong_by_place(m) == 5


def two_wrong_levels():
    """Two wrong levels of P: every two that leave a good frame, which is then another one, and some that leave none."""
    runs = [run_of(bits_of(P), previous) for previous in (0, 1)]
    left = [(n, m) for n in range(129) for m in range(n + 1, 129)
            if link1.verdict(link1.decoded_image(link1.with_wrong(runs[0], n, m))) == link1.GOOD]
    assert left == [(n, m) for n in range(129) for m in range(n + 1, 129) if pass_together(n, m)]
    other = image(message("S4", x=387), message("Blank"))
    cases = [hears_levels(link1.with_wrong(run, 36, 44), [(129, other)]) for run in runs]
    cases += [lines.verdict(other), lines.open_image(other)]
    cases += [hears_levels(link1.with_wrong(runs[0], n, m), [(129, turned(P, n, n + 1, m, m + 1))]) for n, m in left]
    apart = [(0, 1), (0, 8), (0, 128), (1, 2), (7, 8), (8, 9), (8, 16), (9, 10), (9, 17), (15, 16), (16, 17),
             (16, 24), (17, 18), (17, 25), (35, 44), (36, 37), (36, 43), (36, 45), (40, 41), (44, 45), (56, 64),
             (63, 127), (64, 65), (72, 73), (73, 81), (112, 120), (119, 120), (119, 127), (120, 121), (120, 128),
             (121, 122), (122, 127), (126, 127), (126, 128), (127, 128)]
    stream = Stream(24)
    while len(apart) < 65:
        n, m = stream.below(129), stream.below(129)
        if n < m and (n, m) not in left:
            apart.append((n, m))
    return cases + [hears_levels(link1.with_wrong(runs[(n + m) % 2], n, m), []) for n, m in apart]


def swapped_midway():
    """The wires swapped from level n of P on: one bit is turned, and a seventh bit of a data group passes."""
    run, cases = run_of(bits_of(P), 0), []
    for n in range(1, 129):
        heard = [(129, turned(P, n))] if n in range(16, 121, 8) else []
        cases.append(hears_levels(run[:n] + swapped(run[n:]), heard))
    return cases + [lines.verdict(turned(P, 16)), lines.open_image(turned(P, 16))]


# 01 'Messages', altitude and track number text.

def altitudes():
    """The feet at each step and around each half step, and far beyond."""
    cases = []
    for step in range(-1, 514):
        cases += [lines.altitude(375 * step + feet) for feet in (0, 186, 187, 188, 189)]
    return cases + [lines.altitude(feet) for feet in (
        -2147483648, -2147483647, -1000000, -376, -2, -1, 1, 2, 374, 376, 191624, 191625, 191626, 191811, 191814,
        200000, 245760, 16777216, 1073741823, 1073741824, 1431655765, 2147483000, 2147483459, 2147483460, 2147483646,
        2147483647)]


def text_characters():
    """Each octet in each place of a track number's text."""
    cases = []
    for place in range(5):
        for octet in range(256):
            text = bytearray(b"GK352")
            text[place] = octet
            cases.append(lines.track_number(bytes(text)))
    return cases


def texts():
    """Each value of each place, other numbers and lengths, and what is refused, of track number text."""
    cases = []
    for place in range(5):
        for value in range(8):
            for number in (value * 8 ** place, 0o52743 - 0o52743 // 8 ** place % 8 * 8 ** place + value * 8 ** place):
                cases.append(lines.track_text(number, LENT[:5]))
    for at in range(15):
        cases += [lines.track_text(2 ** at, LENT[:5]), lines.track_text(32767 - 2 ** at, LENT[:5])]
    for number in (32768, 32769, 37971, 40000, 65534, 65535):
        cases += [lines.track_text(number, buffer) for buffer in (LENT[:5], b"KLMNO", LENT[:4])]
    for length in range(9):
        cases += [lines.track_text(5203, LENT[:length]), lines.track_text(5203, b"abcdefgh"[:length]),
                  lines.track_text(32768, LENT[:length]), lines.track_number(b"EG123456"[:length]),
                  lines.track_number(b"B?!99999"[:length])]
    cases += [lines.track_text(32768, b"ab de"), lines.track_text(32768, b"!~!~!"),
              lines.track_text(32768, b"abcd\x7f"), lines.track_text(65535, b"abcd\x80")]
    cases += [lines.track_number(text, ["=" + text.decode("ascii")]) for text in (
        b"EG123", b"GE321", b"AM076", b"MA670", b"HJ345", b"KL501", b"eg123", b"EG128", b"E1123", b"EGA23", b"IO000",
        b"CD111", b"AA00", b"AA0000", b"EG1*3", b"12EGH", b"00000", b"AAAAA")]
    cases += [lines.track_number(b"EG123", ["=EG", "x313233"]), lines.track_number(b"AA111", ["x41*2", "x31*3"]),
              lines.track_number(b"AA111", ["x", "=AA", "x", "x3131*2"])]
    return cases


# How lines are written.

def relay_writings():
    """Relays written in other ways: as many offsets and octets as a line may have, octets in several parts, none."""
    by_hand = ((" 16 by and of", 16, [], [], b""), (" 0 by and of", 0, [], [], b""),
               (" 16 by and of x", 16, [], [], b""), (" 2 by 1 and 2 of x x", 2, [1], [2], b""),
               (" 2 by and of x00ba*14 xff", 2, [], [], T), (" 0 by and of x00ba*14 xff", 0, [], [], T),
               (" 256 by and of x00ba*14 xff", 256, [], [], T), (" 16 by and of x00 xba*14 xff", 16, [], [], T),
               (" 16 by 0 and -1 of :0 x xba*7 xba*7 xff*1", 16, [0], [-1], T),
               (" 16 by 400 400 and of x00c480*13 xbb", 16, [400, 400], [], P),
               (" 16 by and 400 400 of x00c4 x80*13 xbb", 16, [], [400, 400], P),
               (" 16 by -2147483648 and of x00c480*13 xbb", 16, [-2147483648], [], P),
               (" 16 by and 2147483647 of x00c480*13 xbb", 16, [], [2147483647], P),
               (" 16 by%s and%s of x00c480*13 xbb" % (" 1" * 16, " 2" * 16), 16, [1] * 16, [2] * 16, P),
               (" 16 by and%s of x00c480*13 xbb" % (" -3" * 16), 16, [], [-3] * 16, P),
               (" 16 by and of =of", 16, [], [], b"of"), (" 16 by 1 and 2 of =by =and =of", 16, [1], [2], b"byandof"),
               (" 16 by and of =0123456789abcdef", 16, [], [], b"0123456789abcdef"),
               (" 16 by and of x00*65664", 16, [], [], bytes(65664)),
               (" 16 by and of :" + "0" * 8172, 16, [], [], bytes(8172)))
    return [("relay" + text, lines.relay(length, x_offsets, y_offsets, octets)[1])
            for text, length, x_offsets, y_offsets, octets in by_hand]


def other_writings():
    """Octets written in other ways, notes and empty lines."""
    cases = [lines.verdict(T, ["x00", "xba*14", "xff"]), lines.verdict(T, ["x00ba*14", "xff"]),
             lines.verdict(b"", ["x"]), lines.verdict(T, ["x" + T.hex()]), lines.verdict(N, [":0", "x80*14", "xff*1"]),
             lines.verdict(b"", ["x", "x"]), lines.verdict(b"0123456789abcdef", ["=0123456789abcdef"]),
             lines.verdict(bytes(16), [":0*16"]), lines.verdict(bytes(16), ["x00*8", ":0*7", ":0"]),
             lines.verdict(bytes(65664), ["x00*65664"]), lines.verdict(bytes(65664), ["x00*65663", ":0"]),
             lines.verdict(bytes(8183), [":" + "0" * 8183])]
    cases += [("hear :0011 =01 :9", lines.heard(link1.FRESH, [0, 0, 1, 1, 48, 49, 9])),
              ("hear :01*3 x00*2", lines.heard(link1.FRESH, [0, 1, 1, 1, 0, 0])),
              ("hear", lines.heard(link1.FRESH, [])), ("hear x", lines.heard(link1.FRESH, [])),
              ("close S0 S0", "2 0 0 x"), ("open", "2 0 0"), ("verdict", "2 0 0"), ("send 0 0", "2 0 0 :"),
              ("track_text 7", "2 0 0 x"), ("track_number", "2 0 0"), ("search 0", "10 0 0"),
              ("search 1099511627776", "9 0 0")]
    for text, octets in (("", b""), (" x", b""), (" x x", b""), (" :0 x x80*14 xff", N),
                         (" x00c480*13 xbb =01 :01*3", P + b"01\x00\x01\x01\x01")):
        cases.append(("hear_octets" + text, hears([octets])[0][1]))
    for text, octets in (("x00*40", bytes(40)), ("x00*16", bytes(16)), ("xff*17", b"\xff" * 17),
                         ("x00c480*13 xbb x", P), ("xff00 xba*14 xff", b"\xff" + T),
                         ("x5a =abc x00*12 :09", b"Zabc" + bytes(13) + b"\t"),
                         ("=0123456789abcdef01", b"0123456789abcdef01")):
        cases.append(("resume_octets " + text, resumes(octets[:16], octets[16:])[1]))
    cases += relay_writings() + [("", ""), ("", "")]
    cases += [(text, text) for text in ("#", "##", "#note", "# two  spaces and one at the end ", "# verdict x00",
                                        "#\x00\x01\t\r\x7f\x80\xc3\xa9\xff odd octets")]
    return cases


def odd_numbers():
    """Numbers that are not written as they would be printed, or are too large for their type."""
    words = ["01", "00", "-0", "+1", "-", "+", "1.0", "0x1", "1e0", "one", "--1", "1-", "-01", "1,0", "'1'", "\xb2",
             "1_0", "99999999999999999999999999", "-99999999999999999999999999", "18446744073709551617",
             "1099511627777"]
    texts = ["kind_named " + word for word in words + ["256", "-1"]]
    texts += ["altitude " + word for word in words + ["2147483648", "-2147483649", "4294967297", "00375"]]
    texts += ["search %s x00" % word for word in words + ["-1", "18446744073709551616"]]
    texts += ["send %s 128 x00" % word for word in words + ["-1", "256"]]
    texts += ["send 0 %s x00" % word for word in words + ["-1", "257"]]
    texts += ["resume %s 0 x00*16" % word for word in words + ["-1", "2", "255"]]
    texts += ["resume 0 %s x00*16" % word for word in words + ["-1", "256"]]
    texts += ["track_text %s x00*5" % word for word in words + ["-1", "65536"]]
    texts += ["refusal_of " + word for word in words + ["-1", "256"]]
    texts += ["refusal_at %s 1" % word for word in words[:4] + ["-1", "256"]]
    texts += ["refusal_at 1 %s" % word for word in words[:4] + ["-1", "256"]]
    for parts in ("%s 1 1", "1 %s 1", "1 1 %s"):
        texts += ["refusal_inside " + parts % word for word in words[:4] + ["-1", "256"]]
    texts += ["relay %s by 1 and 1 of x00" % word for word in words + ["-1", "257", "1000", "65552"]]
    for parts in ("16 by %s and of x00", "16 by and %s of x00", "16 by 1 %s 1 and 1 of x00", "16 by 1 and 1 %s of x00"):
        texts += ["relay " + parts % word for word in words + ["2147483648", "-2147483649", "4294967296", "0375"]]
    texts += ["hear :0*" + word for word in words + ["0", "-1", "65665", ""]]
    texts += ["hear_octets x00*" + word for word in words + ["0", "-1", "65665", ""]]
    texts += ["resume_octets x00*" + word for word in words + ["0", "-1", "15", "65665", ""]]
    return [lines.not_understood(text) for text in texts]


def wrong_numbers(kind, word):
    """Numbers that the call cannot be given in this field."""
    if word in link1.SIGNED:
        return "-32769", "32768"
    if word in ("emergency", "validation", "simulated", "drop", "acquisition"):
        return "-1", "2", "01"
    if word in WIDE or word == "number" and kind in link1.TRACKS:
        return "-1", "65536", "01"
    return "-1", "256", "01"


def odd_messages():
    """Messages with a word or number that is wrong, a part missing or too many."""
    texts = []
    for kind in ("S3", "S4", "S4+", "S5", "S6", "S8", "S8+", "S9"):
        words = lines.message_words(FIRST.get(kind) or SECOND[kind]).split()
        texts += [" ".join(words[:length]) for length in range(1, len(words))] + [" ".join(words + ["0"])]
        for at in range(1, len(words), 2):
            for wrong in wrong_numbers(kind, words[at]):
                texts.append(" ".join(words[:at + 1] + [wrong] + words[at + 2:]))
            texts.append(" ".join(words[:at] + [words[at] + "s"] + words[at + 1:]))
            if words[at] not in link1.PRESENCE:
                texts.append(" ".join(words[:at + 1] + ["absent"] + words[at + 2:]))
        texts.append(" ".join(words[:1] + words[3:5] + words[1:3] + words[5:]))
    texts += ["", "S9+", "S.4", "s4 number 0 quality 0 x 0 y 0", "S4 number 0 quality 0 y 0 x 0", "Blank 0", "S0 S0",
              "blank", "S3 mode3a Absent request 0 emergency 0 validation 0 mode1 absent mode2 absent",
              "S4+number 0 quality 0 x 0 y 0", "S5+ altitude 0", "Blank Blank",
              "S9+ area 0 site 0 number 0 drop 0 x 0 y 0", "S.9 area 0 site 0 number 0 drop 0 x 0 y 0",
              "s9 area 0 site 0 number 0 drop 0 x 0 y 0", "S9 area 0 number 0 site 0 drop 0 x 0 y 0",
              "S9 area 0 site 0 number 0 drop 0 y 0 x 0", "S9 number 0 quality 0 x 0 y 0"]
    return [lines.not_understood("kind_of" + (" " + text if text else "")) for text in texts]


def odd_relays():
    """Relays with a word or part that is wrong, missing, too many or out of order; the shift that is none any more."""
    p, s4 = "x00c480*13 xbb", "S4 number 1 quality 1 x 1 y 1"
    many = " 1" * 17
    texts = ["", " ", " 16", " 16 ", " by", " of", " by and of", " 16 by", " 16 by and", " 16 by and ",
             " 16 by 1 and 2", " 16 by 1 and 2 " + p, " 16 by 1 of x00", " 16 by of", " 16 by 1 2 of " + p,
             " 16 and of " + p, " 16 1 and 2 of " + p, " 16 of " + p, " 16 " + p, " " + p, " 16 and 1 by 2 of " + p,
             " 16 by 1 of 2 and " + p, " 16 of %s by 1 and 2" % p, " by 1 and 2 of 16 " + p, " by 1 and 2 of " + p,
             " 16 by and and of " + p, " 16 by 1 and 2 and of " + p, " 16 by 1 and 2 and 3 of " + p,
             " 16 by by and of " + p, " 16 by 1 by and of " + p, " 16 by and by of " + p, " 16 by of and of " + p,
             " 16 by and of of " + p, " 16 by and of and of " + p, " 16 by and of %s of" % p,
             " 16 by and of %s and" % p, " 16 By 1 and 2 of " + p, " 16 by 1 And 2 of " + p, " 16 by 1 and 2 Of " + p,
             " 16 BY 1 AND 2 OF " + p, " 16 bye 1 and 2 of " + p, " 16 by 1 ands 2 of " + p, " 16 by 1 and 2 off " + p,
             "16 by and of " + p, " 16by and of " + p, " 16 by1 and of " + p, " 16 by 1and of " + p,
             " 16 by and1 of " + p, " 16 by and 1of " + p, " 16 by and of" + p, " 257 by and of",
             " 257 by 1 and 2 of " + p, " -1 by and of", " 16 16 by and of " + p, " x10 by and of " + p,
             " :16 by and of " + p, " 16 by x01 and of " + p, " 16 by and :1 of " + p, " 16 by =1 and of " + p,
             " 16 by 1, 2 and of " + p, " 16 by 1 and 2 of 3", " 16 by 1 and 2 of 00c4", " 16 by and of x0",
             " 16 by and of xBA", " 16 by and of x*3", " 16 by and of x 00", " 16 by and of ", " 16 by and of %s " % p,
             "  16 by and of " + p, " 16  by and of " + p, " 16 by  and of " + p, " 16 by 1  2 and of " + p,
             " 16 by and  of " + p, " 16 by and of  " + p, " 16 by%s and of %s" % (many, p),
             " 16 by and%s of %s" % (many, p), " 16 by%s and%s of %s" % (many, many, p), " 16 by%s and of" % (many * 2),
             " 16 by and of x00*65665", " 16 by and of x00*65664 x00", " 16 by and of :" + "0" * 8173,
             " 16 by and of\r", " 16 by and of x00\r", " 16 by and of x00\x00", "\t16 by and of " + p,
             " 16 by and\tof " + p, " 16 by 1\xa02 and of " + p, " 16 by and of S0 S0", " 16 by 1 and 2 of " + s4,
             " %s by 1 and 2" % s4, " 16 %s by 1 and 2 of %s" % (s4, p)]
    texts = ["relay" + text for text in texts] + ["Relay 16 by and of " + p, "RELAY 16 by and of " + p]
    texts += [word + " 16 by and of " + p for word in ("relays", "relay_", "rela", "shift", "Shift", "move")]
    return texts + ["shift", "shift " + s4, "shift %s by 1 and 2" % s4, "shift %s by and" % s4, "shift S0 by and",
                    "shift S9 area 1 site 1 number 1 drop 1 x 1 y 1 by 400 400 and"]


def odd_lines():
    """Lines that are not understood for other reasons; the program goes on behind each."""
    s4, s9 = "S4 number 1 quality 1 x 1 y 1", "S9 area 1 site 1 number 1 drop 1 x 1 y 1"
    texts = ["hello", "Verdict x00", "VERDICT x00", "verdicts x00", "verdictx00", "openx00", "?", "0", " ", "  ",
             " verdict x00", "verdict x00 ", "verdict  x00", "verdict x00  x00", " # a note with a space before it",
             "label", "label S4 S4", "label S9+", "label S.4", "label s4", "label 17", "label Blank ", "kind_named",
             "kind_named 1 2", "kind_named x01", "kind_of", "numbers 0", "numbers ", "Numbers", "altitude",
             "altitude 1 2", "altitude  1", "altitude x01", "refusal_of", "refusal_of 1 1", "refusal_at",
             "refusal_at 1", "refusal_at 1 2 3", "send", "send 0", "send x00", "resume", "resume 0", "resume 0 0",
             "resume 0 0 x", "resume 0 0 x00*15", "resume 1 1 x00*14 :0", "search", "search x00", "search :0 x00",
             "track_text", "track_text x00", "track_number EG123", "track_number =EG1 23", "close", "close S0",
             "close " + s4, "close S0 x00*16", "close x00*16", "close S0 S0 S0 x00*16", "close S0 S9 x00*16", "open S0",
             "verdict 00", "verdict 0", "verdict x0", "verdict x000", "verdict xBA", "verdict xbA", "verdict x0g",
             "verdict x 00", "verdict x00,00", "verdict X00", "verdict x00:0", "verdict :0x00", "verdict :a",
             "verdict :0-", "verdict :-1", "verdict :0*2*2", "verdict x00*2x00", "verdict *3", "verdict x*3",
             "verdict x00*", "verdict x00* 3", "verdict x00 *3", "verdict x00*3 *3", "verdict x00*65664 x00",
             "verdict x00 x00*65664", "verdict x00*65665", "hear x00*40000 :1*25665", "hear 01", "hear :01 2",
             "track_text 1 x00*65664 x00", "search 0 x00*65664 :0", "close S0 S0 x00*65665", "verdict ::0",
             "verdict xx00", "\x00", "\x00\x00", "\xff\xfe", "\x7f", "\xc3\xa9", "\xe2\x82\xac 1",
             "verdict\tx00", "\tverdict x00", "verdict x00\r", "verdict\x00x00",
             "verdict x00\x00", "label S4\x00", "label S4\r", "hear :0\x7f1", "hear :0\xff", "numbers\x00", "numbers\r",
             "altitude 1\x0b", "altitude \xb2", "\r", "\x1a", "\x1b[0m", "label S4\xa0", "kind_named\xa01",
             "verdict :" + "0" * 8184, "x" * 8193, "numbers" + " " * 8186, "label S9 S9", "label S.9", "label s9",
             "label 5", "close S0 S9+ x00*16", "close S9 S9 x00*16", "close " + s9, "close %s x00*16" % s9,
             "close %s S9 x00*16" % s9, "close S9 %s x00*16" % s9, "refusal_inside", "refusal_inside 1",
             "refusal_inside 1 2", "refusal_inside 1 2 3 4", "refusal_inside 1 2 3 ", "refusal_inside 1 2 x03",
             "refusal_of 1 2 3",
             "hear_octet", "hear_octet x00", "Hear_octets x00", "HEAR_OCTETS x00", "hear_octets01", "hear_octetsx00",
             "hear_octets_ x00", "hear octets x00", "hear_octets ", "hear_octets 01", "hear_octets 0", "hear_octets x0",
             "hear_octets x000", "hear_octets xBA", "hear_octets x0g", "hear_octets :01 2", "hear_octets x00 ",
             "hear_octets  x00", "hear_octets x00  x00", "hear_octets x 00", "hear_octets x*3", "hear_octets x00:0",
             "hear_octets x00*40000 :1*25665", "hear_octets x00*65664 x00", "hear_octets :0\x7f1", "hear_octets x00\r",
             "hear_octets\tx00", "resume_octets", "resume_octets ", "resume_octets x", "resume_octets x00",
             "resume_octets x00*15", "resume_octets x00*14 :0", "resume_octets x00*8 x00*7", "resume_octets 0 x00*16",
             "resume_octets 1 0 x00*16", "resume_octets :0 0 x00*16", "resume_octets x00*16 0", "resume_octets x00*16 ",
             "resume_octet x00*16", "Resume_octets x00*16", "resume_octetsx00*16", "resume octets x00*16",
             "resume_octets x00*65664 x00", "resume_octets =0123456789abcde"]
    texts += odd_relays()
    cases = []
    for number, text in enumerate(texts):
        cases.append(lines.not_understood(text))
        if number % 8 == 7 or len(text) > 8000:
            cases.append(lines.label(link1.KINDS[number % len(link1.KINDS)]))
    return cases


# Lines as a person writes them. The answer is worked by the model; a further case is a further line.
BY_HAND = (
    "open x00c480*13 xbb",
    "relay 16 by 400 400 and of x00c480*13 xbb",
    "track_number =EG123",
    "close S4 number 5203 quality 1 x -12 y 40 Blank x00*16",
    "wrong_levels 0 x00c480*13 xbb",
)

# The first of them without the x, the second with a comma: docs/CASES.md shows both.
MISTAKEN = ("open 00c480*13 bb", "relay 16 by 400, 400 and of x00c480*13 xbb")


def by_hand():
    """Lines written by hand: those of the README and of docs/CASES.md, and two mistaken ones."""
    return [lines.said(text) for text in BY_HAND] + [lines.not_understood(text) for text in MISTAKEN]


def last_line():
    """A last line without line feed."""
    return [lines.verdict(Q)]


GROUPS = (examples, names, pairs_closed, pairs_opened, labels_opened, whole_messages, random_messages, fields_whole,
          field_bits_closed, bits_opened, bits_missing, field_ranges, codes, small_numbers, signed_patterns,
          test_message, blank_message, modes_opened, modes_closed, digits_left, digits_elsewhere, spare_bits,
          broken_patterns, spare_beside_codes, troubles_closed, codes_too_wide, random_troubles, both_wrong_opened,
          both_wrong_closed, frame_bits, check_bits, octets_judged, lengths, order_of_opening, order_of_closing,
          order_of_sending, sending, frames_heard, noise_heard, false_locks, refused_levels, frames_in_turn,
          faulty_runs, turned_runs, cut_runs, resumed, octet_frames, octet_runs_cut, octet_frames_in_turn,
          octet_false_locks, octets_turned, octet_frames_damaged, octet_stretches, octets_before_the_first,
          octets_of_noise, octet_windows, octet_windows_damaged, octet_windows_random, octets_backwards,
          aligned_captures, two_frame_captures, damaged_captures, plain_captures, long_captures, striped_captures,
          false_lock_captures, every_start, frames_at_the_end, marks_in_step, frames_from_each_octet,
          relays_around_steps, relays_by_lists, relay_limits, relay_edges, relay_results, relay_contents, random_relays,
          relays_of_damaged, relay_buffers, relays_without_position, relays_refused_as_opened, order_of_relaying,
          relays_of_digits, relays_and_back, relays_half_way_back,
          one_wrong_level, one_wrong_refused, one_wrong_writings, one_wrong_heard, one_wrong_in_noise,
          one_wrong_between, two_wrong_levels, swapped_midway,
          altitudes, text_characters, texts, other_writings, odd_numbers, odd_messages, odd_lines, by_hand, last_line)


def all_cases():
    """Every case: an empty line, the note and the cases of each group."""
    cases = []
    for group in GROUPS:
        if cases:
            cases.append(("", ""))
        cases.append(lines.note(group.__doc__))
        cases += group()
    return cases


def replay_files():
    """The lines and their answers as octets; the last line of the input has no line feed."""
    cases = all_cases()
    calls = "\n".join(call for call, _ in cases)
    answers = "".join(answer + "\n" for _, answer in cases)
    return calls.encode("latin-1"), answers.encode("latin-1")
