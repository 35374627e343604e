"""The tables of docs/REFERENCE.md: bits, ranges, codes, pairs and images are the model's, the words are here.

The page has each table between two comments, <!-- table NAME, made by model/make --> and <!-- end of table -->.
"""

import os
import re
import textwrap

import link1
from values import N, P, Q, T

PAGE = "docs/REFERENCE.md"
WIDTH = 120

# The kinds that are laid out alike, with the paragraph of 001, Annex C, Appendix 3, and what the message is.
LAID_OUT = ((("Blank",), 1, "fills the second place of a frame"),
            (("S0",), 2, "test message"),
            (("S3",), 5, "IFF/SIF message"),
            (("S4", "S4+"), 6, "basic track data"),
            (("S5",), 7, "amplifying track data"),
            (("S6",), 8, "strobe data"),
            (("S8", "S8+"), 10, "basic AEW track data"),
            (("S9",), 11, "area corner point"))

# Of each field the paragraph of 001, Annex C, Appendix 3, what it is with its unit, and what its codes mean.
TRACK_WORDS = {
    "number": ("6.2", "track number; see 'Track numbers as text'", ""),
    "quality": ("6.3", "track or data quality", "0: high; 1: medium; 2: low; 3: very low"),
    "x": ("6.4", "X in link steps of 750 feet; east is positive", ""),
    "y": ("6.5", "Y in link steps of 750 feet; north is positive", ""),
}
WORDS = {
    "S3": {
        "mode3a": ("5.3", "Mode 3/A code; in octal its digits are A, B, C, D", ""),
        "request": ("5.4", "request or reply",
                    "0: no statement; 2: request to transmit an IFF/SIF message; 4: reply to such a request"),
        "emergency": ("5.5", "electronic emergency", "1: present"),
        "validation": ("5.7", "emergency status", "1: confirmed"),
        "mode1": ("5.9", "Mode 1 code: bits 33-35 are digit A, 31-32 digit B", ""),
        "mode2": ("5.11", "Mode 2 code; in octal its digits are A, B, C, D", ""),
    },
    "S4": TRACK_WORDS,
    "S5": {
        "altitude": ("7.2", "altitude in steps of 1/16 data mile, 375 feet",
                     "0: no statement; 1: 375 feet and below; 511: 191,625 feet"),
        "strength": ("7.3", "strength, or flight size",
                     "0: no statement; 2: one aircraft; 3: two; 4: three; 5: four to seven; 6: eight to twelve; "
                     "7: more than twelve"),
        "identification": ("7.4", "identification; carried, never interpreted", ""),
        "special23": ("7.5", "special use; carried, never interpreted", ""),
        "simulated": ("7.6", "simulation status", "0: live track; 1: simulated track"),
        "drop": ("7.7", "track drop indicator; carried", ""),
        "traffic": ("7.8", "air traffic class",
                    "0: no classification, no statement; 1: operational; 2: general; 3: called spare, carried"),
        "vx": ("7.9", "X velocity, in 1/128 data mile a second; east is positive", ""),
        "allocation": ("7.10", "target allocation; carried, never interpreted",
                       "0: not allocated; 1: to interceptor; 2: to surface-to-air missile; 3: Faker neutralized"),
        "special39": ("7.11", "special use; carried, never interpreted", ""),
        "vy": ("7.12", "Y velocity, in 1/128 data mile a second; north is positive", ""),
    },
    "S6": {
        "acquisition": ("8.2", "how the strobe was acquired", "0: automatically; 1: manually"),
        "width": ("8.3", "width category, in degrees",
                  "0: no statement; 1: less than 0.7; 2: 0.7 to 1.4; 3: 1.4 to 2.8; 4: 2.8 to 5.6; 5: 5.6 to 11.3; "
                  "6: 11.3 to 22.5; 7: 22.5 and above"),
        "strobe_type": ("8.4", "type: what the strobe represents",
                        "0: centre of a jammed sector; 1: its start; 2: its end; 3: delete the strobe"),
        "simulated": ("8.5", "simulation status", ""),
        "azimuth": ("8.6", "azimuth, in 1/4096 of a turn from true north", ""),
        "site": ("8.7", "originating site", "0: no statement; else the site's number"),
        "sensor": ("8.8", "sensor type", "0: no statement; 1: NADGE MPR; 2 to 7: called spare, carried"),
        "number": ("8.9", "strobe number", "0: no number assigned"),
        "elevation": ("8.10", "elevation", "0: no statement, or 2D radar; 1 to 12: beam of a 3D radar"),
        "age": ("8.11", "age of the data, in seconds", ""),
    },
    "S8": TRACK_WORDS,
    "S9": {
        "area": ("11.2", "area of the site, counted from 0", "0: the first area of the site, and so on to 3"),
        "site": ("11.4", "origin site: the two letters that begin its track numbers",
                 "8 times the first letter's number plus the second's; so 512 times the site is a track number with "
                 "these letters"),
        "number": ("11.5", "corner of the area, counted from 0",
                   "0: Point 1, which begins the first line and ends the fourth; and so on to 3: Point 4"),
        "drop": ("11.6", "area drop indicator; carried", "0: no statement; 1: drop order for the area"),
        "x": ("11.8", "X of the corner in link steps of 750 feet; east is positive", ""),
        "y": ("11.9", "Y of the corner in link steps of 750 feet; north is positive", ""),
    },
}

# 01 'Numbers a caller may get back', as 02 items 4 and 6 have it: when, place, bit.
REFUSALS = {
    0: ("nothing: success", "0", "0"),
    1: ("a level that is neither 0 nor 1", "0", "0"),
    2: ("a length: image, buffer, text, list of offsets, capture", "1, 2: the list of X, of Y; else 0", "0"),
    3: ("the start group", "0", "0"),
    4: ("a mark or the final one", "0", "0"),
    5: ("a check bit", "0", "0"),
    6: ("an unknown label", "1, 2: the message; 0: a label alone", "0"),
    7: ("a pair that is not in the table", "0", "0"),
    9: ("a number or character out of range", "of a relay 1 to 4, see below; else 0", "0"),
    10: ("no good frame at or after the start", "0", "0"),
    12: ("a fixed pattern: the bits of Blank, the groups of S.0", "1, 2: the message", "the lowest wrong bit"),
    13: ("a spare bit that is not zero", "1, 2: the message", "the lowest wrong bit"),
    14: ("a code that is not used", "1, 2: the message", "the field's lowest bit"),
    15: ("a number too wide for its field; closing only", "1, 2: the message", "the field's lowest bit"),
}


def paper_name(kind):
    """A kind as 001 writes it: S4+ is S.4+."""
    return kind.replace("S", "S.") if kind != "Blank" else kind


def row(*cells):
    return "| %s |" % " | ".join(str(cell) for cell in cells)


def table(head, rows):
    return [row(*head), "|" + "---|" * len(head)] + [row(*cells) for cells in rows]


def paragraph(text, indent=""):
    return textwrap.wrap(text, WIDTH, subsequent_indent=indent, break_long_words=False, break_on_hyphens=False)


def span(first, last):
    return "%d" % first if first == last else "%d-%d" % (first, last)


def runs_of(numbers):
    """The first and the last of each run of numbers."""
    runs = []
    for number in numbers:
        if runs and runs[-1][1] == number - 1:
            runs[-1][1] = number
        else:
            runs.append([number, number])
    return runs


def series(numbers):
    """Numbers in words: 1, 3, 5 to 7."""
    return ", ".join("%d" % first if first == last else "%d to %d" % (first, last) for first, last in runs_of(numbers))


def words_of(kind, word):
    words = WORDS.get(kind.rstrip("+"), {})
    if word not in words:
        raise SystemExit("model/reference.py has no words for %s of %s" % (word, kind))
    return words[word]


# ---- the tables, each a list of lines

def kinds_table():
    rows = []
    for kinds, number, what in LAID_OUT:
        for kind in kinds:
            position = "yes" if kind in link1.WITH_POSITION else "no"
            rows.append((link1.KINDS.index(kind), (paper_name(kind), "`%s`" % kind, link1.LABELS[kind],
                                                   "%02o" % link1.LABELS[kind], what, position, number)))
    if len(rows) != len(link1.KINDS):
        raise SystemExit("model/reference.py: LAID_OUT does not have each kind once")
    return table(("kind", "in a call", "label", "in octal", "what it is", "position", "paragraph"),
                 [cells for _, cells in sorted(rows)])


def field_rows(kind):
    """The rows of a kind's bits above the label, in rising order, and each bit once."""
    rows = []
    for word, first, last in link1.FIELDS[kind]:
        where, what, _ = words_of(kind, word)
        lowest, highest = link1.field_range(word, first, last)
        values = "%d to %d" % (lowest, highest) if highest > 1 else "0, 1"
        if word in link1.PRESENCE:
            values += ", or absent"
        rows.append((first, last, "`%s`" % word, values, series(link1.NOT_USED.get(word, ())) or "-", where, what))
        if word in link1.PRESENCE:
            bit = link1.PRESENCE[word]
            rows.append((bit, bit, "-", "0, 1", "-", "5.6", "1 if `%s` is present" % word))
    for first, last in runs_of(link1.SPARE.get(kind, ())):
        rows.append((first, last, "spare", "0", "-", "-", "zeros"))
    rows.sort()
    bits = [n for first, last, *_ in rows for n in range(first, last + 1)]
    if bits != list(range(7, 50)):
        raise SystemExit("model/reference.py: the rows of %s do not have each bit from 7 to 49 once" % kind)
    return [(span(first, last),) + tuple(rest) for first, last, *rest in rows]


def pattern_lines(kind):
    groups = ["".join(str(link1.pattern_bit(kind, 7 * group + n)) for n in range(1, 8)) for group in range(7)]
    assert len(set(groups)) == 1
    return paragraph("A fixed pattern. Each of the seven groups is %s, the lowest bit first; group 1 has the label in "
                     "it. Any other bit is refused 12." % " ".join(groups[0]))


def fields_tables():
    text = []
    for kinds, number, what in LAID_OUT:
        text += ["### %s: %s (paragraph %d)" % (" and ".join(map(paper_name, kinds)), what, number), ""]
        kind = kinds[0]
        assert all(link1.FIELDS[other] == link1.FIELDS[kind] for other in kinds)
        if not link1.FIELDS[kind]:
            text += pattern_lines(kind) + [""]
            continue
        text += table(("bits", "field", "range", "not used", "paragraph", "what it is"), field_rows(kind)) + [""]
        coded = [(word, words_of(kind, word)[2]) for word, _, _ in link1.FIELDS[kind] if words_of(kind, word)[2]]
        for word, codes in coded:
            text += paragraph("- `%s`. %s." % (word, codes), "  ")
        if coded:
            text.append("")
    return text[:-1]


def pairs_table():
    names = [paper_name(kind) for kind in link1.KINDS]
    rows = [[paper_name(first)] + ["yes" if link1.pair_is_legal(first, second) else "-" for second in link1.KINDS]
            for first in link1.KINDS]
    legal = sum(cells.count("yes") for cells in rows)
    text = table(["first \\ second"] + names, rows) + [""]
    return text + ["%d pairs of %d." % (legal, len(names) ** 2)]


def text_tables():
    rows = [(place, span(first, last), 2 ** (first - 7), "a letter" if characters == link1.LETTERS else "a digit")
            for place, (characters, first, last) in enumerate(link1.TEXT_PLACES, 1)]
    letters = [chr(letter) for letter in link1.LETTERS]
    number = link1.track_number(b"EG123")[1]
    values = [characters.index(octet) for octet, (characters, _, _) in zip(b"EG123", link1.TEXT_PLACES)]
    weighed = " + ".join("%d x %d" % (value, cells[2]) for value, cells in zip(values, rows))
    return (table(("character", "message bits", "weighs", "is"), rows) + [""]
            + table(["letter"] + letters, [["number"] + list(range(len(letters)))]) + [""]
            + ["EG123 is %s = %d." % (weighed, number)])


def said(pair):
    names = [paper_name(kind) for kind, _ in pair]
    return "%s, then %s" % tuple(names)


def images_table():
    rows = []
    for name, image in (("T", T), ("N", N), ("P", P), ("Q", Q)):
        (number, place, bit), pair = link1.open_image(image)
        opened = said(pair) if pair else "a good frame, refused %d" % number
        rows.append((name, "`%s`" % image.hex(" ").upper(), opened))
    return table(("image", "octets", "opens as"), rows)


def refusals_table():
    if sorted(REFUSALS) != sorted(link1.NUMBERS):
        raise SystemExit("model/reference.py: REFUSALS does not have each number once")
    return table(("number", "refused because of", "place", "bit"),
                 [(number,) + REFUSALS[number] for number in link1.NUMBERS])


TABLES = {"kinds": kinds_table, "fields": fields_tables, "pairs": pairs_table, "text": text_tables,
          "images": images_table, "refusals": refusals_table}

PLACE = re.compile(r"(<!-- table (\w+), made by model/make -->\n).*?(?=<!-- end of table -->)", re.S)


def page(root):
    """The page of a tree with each table as the model makes it."""
    with open(os.path.join(root, PAGE), encoding="utf-8") as file:
        text = file.read()
    places = [name for _, name in PLACE.findall(text)]
    if sorted(places) != sorted(TABLES):
        raise SystemExit("%s has places for the tables %s" % (PAGE, ", ".join(places)))
    return PLACE.sub(lambda found: found.group(1) + "\n" + "\n".join(TABLES[found.group(2)]()) + "\n\n", text)
