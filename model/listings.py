"""The files that are listed, and what the listing program prints for each of them (01 'The listing program')."""

import link1
from cases import MODES, PLACES, digits_of, faulty_image, pair_of
from values import (FIRST, LEGAL_PAIRS, N, P, Q, SECOND, T, Stream, changed, checks_kept, image, label_bits, message,
                    turned, turned_in_both, turned_in_message, word_image)


def listing(log):
    if len(log) > 65536:
        return ["TOO LONG"]
    images = len(log) // 16
    listed = ["LINK1"]
    for n in range(1, images + 1):
        (number, place, bit), pair = link1.open_image(log[16 * (n - 1):16 * n])
        if number == 0:
            listed.append("%d 0 %d %d" % (n, link1.LABELS[pair[0][0]], link1.LABELS[pair[1][0]]))
        elif number in link1.INSIDE:  # 02 Item 4: the bit is a fourth number for these refusals only
            listed.append("%d %d %d %d" % (n, number, place, bit))
        else:
            listed.append("%d %d %d" % (n, number, place))
    listed.append("END %d %d" % (images, len(log) - 16 * images))
    return listed


def mixed():
    unknown = link1.message_bits(SECOND["S6"])
    link1.write_bits(unknown, 1, 6, 37)
    return [T, image(FIRST["S6"], SECOND["S6"]), Q, turned(P, 8), turned(P, 125),
            word_image(link1.message_bits(FIRST["S4"]), unknown),
            turned_in_message(FIRST["S8+"], SECOND["S3"], 2, 21), image(FIRST["S4"], SECOND["S6"])]


def corners():
    first, second = FIRST["S9"], SECOND["S9"]
    associated = link1.message_bits(first)
    link1.write_bits(associated, 1, 6, 37)
    return [image(first, second), turned_in_message(first, second, 1, 20), turned_in_message(first, second, 2, 9),
            image(first, message("Blank")), word_image(associated, link1.message_bits(second))]


def modes():
    """02 Item 2: digits left in each mode and in all; code 0; zeroed, and the check bits kept; spare bit, request."""
    track, given, digits = FIRST["S4+"], SECOND["S3"], digits_of(*MODES)
    zeros, absent = changed(given, **dict.fromkeys(MODES, 0)), changed(given, **dict.fromkeys(MODES))
    left = turned_in_message(track, absent, 2, *digits)
    images = [turned_in_message(track, changed(given, **{word: None}), 2, *digits_of(word)) for word in MODES]
    return images + [left, image(track, zeros), link1.zeroed(left), checks_kept(left),
                     turned_in_message(track, absent, 2, 29, *digits),
                     turned_in_message(track, changed(absent, request=5), 2, *digits)]


def pairs():
    return [image(FIRST[first], SECOND[second]) for first, second in LEGAL_PAIRS]


def several_troubles():
    """02 Item 4: several wrong bits, a spare bit beside a code not used, both messages: the first one's lowest bit."""
    test, blank = message("S0"), message("Blank")
    chosen = ((7, 8), (14, 49), (30, 15), (9, 21, 42), (48, 49))
    images = [turned_in_message(test, test, which, *numbers) for which in (1, 2) for numbers in chosen]
    images += [turned_in_message(FIRST["S6"], blank, 2, *numbers) for numbers in chosen]
    images += [turned_in_message(FIRST["S4+"], changed(SECOND["S3"], request=code), 2, n)
               for code in link1.NOT_USED["request"] for n in link1.SPARE["S3"]]
    images += [turned_in_message(FIRST["S9"], SECOND["S9"], which, *numbers) for which in (1, 2)
               for numbers in ((9, 10), (10, 20), (23, 21), (20, 22, 23))]
    images += [turned_in_both(test, [n], test, [56 - n]) for n in (7, 20, 40, 49)]
    images += [turned_in_both(message("S6", elevation=14), [], blank, [n]) for n in (7, 39, 41)]
    return images + [turned_in_both(FIRST["S9"], [n], SECOND["S9"], [m]) for n, m in ((9, 23), (23, 9), (20, 20))]


def refusals():
    both, blank = (message("S0"), message("S0")), (FIRST["S4"], message("Blank"))
    good = (FIRST["S4"], SECOND["S6"])
    images = [turned(image(*good), n) for n in (*range(1, 9), *link1.MARKS, *range(122, 128))]
    unknown = [label for label in range(64) if label not in link1.LABELS.values()]
    for label in unknown:
        images += [word_image(label_bits(label), link1.message_bits(SECOND["S6"])),
                   word_image(link1.message_bits(FIRST["S4"]), label_bits(label))]
    images += [image(message(first), message(second)) for first in link1.KINDS for second in link1.KINDS
               if (first, second) not in LEGAL_PAIRS]
    images += [turned_in_message(*both, which, n) for which in (1, 2) for n in range(1, 50)]
    images += [turned_in_message(*blank, 2, n) for n in range(1, 50)]
    images += [turned_in_message(FIRST["S4+"], SECOND["S3"], 2, n) for n in link1.SPARE["S3"]]
    images += [turned_in_message(FIRST["S9"], SECOND["S9"], which, n) for which in (1, 2) for n in link1.SPARE["S9"]]
    images += [image(message("S4+"), message("S3", request=code)) for code in link1.NOT_USED["request"]]
    images += [image(message("S8+"), message("S5", strength=code)) for code in link1.NOT_USED["strength"]]
    for code in link1.NOT_USED["elevation"]:
        images += [image(message("S6", elevation=code), message("S4")),
                   image(message("S8"), message("S6", elevation=code))]
    faults = ("3", "4", "5", "6a", "6b", "7", "in a", "in b")
    images += [faulty_image([one, two]) for at, one in enumerate(faults) for two in faults[at + 1:]]
    return images + several_troubles()


def damaged():
    stream = Stream(8)
    images = [turned(P, n) for n in range(1, 129)]
    images += [stream.octets(16) for _ in range(48)]
    images += [word_image(stream.word(), stream.word()) for _ in range(64)]
    for kinds in LEGAL_PAIRS * 8:
        words = (stream.word(), stream.word())
        for word, kind in zip(words, kinds):
            link1.write_bits(word, 1, 6, link1.LABELS[kind])
        images.append(word_image(*words))
    return images


def fields():
    images = [turned_in_message(*pair_of(message(kind), which, other), which, n)
              for kind, which, other in PLACES for n in range(7, 50)]
    for word in MODES:
        images += [turned_in_message(message("S4+"), message("S3"), 2, link1.PRESENCE[word], n) for n in MODES[word]]
    for word in MODES:
        others = [link1.PRESENCE[other] for other in MODES if other != word]
        images += [turned_in_message(message("S4+"), message("S3"), 2, *others, n) for n in MODES[word]]
    return images


def sixteen():
    """Sixteen images that are listed in sixteen ways."""
    good = [image(FIRST[first], SECOND[second]) for first, second in
            (("S0", "S0"), ("S4", "Blank"), ("S4", "S6"), ("S4+", "S3"), ("S6", "S8"), ("S8", "S4"), ("S8+", "S5"),
             ("S4+", "S5"))]
    return good + [faulty_image([fault]) for fault in ("3", "4", "5", "6a", "6b", "7", "in a", "in b")]


def logs():
    """Each listed file's name and octets, in order."""
    full = b"".join(sixteen()) * 256
    return [("none", b""), ("short", P[:15]), ("left", P + Q + N + T[:7]), ("mixed", b"".join(mixed())),
            ("corners", b"".join(corners())), ("modes", b"".join(modes())), ("pairs", b"".join(pairs())),
            ("refusals", b"".join(refusals())), ("damaged", b"".join(damaged())), ("fields", b"".join(fields())),
            ("full", full), ("over", full + b"\x00")]


def text(printed):
    return "".join(line + "\n" for line in printed).encode("ascii")


def listed_files():
    """The paper's own log and its listing; each listed file with its path."""
    files = [("crates/link1list/stdin", T + N), ("crates/link1list/stdout", text(listing(T + N)))]
    return files + [("crates/file_cases/data/logs/" + name, log) for name, log in logs()]


def printed_logs():
    """What is printed for all of them, each under its name."""
    return [line for name, log in logs() for line in ["== logs/" + name] + listing(log)]
