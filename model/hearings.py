"""The captures that are heard, and what the hearing program prints for each of them (02 Item 5)."""

import link1
from cases import HEARD, bits_of, capture_of, heard_alike
from listings import pairs, text
from values import FIRST, P, Q, SECOND, Stream, image, turned, word_image


def hearing(capture):
    """For each good frame that lies in the capture, the bits read through its last."""
    if len(capture) > 65536:
        return ["TOO LONG"]
    return [str(position + 128) for position in link1.frames_in(capture)]


def two():
    """Noise, three ones and P, thirteen ones, Q, and the beginning of another frame."""
    return capture_of(bits_of(b"\x6b\x1f\xd2") + [1] * 3 + bits_of(P) + [1] * 13 + bits_of(Q, P[:2]))


def eight():
    """A frame at each alignment, nine ones behind each."""
    return capture_of([bit for octets in HEARD for bit in bits_of(octets) + [1] * 9])


def back_to_back():
    """Five frames behind four ones."""
    return capture_of([1] * 4 + bits_of(image(FIRST["S8+"], SECOND["S5"]), P, image(FIRST["S6"], SECOND["S8"]), Q,
                                        image(FIRST["S9"], SECOND["S9"])))


def false_lock():
    """A start group and four marks, P right behind the last; a start group and three marks, Q where a fourth is due."""
    return capture_of(bits_of(P[:4]) + [1] + bits_of(P) + [1] * 7 + bits_of(Q[:4], Q))


def damaged():
    """P with each of its bits turned, and P."""
    return b"".join(turned(P, n) for n in range(1, 129)) + P


def traffic():
    """Frames of random-looking messages or bits, some with a bit turned; ones, zeros, random-looking bits between."""
    stream, bits = Stream(19), []
    while len(bits) < 32000:
        gap = stream.below(48)
        bits += ([1] * gap, [0] * gap, stream.bits(gap))[stream.below(3)]
        octets = stream.good_image() if stream.below(4) > 0 else word_image(stream.word(), stream.word())
        bits += bits_of(turned(octets, 1 + stream.below(128)) if stream.below(5) == 0 else octets)
    return capture_of(bits)


def captures():
    """Each heard capture's name and octets, in order."""
    full = (b"".join(pairs()) * 228)[:65536]
    return [("none", b""), ("short", P[:15]), ("one", P), ("two", two()), ("eight", eight()),
            ("back_to_back", back_to_back()), ("false_lock", false_lock()), ("damaged", damaged()),
            ("noise", Stream(18).octets(4096)), ("traffic", traffic()), ("idle", b"\xff" * 300), ("zeros", bytes(300)),
            ("full", full), ("full_shifted", capture_of([1] * 3 + bits_of(full))[:65536]), ("over", full + b"\x00")]


def compared(capture):
    """What both receivers and the search are held against each other on: the beginning of a long capture is enough."""
    return capture if len(capture) <= 4200 else capture[:512]


def heard_files():
    """The capture 'two' by itself and what is heard in it; each capture with its path."""
    files = [("crates/link1hear/stdin", two()), ("crates/link1hear/stdout", text(hearing(two())))]
    for name, capture in captures():
        assert heard_alike(compared(capture))
        files.append(("crates/file_cases/data/captures/" + name, capture))
    return files


def printed_captures():
    """What is printed for all of them, each under its name."""
    return [line for name, capture in captures() for line in ["== captures/" + name] + hearing(capture)]
