"""Values that the cases, the listed files and the heard captures share."""

import functools

import link1

# 01 'Examples to hold against it'.
T = bytes.fromhex("00" + "ba" * 14 + "ff")
N = bytes.fromhex("00" + "80" * 14 + "ff")
P = bytes.fromhex("00c4" + "80" * 13 + "bb")
Q = bytes.fromhex("00c6" + "80" * 6 + "a4" + "80" * 6 + "9d")

# Octets that are all different, to lend as a buffer.
LENT = bytes(0x11 * n % 256 for n in range(1, 257))

LEGAL_PAIRS = tuple((first, second) for first in link1.KINDS for second in link1.KINDS
                    if link1.pair_is_legal(first, second))


def message(kind, **fields):
    """A message with these fields; the others are zero, the modes absent."""
    values = {word: None if word in link1.PRESENCE else 0 for word, _, _ in link1.FIELDS[kind]}
    values.update(fields)
    return kind, values


def changed(given, **fields):
    kind, values = given
    return kind, dict(values, **fields)


# Messages whose fields all differ, unlike from either end, other ones in the first place and in the second.
FIRST = {
    "S0": message("S0"),
    "S4": message("S4", number=0x4d2b, quality=1, x=1357, y=-2611),
    "S4+": message("S4+", number=0x2e53, quality=2, x=-3191, y=733),
    "S6": message("S6", acquisition=1, width=3, strobe_type=2, simulated=0, azimuth=0xb27, site=0x2c, sensor=4,
                  number=0x13, elevation=11, age=0x1d),
    "S8": message("S8", number=0x61a7, quality=2, x=3389, y=-1423),
    "S8+": message("S8+", number=0x35c9, quality=1, x=-947, y=2903),
    "S9": message("S9", area=2, site=0x35, number=1, drop=1, x=1741, y=-3307),
}
SECOND = {
    "Blank": message("Blank"),
    "S0": message("S0"),
    "S3": message("S3", mode3a=0xc53, request=4, emergency=1, validation=0, mode1=0x0b, mode2=0x72a),
    "S4": message("S4", number=0x17a6, quality=2, x=-613, y=3529),
    "S5": message("S5", altitude=0x14d, strength=6, identification=11, special23=1, simulated=1, drop=0, traffic=2,
                  vx=-77, allocation=1, special39=3, vy=53),
    "S6": message("S6", acquisition=0, width=6, strobe_type=1, simulated=1, azimuth=0x4d6, site=0x13, sensor=1,
                  number=0x0d, elevation=4, age=0x32),
    "S8": message("S8", number=0x5b32, quality=1, x=2237, y=-3877),
    "S9": message("S9", area=1, site=0x0b, number=2, drop=0, x=-2459, y=1093),
}


def image(first, second):
    """The image of two messages, whether or not they may share a frame and whatever their fields hold."""
    return link1.image_of(link1.frame_of(link1.message_bits(first), link1.message_bits(second)))


def word_image(first_bits, second_bits):
    """The image of any two times 49 bits, with right marks and check bits."""
    return link1.image_of(link1.frame_of(first_bits, second_bits))


def turned_bits(given, *numbers):
    """The bits of a message with some of them turned."""
    bits = link1.message_bits(given)
    for n in numbers:
        bits[n] = 1 - bits[n]
    return bits


def turned_in_both(first, first_numbers, second, second_numbers):
    """The image of two messages with bits of each turned and the check bits right."""
    return word_image(turned_bits(first, *first_numbers), turned_bits(second, *second_numbers))


def turned_in_message(first, second, which, *numbers):
    """The image of two messages with bits of one of them turned and the check bits right."""
    return turned_in_both(first, numbers if which == 1 else (), second, numbers if which == 2 else ())


def turned(octets, *numbers):
    """An image with frame bits turned."""
    frame = link1.image_frame(octets)
    for n in numbers:
        frame[n] = 1 - frame[n]
    return link1.image_of(frame)


def checks_kept(octets):
    """An image with absent modes' codes zeroed (02 Item 2), but with the check bits as they came."""
    frame = link1.image_frame(link1.zeroed(octets))
    frame[122:128] = link1.image_frame(octets)[122:128]
    return link1.image_of(frame)


def label_bits(label):
    bits = {n: 0 for n in range(1, 50)}
    link1.write_bits(bits, 1, 6, label)
    return bits


@functools.lru_cache(maxsize=None)
def values_of(word, first, last):
    """The values that a field may have, codes that are not used left out."""
    lowest, highest = link1.field_range(word, first, last)
    return tuple(value for value in range(lowest, highest + 1) if value not in link1.NOT_USED.get(word, ()))


class Stream:
    """Random-looking numbers, the same on every run."""

    def __init__(self, seed):
        self.state = seed

    def below(self, limit):
        self.state = (self.state * 6364136223846793005 + 1442695040888963407) % 2 ** 64
        return self.state // 2 ** 33 % limit

    def octets(self, length):
        return bytes(self.below(256) for _ in range(length))

    def bits(self, length):
        return [self.below(2) for _ in range(length)]

    def word(self):
        return {n: self.below(2) for n in range(1, 50)}

    def message(self, kind):
        fields = {}
        for word, first, last in link1.FIELDS[kind]:
            values = values_of(word, first, last)
            fields[word] = values[self.below(len(values))]
            if word in link1.PRESENCE and self.below(3) == 0:
                fields[word] = None
        return kind, fields

    def good_image(self):
        first, second = LEGAL_PAIRS[self.below(len(LEGAL_PAIRS))]
        return image(self.message(first), self.message(second))
