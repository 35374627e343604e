"""Link 1 read by bit numbers: 01 is the scope paper, 02 the change requests, 001 is ATDLP-5.01.

The bits of a message are a dict from bit number 1 to 49, those of a frame a list from 1 to 128 (entry 0 is not used).
A message is its kind and a dict from each field's word to its number; an absent mode is None.
Every answer begins with the number, the place and the bit (02 Item 4), (0, 0, 0) for success.
"""

GOOD = (0, 0, 0)

# 01 'Numbers a caller may get back', success first; 02 Item 4 strikes 8 and adds 12 to 15; 02 Item 6 strikes 11.
NUMBERS = (0, 1, 2, 3, 4, 5, 6, 7, 9, 10, 12, 13, 14, 15)

# 01 'On board and left ashore'; 02 Item 1: S.9 joins the kinds.
KINDS = ("Blank", "S0", "S3", "S4", "S4+", "S5", "S6", "S8", "S8+", "S9")

# 01 'Messages', labels as numbers; 001 Annex A Appendix 5 Table A5-1 writes them in octal: 00 56 23 21 61 22 24 25 65,
# and 05 for S.9.
LABELS = {"Blank": 0, "S0": 46, "S3": 19, "S4": 17, "S4+": 49, "S5": 18, "S6": 20, "S8": 21, "S8+": 53, "S9": 5}

# 01 'Messages'; 001 Annex C Appendix 2 Figures C2-5 to C2-8, C2-10 and C2-11: each field's word, first bit, last bit.
# 02 Item 1, S.9; 001 Annex C Appendix 3 paragraph 11: area number, origin site, corner number, drop indicator, corner.
TRACK_FIELDS = (("number", 7, 21), ("quality", 22, 23), ("x", 24, 36), ("y", 37, 49))
FIELDS = {
    "Blank": (), "S0": (), "S4": TRACK_FIELDS, "S4+": TRACK_FIELDS, "S8": TRACK_FIELDS, "S8+": TRACK_FIELDS,
    "S3": (("mode3a", 9, 20), ("request", 21, 23), ("emergency", 24, 24), ("validation", 28, 28),
           ("mode1", 31, 35), ("mode2", 38, 49)),
    "S5": (("altitude", 7, 15), ("strength", 16, 18), ("identification", 19, 22), ("special23", 23, 24),
           ("simulated", 25, 25), ("drop", 26, 26), ("traffic", 27, 28), ("vx", 29, 36), ("allocation", 37, 38),
           ("special39", 39, 41), ("vy", 42, 49)),
    "S6": (("acquisition", 7, 7), ("width", 8, 10), ("strobe_type", 11, 12), ("simulated", 13, 13),
           ("azimuth", 14, 25), ("site", 26, 31), ("sensor", 32, 34), ("number", 35, 39), ("elevation", 40, 43),
           ("age", 44, 49)),
    "S9": (("area", 7, 8), ("site", 11, 16), ("number", 17, 18), ("drop", 19, 19), ("x", 24, 36), ("y", 37, 49)),
}

# 01 'Messages': X, Y and the velocities are two's complement; 001 Annex C Appendix 3 paragraphs 6.4, 6.5, 7.9, 7.12;
# 11.8 and 11.9 send the corner's X and Y to 6.4 and 6.5.
SIGNED = ("x", "y", "vx", "vy")

# 01 'Messages', S.3: the presence bit of each mode; 001 Annex C Appendix 3 paragraph 5.6. 02 Item 2: where it is zero
# the mode is absent and its code bits are not looked at, for all three modes; 001 paragraph 5.3 says so of Mode 3/A.
PRESENCE = {"mode1": 25, "mode2": 26, "mode3a": 27}

# 01 'Messages': spare bits are zero; 001 Annex C Appendix 5 Table C5-1 (no other kind here has any), S.9's also
# Appendix 3 paragraphs 11.3 and 11.7.
SPARE = {"S3": (7, 8, 29, 30, 36, 37), "S9": (9, 10, 20, 21, 22, 23)}

# 01 'Messages': codes that are not used; 001 Annex C Appendix 3 paragraphs 5.4, 7.3, 8.10.
NOT_USED = {"request": (1, 3, 5, 6, 7), "strength": (1,), "elevation": (13, 14, 15)}

# 01 'Which pairs may share a frame'; 001 Annex B Appendix 1 paragraph 3 (Table B2-1 also has Blank with Blank).
# 02 Item 1: S.9 only as S.9 followed by S.9; 001 Annex B Appendix 1 paragraph 6 (Table B2-1 has it behind S.9+ only).
# Second:   Blank S0 S3 S4 S4+ S5 S6 S8 S8+ S9
PAIRS = {
    "Blank": "- - - - - - - - - -",
    "S0":    "- X - - - - - - - -",
    "S3":    "- - - - - - - - - -",
    "S4":    "X - - X - - X X - -",
    "S4+":   "- - X - - X - - - -",
    "S5":    "- - - - - - - - - -",
    "S6":    "X - - X - - X X - -",
    "S8":    "X - - X - - X X - -",
    "S8+":   "- - X - - X - - - -",
    "S9":    "- - - - - - - - - X",
}

def pair_is_legal(first, second):
    return PAIRS[first].split()[KINDS.index(second)] == "X"

def kind_named(label):
    """01 'On board': other labels are refused 6, S.9+ (37) among them."""
    named = [kind for kind in KINDS if LABELS[kind] == label]
    return (GOOD, named[0]) if named else ((6, 0, 0), None)

# 01 'Messages': in a field the lowest bit number weighs least; 001 Annex A Appendix 4 paragraph 17.
def read_bits(bits, first, last):
    return sum(bits[n] * 2 ** (n - first) for n in range(first, last + 1))

def write_bits(bits, first, last, value):
    for n in range(first, last + 1):
        bits[n] = value // 2 ** (n - first) % 2

# 001 Annex A Appendix 4 paragraph 18, two's complement: the last bit is the sign; 01: alone it is the lowest value.
def read_field(bits, word, first, last):
    value = read_bits(bits, first, last)
    if word in SIGNED and bits[last] == 1:
        return value - 2 ** (last - first + 1)
    return value

def write_field(bits, word, first, last, value):
    if word in SIGNED and value < 0:
        value = value + 2 ** (last - first + 1)
    write_bits(bits, first, last, value)

def field_range(word, first, last):
    values = 2 ** (last - first + 1)
    if word in SIGNED:
        return -values // 2, values // 2 - 1
    return 0, values - 1

# 02 Item 4, what is wrong inside a message: 12 fixed pattern, 13 spare bit, 14 code not used, 15 number too wide.
# 02 Item 6: what is relayed was opened, so that 15 is closing's alone.
INSIDE = (12, 13, 14, 15)

def field_troubles(message):
    """02 Item 4: the lowest bit of each field that is wrong, with the cause; 001 Annex A Appendix 4 paragraph 14."""
    kind, fields = message
    troubles = []
    for word, first, last in FIELDS[kind]:
        if fields[word] is None:
            continue
        lowest, highest = field_range(word, first, last)
        if fields[word] < lowest or fields[word] > highest:
            troubles.append((first, 15))
        elif fields[word] in NOT_USED.get(word, ()):
            troubles.append((first, 14))
    return troubles

def told(troubles, which):
    """02 Item 4: of several troubles the one at the lowest bit is told; no two are at one bit."""
    if not troubles:
        return GOOD
    bit, cause = min(troubles)
    return cause, which, bit

def message_bits(message):
    """01 'Messages'; 001 Annex C Appendix 3. 02 Item 2: an absent mode's code bits are written as zeros."""
    kind, fields = message
    bits = {n: 0 for n in range(1, 50)}
    write_bits(bits, 1, 6, LABELS[kind])
    if kind == "S0":
        for group in range(1, 7):
            write_bits(bits, 7 * group + 1, 7 * group + 6, LABELS["S0"])
    for word, first, last in FIELDS[kind]:
        if fields[word] is None:
            continue
        write_field(bits, word, first, last, fields[word])
        if word in PRESENCE:
            bits[PRESENCE[word]] = 1
    return bits

def pattern_bit(kind, n):
    """01 'Messages', Blank and S.0: each group holds the label's six bits and then a zero.

    001 Annex A Appendix 4 paragraphs 3, 4; Annex C Appendix 3 paragraphs 1.2, 2.2, 'Fixed Data Pattern'.
    """
    place = (n - 1) % 7 + 1
    return 0 if place == 7 else LABELS[kind] // 2 ** (place - 1) % 2

def bit_troubles(kind, bits):
    """02 Item 4: each bit outside the fields that is wrong, with the cause; 001 Annex A Appendix 4 paragraph 13.

    02 Item 2: nothing is asked of an absent mode's code bits.
    """
    if kind in ("Blank", "S0"):
        return [(n, 12) for n in range(7, 50) if bits[n] != pattern_bit(kind, n)]
    return [(n, 13) for n in SPARE.get(kind, ()) if bits[n] != 0]

def read_message(kind, bits):
    """01 'Messages'. 02 Item 2; 001 Annex C Appendix 3 paragraph 5.3: a code is read only where the mode is present."""
    fields = {}
    for word, first, last in FIELDS[kind]:
        if word in PRESENCE and bits[PRESENCE[word]] == 0:
            fields[word] = None
        else:
            fields[word] = read_field(bits, word, first, last)
    return kind, fields

def frame_place(which, n):
    """01 'From levels to a frame': groups 1 to 7, then 8 to 14; 001 Annex A Appendix 3 Figures A3-1, A3-2."""
    group = 7 * (which - 1) + (n - 1) // 7 + 1
    return 8 * group + 2 + (n - 1) % 7

# 01: marks at bits 9, 17, .. 121 and the final one, bit 128; 001 Annex A Appendix 3 paragraph 2.
MARKS = tuple(range(9, 122, 8)) + (128,)

def check_count(frame, j):
    """001 Annex A Appendix 3 paragraph 3: the ones in bit j of every group and in check bit j (bit 121 + j)."""
    return sum(frame[8 * group + 1 + j] for group in range(1, 15)) + frame[121 + j]

def frame_of(first_bits, second_bits):
    frame = [None] + [0] * 128
    for n in range(1, 50):
        frame[frame_place(1, n)] = first_bits[n]
        frame[frame_place(2, n)] = second_bits[n]
    for n in MARKS:
        frame[n] = 1
    for j in range(1, 7):
        frame[121 + j] = 1 - check_count(frame, j) % 2
    return frame

def frame_verdict(frame):
    """01 'Orders of checks': 3, 4, 5."""
    if 1 in frame[1:9]:
        return 3, 0, 0
    if any(frame[n] == 0 for n in MARKS):
        return 4, 0, 0
    if any(check_count(frame, j) % 2 == 0 for j in range(1, 7)):
        return 5, 0, 0
    return GOOD

# 01 'From levels to a frame': bit 1 is in the most significant place of the first octet.
def octet_bits(octets):
    return [octet // 2 ** (7 - place) % 2 for octet in octets for place in range(8)]

def octets_of(bits):
    return bytes(sum(bits[8 * n + place] * 2 ** (7 - place) for place in range(8)) for n in range(len(bits) // 8))

def image_frame(image):
    return [None] + octet_bits(image)

def image_of(frame):
    return octets_of(frame[1:])

def verdict(image):
    """01 'Orders of checks', the frame alone: 2, 3, 4, 5."""
    if len(image) != 16:
        return 2, 0, 0
    return frame_verdict(image_frame(image))

def open_image(image):
    """01 'Orders of checks', 02 Item 4: 2, 3, 4, 5, 6 first, 6 second, 7, 12 to 14 first, 12 to 14 second."""
    answer = verdict(image)
    if answer != GOOD:
        return answer, None
    frame = image_frame(image)
    bits = {which: {n: frame[frame_place(which, n)] for n in range(1, 50)} for which in (1, 2)}
    kinds = {}
    for which in (1, 2):
        answer, kinds[which] = kind_named(read_bits(bits[which], 1, 6))
        if answer != GOOD:
            return (6, which, 0), None
    if not pair_is_legal(kinds[1], kinds[2]):
        return (7, 0, 0), None
    messages = {which: read_message(kinds[which], bits[which]) for which in (1, 2)}
    for which in (1, 2):
        answer = told(bit_troubles(kinds[which], bits[which]) + field_troubles(messages[which]), which)
        if answer != GOOD:
            return answer, None
    return GOOD, (messages[1], messages[2])

def close_pair(first, second, buffer):
    """01 'Orders of checks', 02 Item 4: 2, 7, 14 or 15 first, 14 or 15 second."""
    if len(buffer) != 16:
        return (2, 0, 0), buffer
    if not pair_is_legal(first[0], second[0]):
        return (7, 0, 0), buffer
    for which, message in ((1, first), (2, second)):
        answer = told(field_troubles(message), which)
        if answer != GOOD:
            return answer, buffer
    return GOOD, image_of(frame_of(message_bits(first), message_bits(second)))

# 02 Item 2, by message bit numbers: the presence bit of each mode of S.3, the first bit and the last of its code;
# 001 Annex C Appendix 3 paragraphs 5.3, 5.6, 5.9, 5.11.
MODE_BITS = ((27, 9, 20), (25, 31, 35), (26, 38, 49))

def zeroed(image):
    """02 Item 2: sixteen octets with absent modes' codes zeroed and the check bits worked anew, all else as it came.

    An accepted image closes to this, and opening and closing that again changes nothing.
    """
    frame = image_frame(image)
    for which in (1, 2):
        bits = {n: frame[frame_place(which, n)] for n in range(1, 50)}
        for presence, first, last in MODE_BITS:
            if read_bits(bits, 1, 6) == 19 and bits[presence] == 0:
                for n in range(first, last + 1):
                    frame[frame_place(which, n)] = 0
    for j in range(1, 7):
        if check_count(frame, j) % 2 == 0:
            frame[121 + j] = 1 - frame[121 + j]
    return image_of(frame)

def send(previous, image, buffer):
    """01 'Orders of checks': 2 image, 2 buffer, 1, 3, 4, 5; 001 Annex A Appendix 3 paragraph 4: a one is a change."""
    if len(image) != 16 or len(buffer) != 128:
        return (2, 0, 0), buffer
    if previous not in (0, 1):
        return (1, 0, 0), buffer
    answer = verdict(image)
    if answer != GOOD:
        return answer, buffer
    levels = []
    for bit in octet_bits(image):
        previous = 1 - previous if bit == 1 else previous
        levels.append(previous)
    return GOOD, bytes(levels)

# A fresh receiver's last 128 bits, those of an idle line: ones (001 Annex A Appendix 3 paragraph 5).
IDLE = (None,) + (1,) * 128

# 01 'From levels to a frame', the receiver: started, the last level, the last 128 bits (ones where none has come yet).
FRESH = (0, 0, IDLE)

def hear(state, level):
    """The state comes back with the answer: number, place and bit, 1 if a frame is handed over, the image."""
    started, last, window = state
    if level not in (0, 1):
        return state, ((1, 0, 0), 0, bytes(16))
    if started == 1:
        window = (None,) + window[2:] + (1 if level != last else 0,)
    state = (1, level, window)
    if frame_verdict(window) == GOOD:
        return state, (GOOD, 1, image_of(window))
    return state, (GOOD, 0, bytes(16))

def sent_levels(previous, image):
    """02 Item 7: a good frame as sent, with the level before it: level 0, and level n that tells frame bit n."""
    return [previous] + list(send(previous, image, bytes(128))[1])

def with_wrong(levels, *numbers):
    """02 Item 7: the levels with those of these numbers changed."""
    return [1 - level if n in numbers else level for n, level in enumerate(levels)]

def decoded_image(levels):
    """01 'From levels to a frame': frame bit n is one where level n differs from the level before, else zero."""
    return image_of([None] + [1 if levels[n] != levels[n - 1] else 0 for n in range(1, 129)])

def one_wrong_verdicts(previous, image):
    """02 Item 7: the number of the verdict on what is decoded with level 0 changed, with level 1, and so on to 128."""
    levels = sent_levels(previous, image)
    return [verdict(decoded_image(with_wrong(levels, n)))[0] for n in range(129)]

def one_wrong_by_place(n):
    """02 Item 7 as 001 Annex A Appendix 3 paragraph 3 argues it, by the number of the changed level alone.

    Errors come in pairs: bits n and n + 1 are wrong; with level 0 bit 1 alone, with level 128 bit 128 alone. Up to
    level 8 a start bit is wrong. Behind that a mark is wrong where it is the first of the two, or the second behind
    a 7th bit; and so is the final one, behind check bit 6 or alone. Else both are in one group: the first is a check
    bit or one of the six that have one, and the second is in another column.
    """
    if n <= 8:
        return 3
    if n % 8 in (0, 1) or n == 127:
        return 4
    return 5

def hear_octet(window, octet):
    """02 Item 5, the receiver fed by octets: its last 128 bits come back with the answer, and nothing is refused.

    The answer: 1 if a good frame ended in the octet, at which of its bits 1 to 8, the image; zeros where none ended.
    The octet's bits come most significant first; at bit j the last 128 are the window's from j + 1 on and j of them.
    """
    bits = window[1:] + tuple(octet_bits([octet]))
    last = {j: (None,) + bits[j:j + 128] for j in range(1, 9)}
    ended = [j for j in range(1, 9) if frame_verdict(last[j]) == GOOD]
    assert len(ended) <= 1  # 02 Item 5: at most one can end there
    if ended:
        return last[8], (1, ended[0], image_of(last[ended[0]]))
    return last[8], (0, 0, bytes(16))

def frames_in(capture):
    """Every position at which a good frame lies whole, rising; the first bit of a capture has position 0."""
    bits = octet_bits(capture)
    return [position for position in range(len(bits) - 127)
            if frame_verdict([None] + bits[position:position + 128]) == GOOD]

def search(capture, start):
    """01 'Orders of checks': 2, 9, 10; the first bit of a capture has position 0."""
    if len(capture) > 65536:
        return (2, 0, 0), None
    if start > 8 * len(capture):
        return (9, 0, 0), None
    bits = octet_bits(capture)
    for position in range(start, len(bits) - 127):
        if frame_verdict([None] + bits[position:position + 128]) == GOOD:
            return GOOD, position
    return (10, 0, 0), None

# 01 'The shift', of a track's position; 02 Item 1: the corner is shifted as a track is.
TRACKS = ("S4", "S4+", "S8", "S8+")
WITH_POSITION = TRACKS + ("S9",)

def nearest_step(feet):
    """01 'The shift': the nearest multiple of 750 feet, a half goes away from zero."""
    steps = (abs(feet) + 375) // 750
    return steps if feet >= 0 else -steps

def moved(message, x_offsets, y_offsets):
    """01 'The shift': 750 times the old value plus the sum. 02 Item 6: without a position it passes through."""
    kind, fields = message
    if kind not in WITH_POSITION:
        return message
    return kind, dict(fields, x=nearest_step(750 * fields["x"] + sum(x_offsets)),
                      y=nearest_step(750 * fields["y"] + sum(y_offsets)))

def relay(image, x_offsets, y_offsets, buffer):
    """02 Item 6: opening's, 2 buffer, 2 X, 2 Y, 9 X offsets, 9 Y offsets, 9 on results: X, Y first, X, Y second.

    The lists are checked also where no message has a position, and serve both.
    """
    answer, pair = open_image(image)
    if answer != GOOD:
        return answer, buffer
    if len(buffer) != 16:
        return (2, 0, 0), buffer
    lists = ((1, x_offsets), (2, y_offsets))
    for place, offsets in lists:
        if len(offsets) > 8:
            return (2, place, 0), buffer
    for place, offsets in lists:
        if any(offset < -6144000 or offset > 6144000 for offset in offsets):
            return (9, place, 0), buffer
    first, second = (moved(message, x_offsets, y_offsets) for message in pair)
    for place, (kind, fields), word in ((1, first, "x"), (2, first, "y"), (3, second, "x"), (4, second, "y")):
        if kind in WITH_POSITION and (fields[word] < -4096 or fields[word] > 4095):
            return (9, place, 0), buffer
    return close_pair(first, second, buffer)

def altitude(feet):
    """01 'Messages', altitude from feet; 001 Annex C Appendix 3 paragraph 7.2. No half falls on whole feet."""
    steps = 1 if feet <= 375 else (2 * feet + 375) // 750
    if steps > 511:
        return (9, 0, 0), None
    return GOOD, steps

# 01 'Messages', track number text; 001 Annex A Appendix 4 paragraph 22, Annex C Appendix 3 paragraph 6.2.
LETTERS = b"AEGHJKLM"
DIGITS = b"01234567"
TEXT_PLACES = ((LETTERS, 19, 21), (LETTERS, 16, 18), (DIGITS, 13, 15), (DIGITS, 10, 12), (DIGITS, 7, 9))

def track_number(text):
    """01 'Orders of checks': 2, then 9."""
    if len(text) != 5:
        return (2, 0, 0), None
    bits = {}
    for octet, (characters, first, last) in zip(text, TEXT_PLACES):
        if octet not in characters:
            return (9, 0, 0), None
        write_bits(bits, first, last, characters.index(octet))
    return GOOD, read_bits(bits, 7, 21)

def track_text(number, buffer):
    """01 'Orders of checks': 2, then 9."""
    if len(buffer) != 5:
        return (2, 0, 0), buffer
    if number > 32767:
        return (9, 0, 0), buffer
    bits = {}
    write_bits(bits, 7, 21, number)
    return GOOD, bytes(characters[read_bits(bits, first, last)] for characters, first, last in TEXT_PLACES)
