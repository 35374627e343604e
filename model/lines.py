"""Calls and their answers as lines of text. A case is a call's line and its answer's line."""

import link1


def octet_part(octets):
    return "x" + bytes(octets).hex()


def digit_part(octets):
    return ":" + "".join(str(octet) for octet in octets)


def runs_of(octets):
    """Each octet with the number of times that it stands in turn."""
    runs = []
    for octet in octets:
        if runs and runs[-1][0] == octet:
            runs[-1][1] += 1
        else:
            runs.append([octet, 1])
    return runs


def octet_parts(octets, shape=octet_part):
    """The parts that write these octets; a long run of one octet ends a part with *N."""
    parts, waiting = [], []
    for octet, times in runs_of(octets):
        if times < 6:
            waiting += [octet] * times
        else:
            parts.append("%s*%d" % (shape(waiting + [octet]), times))
            waiting = []
    if waiting:
        parts.append(shape(waiting))
    return parts


def level_parts(levels):
    """Levels up to 9 as decimal digits, the others in hexadecimal."""
    parts, waiting = [], []
    for level in levels:
        if waiting and (level > 9) != (waiting[-1] > 9):
            parts += octet_parts(waiting, octet_part if waiting[0] > 9 else digit_part)
            waiting = []
        waiting.append(level)
    if waiting:
        parts += octet_parts(waiting, octet_part if waiting[0] > 9 else digit_part)
    return parts


def text_part(octets):
    if octets and all(33 <= octet <= 126 for octet in octets):
        return "=" + octets.decode("ascii")
    return octet_part(octets)


def message_words(message):
    kind, fields = message
    words = [kind]
    for word, _, _ in link1.FIELDS[kind]:
        words += [word, "absent" if fields[word] is None else str(fields[word])]
    return " ".join(words)


def line(*parts):
    return " ".join(str(part) for part in parts)


def answer(result, *parts):
    return line(*result, *parts)


def verdict(octets, written=None):
    return line("verdict", *(written or octet_parts(octets))), answer(link1.verdict(octets))


def open_image(octets):
    result, pair = link1.open_image(octets)
    messages = [message_words(message) for message in pair] if pair else []
    return line("open", *octet_parts(octets)), answer(result, *messages)


def close_pair(first, second, buffer):
    result, after = link1.close_pair(first, second, buffer)
    return (line("close", message_words(first), message_words(second), *octet_parts(buffer)),
            answer(result, octet_part(after)))


def kind_of(message):
    return line("kind_of", message_words(message)), message[0]


def label(kind):
    return line("label", kind), str(link1.LABELS[kind])


def kind_named(number):
    result, kind = link1.kind_named(number)
    return line("kind_named", number), answer(result, *([kind] if kind else []))


def send(previous, length, image):
    result, after = link1.send(previous, image, bytes([5]) * length)
    return line("send", previous, length, *octet_parts(image)), answer(result, digit_part(after))


def wrong_levels(previous, image):
    result, _ = link1.send(previous, image, bytes(128))
    numbers = link1.one_wrong_verdicts(previous, image) if result == link1.GOOD else []
    digits = "".join(str(number) for number in numbers)
    return line("wrong_levels", previous, *octet_parts(image)), answer(result, *([digits] if digits else []))


def heard(state, levels):
    """The answer to a run of levels: what is not silent, then the state."""
    parts = []
    for number, level in enumerate(levels, 1):
        state, (result, handed, image) = link1.hear(state, level)
        if result != link1.GOOD or handed == 1:
            parts += ["at", number, *result, handed, octet_part(image)]
    started, last, window = state
    return line(*parts, "state", started, last, octet_part(link1.image_of(window)))


def hear(levels):
    return line("hear", *level_parts(levels)), heard(link1.FRESH, levels)


def resume(started, last, window, levels):
    state = (started, last, tuple(link1.image_frame(window)))
    return line("resume", started, last, *octet_parts(window), *level_parts(levels)), heard(state, levels)


def heard_octets(window, octets):
    """The answer to a run of octets: what is not silent, then the window."""
    parts = []
    for number, octet in enumerate(octets, 1):
        window, (handed, bit, image) = link1.hear_octet(window, octet)
        if handed == 1:
            parts += ["at", number, handed, bit, octet_part(image)]
    return line(*parts, "state", octet_part(link1.image_of(window)))


def hear_octets(octets):
    return line("hear_octets", *octet_parts(octets)), heard_octets(link1.IDLE, octets)


def resume_octets(window, octets):
    return (line("resume_octets", *octet_parts(window), *octet_parts(octets)),
            heard_octets(tuple(link1.image_frame(window)), octets))


def search(start, capture):
    result, position = link1.search(capture, start)
    return (line("search", start, *octet_parts(capture)),
            answer(result, *([position] if result == link1.GOOD else [])))


def relay(length, x_offsets, y_offsets, image):
    result, after = link1.relay(image, x_offsets, y_offsets, bytes([5]) * length)
    return (line("relay", length, "by", *x_offsets, "and", *y_offsets, "of", *octet_parts(image)),
            answer(result, octet_part(after)))


def altitude(feet):
    result, steps = link1.altitude(feet)
    return line("altitude", feet), answer(result, *([steps] if result == link1.GOOD else []))


def track_number(text, written=None):
    result, number = link1.track_number(text)
    return (line("track_number", *(written or octet_parts(text))),
            answer(result, *([number] if result == link1.GOOD else [])))


def track_text(number, buffer):
    result, after = link1.track_text(number, buffer)
    return line("track_text", number, *octet_parts(buffer)), answer(result, text_part(after))


def refusal_of(number):
    return line("refusal_of", number), line(number, 0, 0)


def refusal_at(number, place):
    return line("refusal_at", number, place), line(number, place, 0)


def refusal_inside(number, place, bit):
    return line("refusal_inside", number, place, bit), line(number, place, bit)


def numbers():
    return "numbers", line(*link1.NUMBERS)


def note(text):
    return "# " + text, "# " + text


def not_understood(text):
    return text, "?"


# ---- a line that a person wrote: the call that it says is asked of the model

def octets_said(parts):
    """The octets of parts: x and hexadecimal, : and a digit each, = and the octets; *N repeats the last one."""
    octets = b""
    for part in parts:
        body, _, times = part[1:].partition("*") if part[0] != "=" else (part[1:], "", "")
        if part[0] == "x":
            run = bytes.fromhex(body)
        else:
            run = bytes(int(digit) for digit in body) if part[0] == ":" else body.encode("ascii")
        octets += run + run[-1:] * (int(times) - 1 if times else 0)
    return octets


def message_said(parts):
    """The message that parts begin with, and the parts behind it."""
    kind, fields = parts[0], {}
    for place, (word, _, _) in enumerate(link1.FIELDS[kind]):
        assert parts[2 * place + 1] == word, "%s has the field %s here" % (kind, word)
        value = parts[2 * place + 2]
        fields[word] = None if value == "absent" else int(value)
    return (kind, fields), parts[2 * len(fields) + 1:]


def relay_said(parts):
    last_of_x, last_of_y = parts.index("and"), parts.index("of")
    return relay(int(parts[0]), [int(part) for part in parts[2:last_of_x]],
                 [int(part) for part in parts[last_of_x + 1:last_of_y]], octets_said(parts[last_of_y + 1:]))


def close_said(parts):
    first, parts = message_said(parts)
    second, parts = message_said(parts)
    return close_pair(first, second, octets_said(parts))


SAID = {
    "verdict": lambda parts: verdict(octets_said(parts)),
    "open": lambda parts: open_image(octets_said(parts)),
    "close": close_said,
    "kind_of": lambda parts: kind_of(message_said(parts)[0]),
    "label": lambda parts: label(parts[0]),
    "kind_named": lambda parts: kind_named(int(parts[0])),
    "send": lambda parts: send(int(parts[0]), int(parts[1]), octets_said(parts[2:])),
    "wrong_levels": lambda parts: wrong_levels(int(parts[0]), octets_said(parts[1:])),
    "hear": lambda parts: hear(octets_said(parts)),
    "hear_octets": lambda parts: hear_octets(octets_said(parts)),
    "search": lambda parts: search(int(parts[0]), octets_said(parts[1:])),
    "relay": relay_said,
    "altitude": lambda parts: altitude(int(parts[0])),
    "track_number": lambda parts: track_number(octets_said(parts)),
    "track_text": lambda parts: track_text(int(parts[0]), octets_said(parts[1:])),
}


def said(text):
    """A line as it is written, with the model's answer to the call."""
    word, *parts = text.split(" ")
    return text, SAID[word](parts)[1]
