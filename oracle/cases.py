"""Requests for the comparison and for the recorded part of the stored run, made from a seed.

Nothing here knows an answer. Messages and records are put together so that most are nearly right:
whole, or with one or two things wrong at a boundary, since a request that fails in its first octet
tells little. A request is octets without its line end.
"""

import random

import outcome

READERS = [
    "deliver",
    "submit",
    "submit-report-ack",
    "submit-report-error",
    "deliver-report-ack",
    "deliver-report-error",
    "status-report",
]
KEYS = {
    "deliver": "rp udhi sri lp mms mti ton npi address pid dcs scts udl ud",
    "submit": "rp udhi srr vpf rd mti mr ton npi address pid dcs vp udl ud",
    "submit-report": "udhi fcs pi scts pid dcs udl ud outcome",
    "deliver-report": "udhi fcs pi pid dcs udl ud outcome",
    "status-report": "udhi srq lp mms mr ton npi address scts dt st pi pid dcs udl ud",
}
KEYS = {kind: keys.split() for kind, keys in KEYS.items()}

ESCAPE = 0x1B
EXTENSION_CODES = [0x0A, 0x14, 0x28, 0x29, 0x2F, 0x3C, 0x3D, 0x3E, 0x40, 0x65]
EXTENSION = "\f^{}\\[~]|€"
ALPHABET = (
    "@£$¥èéùìòÇ\nØø\rÅåΔ_ΦΓΛΩΠΨΣΘΞÆæßÉ"
    " !\"#¤%&'()*+,-./0123456789:;<=>?"
    "¡ABCDEFGHIJKLMNOPQRSTUVWXYZÄÖÑÜ§"
    "¿abcdefghijklmnopqrstuvwxyzäöñüà"
)
LETTERS = "abcdefghijklmnopqrstuvwxyz"
# two octets in UTF-8, one septet
TWO_OCTETS = "£¥èéùìòÇØøÅåΔΦΓΛΩΠΨΣΘΞÆæßÉ¤¡ÄÖÑÜ§¿äöñüà"
DIGITS = "0123456789*#abc"
# in no alphabet (the euro sign: in one only), or not UTF-8
FOREIGN = [c.encode() for c in "`ç\x1b\x00\x7f\xa0Жϵ₭€￿😀𝄞"]
FOREIGN += [bytes.fromhex(o) for o in "80 ff c3 c2 e282 c080 c1bf e08080 eda080 f0808080 f4908080".split()]

# counts around which something changes
EDGES = [0, 1, 2, 6, 7, 8, 9, 15, 16, 17, 127, 128, 133, 134, 139, 140, 141, 152, 153, 154]
EDGES += [158, 159, 160, 161, 162, 223, 224, 225, 253, 254, 255]
# one of each coding, and some at the borders of the groups
CODINGS = [0x00, 0x04, 0x08, 0x0C, 0x10, 0x20, 0x24, 0x48, 0x60, 0x7F, 0x80, 0xBF, 0xC8, 0xD8]
CODINGS += [0xE0, 0xEF, 0xF0, 0xF4, 0xFB, 0xFF]


class Dice:
    """Choices by `Random.random`, the one sequence that Python promises to keep."""

    def __init__(self, seed):
        self.draw = random.Random(seed).random

    def below(self, number):
        return int(self.draw() * number)

    def between(self, low, high):
        return low + self.below(high - low + 1)

    def pick(self, items):
        return items[int(self.draw() * len(items))]

    def chance(self, part):
        return self.draw() < part

    def octets(self, count):
        pieces = [int(self.draw() * (1 << 48)).to_bytes(6, "big") for _ in range(-(-count // 6))]
        return b"".join(pieces)[:count]


def hexed(octets):
    return octets.hex() or "-"


def over(number, by):
    """The quotient, rounded up."""
    return -(-number // by)


# Septets and user data


def seven_bit(dcs):
    group = dcs >> 4
    if group < 8:
        return dcs & 0x20 == 0 and dcs >> 2 & 3 in (0, 3)
    return group != 0xE and not (group == 0xF and dcs & 4)


def data_octets(dcs, udl):
    return over(7 * udl, 8) if seven_bit(dcs) else udl


def packed(codes, fill=0, low=0, high=0):
    """Octets of septets behind fill bits; `low` stands in those, `high` in the spare bits."""
    value = high
    for code in reversed(codes):
        value = value << 7 | code
    bits = fill + 7 * len(codes)
    size = over(bits, 8)
    value = (value << fill | low & (1 << fill) - 1) & (1 << 8 * size) - 1
    return value.to_bytes(size, "little")


def septets(dice, count):
    way = dice.below(6)
    if way == 0:
        return [0x61 + dice.below(26) for _ in range(count)]
    if way == 1:
        return [dice.below(128) for _ in range(count)]
    if way == 2:
        return [escape_or_code(dice) for _ in range(count)]
    if way == 3:
        return ([dice.below(128) for _ in range(count - 1)] + [ESCAPE])[:count]
    if way == 4:
        return [ESCAPE] * count
    codes = [0] * count
    if count:
        codes[dice.below(count)] = ESCAPE
    return codes


def escape_or_code(dice):
    way = dice.below(10)
    if way < 4:
        return ESCAPE
    return dice.pick(EXTENSION_CODES) if way < 8 else dice.below(128)


def packed_septets(dice, count, fill=0):
    """Septets of any kind, with spare and fill bits that mean nothing."""
    if dice.chance(0.5):
        return packed(septets(dice, count), fill)
    return packed(septets(dice, count), fill, dice.below(128), dice.below(128))


def coding_octet(dice):
    if dice.chance(0.3):
        return 0
    return dice.pick(CODINGS) if dice.chance(0.5) else dice.below(256)


def length(dice):
    return dice.pick(EDGES) if dice.chance(0.4) else dice.below(32)


def header_octets(dice, size, udl):
    """A number of header octets that fits the data, or just doesn't."""
    fitting = udl * 7 // 8
    near = [size - 1, size, size + 1, fitting - 1, fitting, fitting + 1]
    return max(1, dice.pick(near + [1, 2, 6, 256, dice.between(1, size + 1)]))


def user_data(dice, dcs, udl, header):
    """The octets that UDL and DCS ask for, with a header in front if asked."""
    size = data_octets(dcs, udl)
    if not header or dice.chance(0.1):
        return packed_septets(dice, udl) if seven_bit(dcs) else dice.octets(size)
    octets = min(header_octets(dice, size, udl), 256)
    front = bytes([octets - 1]) + dice.octets(octets - 1)
    text = max(0, udl - over(8 * octets, 7))
    return (front + packed_septets(dice, text, -8 * octets % 7) + bytes(size))[:size]


# Messages as lists of fields, so that they can be cut between two


def address_field(dice):
    size = dice.below(41)
    if dice.chance(0.15):
        size = dice.pick([20, 21, 22, 23, 24, 38, 39, 40, 41, 100, 254, 255, dice.below(256)])
    type_of_number = 5 if dice.chance(0.4) else dice.below(8)
    kind = (0x80 if dice.chance(0.9) else 0) | type_of_number << 4 | dice.pick([0, 1, 8, 15, dice.below(16)])
    octets = over(size, 2)
    if type_of_number == 5 and dice.chance(0.8):
        value = (packed_septets(dice, size * 4 // 7) + dice.octets(1))[:octets]
    else:
        value = semi_octets(dice, octets, size % 2)
    return bytes([size, kind]) + value


def semi_octets(dice, count, odd):
    """Digits: decimal, any, or with many F; the last half an F where it is spare, mostly."""
    way = dice.below(4)
    if way == 0:
        return dice.octets(count)
    half = lambda: 15 if way == 1 and dice.chance(0.4) else dice.below(16 if way == 1 else 10)
    value = bytearray(half() | half() << 4 for _ in range(count))
    if odd and dice.chance(0.8):
        value[-1] |= 0xF0
    return bytes(value)


def time_field(dice):
    if dice.chance(0.3):
        return dice.octets(7)
    return bytes(dice.below(10) | dice.below(10) << 4 for _ in range(7))


def first_octet(dice, kind, named):
    """The MTI of the kind, mostly, and bits of its first octet."""
    first = kind | dice.below(256) & named
    if dice.chance(0.1):
        first |= dice.below(256) & 0xFC
    return first ^ dice.between(1, 3) if dice.chance(0.03) else first


def octet(dice):
    return bytes([dice.below(256)])


def deliver_fields(dice):
    first = first_octet(dice, 0, 0xEC)
    dcs, udl = coding_octet(dice), length(dice)
    data = user_data(dice, dcs, udl, first & 0x40)
    return [bytes([first]), address_field(dice), octet(dice), bytes([dcs]), time_field(dice), bytes([udl]), data]


def submit_fields(dice):
    first = first_octet(dice, 1, 0xFC)
    dcs, udl = coding_octet(dice), length(dice)
    size = [0, 7, 1, 7][first >> 3 & 3]
    data = user_data(dice, dcs, udl, first & 0x40)
    front = [bytes([first]), octet(dice), address_field(dice), octet(dice), bytes([dcs])]
    return front + [dice.octets(size), bytes([udl]), data]


def indicator_fields(dice, indicator):
    """Indicator, and its extension octets where bit 7 is set."""
    fields = [bytes([indicator])]
    if indicator & 0x80:
        fields += [bytes([dice.below(256) | 0x80]) for _ in range(dice.below(4))]
        fields.append(bytes([dice.below(128)]))
    return fields


def indicator(dice):
    value = dice.below(8)
    if dice.chance(0.2):
        value |= dice.below(256) & 0x78
    return value | 0x80 if dice.chance(0.15) else value


def parameter_fields(dice, flags, header):
    fields = []
    dcs = 0
    if flags & 1:
        fields.append(octet(dice))
    if flags & 2:
        dcs = coding_octet(dice)
        fields.append(bytes([dcs]))
    if flags & 4:
        udl = length(dice)
        fields += [bytes([udl]), user_data(dice, dcs, udl, header)]
    return fields


def report_fields(dice, kind, cause, time):
    first = first_octet(dice, kind, 0x40)
    flags = indicator(dice)
    fields = [bytes([first])]
    if cause:
        fields.append(octet(dice))
    fields += indicator_fields(dice, flags)
    if time:
        fields.append(time_field(dice))
    return fields + parameter_fields(dice, flags, first & 0x40)


def status_report_fields(dice):
    first = first_octet(dice, 2, 0x6C)
    fields = [bytes([first]), octet(dice), address_field(dice), time_field(dice), time_field(dice), octet(dice)]
    if dice.chance(0.3):
        return fields
    flags = indicator(dice)
    return fields + indicator_fields(dice, flags) + parameter_fields(dice, flags, first & 0x40)


FIELDS = {
    "deliver": deliver_fields,
    "submit": submit_fields,
    "submit-report-ack": lambda dice: report_fields(dice, 1, False, True),
    "submit-report-error": lambda dice: report_fields(dice, 1, True, True),
    "deliver-report-ack": lambda dice: report_fields(dice, 0, False, False),
    "deliver-report-error": lambda dice: report_fields(dice, 0, True, False),
    "status-report": status_report_fields,
}


def damaged(dice, fields):
    """The fields' octets: half of the time whole, else cut, followed by others, or changed."""
    octets = b"".join(fields)
    way = dice.below(18)
    if way < 9:
        return octets
    if way == 9:
        return octets[:-1]
    if way == 10:
        return octets[: dice.below(len(octets) + 1)]
    if way in (11, 12):
        border = len(b"".join(fields[: dice.below(len(fields) + 1)]))
        return octets[: max(0, border + dice.between(-1, 1))]
    if way in (13, 14):
        return octets + dice.octets(dice.between(1, 3))
    place = dice.below(len(octets))
    if way == 15:
        return octets[:place] + octet(dice) + octets[place + 1 :]
    if way == 16:
        return octets[:place] + bytes([octets[place] ^ 1 << dice.below(8)]) + octets[place + 1 :]
    return octets[:place] + (octet(dice) if dice.chance(0.5) else b"") + octets[place + dice.below(2) :]


def reading(dice):
    """A message for its reader, its reader and writer, or (some) another kind's."""
    kind = dice.pick(READERS)
    octets = damaged(dice, FIELDS[kind](dice))
    if dice.chance(0.08):
        kind = dice.pick(READERS)
    return f"{'re-' if dice.chance(0.4) else ''}{kind} {cased(dice, hexed(octets))}"


def cased(dice, digits):
    return digits.upper() if dice.chance(0.1) else digits


def reading_of_anything(dice):
    """Octets of no design, the MTI mostly right."""
    kind = dice.pick(READERS)
    octets = bytearray(dice.octets(dice.below(48) if dice.chance(0.9) else dice.below(400)))
    if octets and dice.chance(0.8):
        octets[0] = octets[0] & 0xFC | {"deliver": 0, "submit": 1, "status": 2}[kind.split("-")[0]]
    return f"{'re-' if dice.chance(0.3) else ''}{kind} {hexed(bytes(octets))}"


# Text


def character(dice, way):
    if way == 0:
        return dice.pick(LETTERS)
    if way == 1:
        return dice.pick(ALPHABET)
    if way == 2:
        return dice.pick(TWO_OCTETS)
    return dice.pick(EXTENSION) if dice.chance(0.5) else dice.pick(ALPHABET)


def text_of(dice, count):
    """A text that takes this number of septets."""
    way = dice.below(4)
    characters = []
    while count > 0:
        one = character(dice, way)
        size = 2 if one in EXTENSION else 1
        if size <= count:
            characters.append(one)
            count -= size
    return "".join(characters).encode()


def with_foreign(dice, text):
    """The text with something that isn't in the alphabet, or not UTF-8, or a character cut."""
    place = dice.below(len(text) + 1)
    if dice.chance(0.2):
        return text[:place] + text[place + 1 :]
    if dice.chance(0.3):
        return text[:place] + any_character(dice) + text[place:]
    return text[:place] + dice.pick(FOREIGN) + text[place:]


def any_character(dice):
    top = dice.pick([0x80, 0x100, 0x800, 0x10000, 0x110000])
    code = dice.below(top)
    return chr(code).encode("utf-8", "surrogatepass")


def some_text(dice, around):
    if dice.chance(0.3):
        text = text_of(dice, max(0, around + dice.between(-2, 2)))
    else:
        text = text_of(dice, dice.below(24))
    return with_foreign(dice, text) if dice.chance(0.15) else text


def pack(dice):
    if dice.chance(0.1):
        return f"pack {hexed(any_character(dice))}"
    return f"pack {cased(dice, hexed(some_text(dice, dice.pick([7, 8, 160, 255]))))}"


def header(dice):
    """A header with the number of octets that its first says; some are wrong."""
    size = dice.pick([1, 1, 2, 3, 4, 5, 6, 7, 8, 9, 12, 126, 127, 139, 140, 222, 223, 224, 255, 256])
    octets = bytes([size - 1]) + dice.octets(size - 1)
    if dice.chance(0.75):
        return octets
    return dice.pick([b"", octets[:-1], octets + b"\0", octet(dice) + octets[1:]])


def pack_header(dice):
    front = header(dice)
    return f"pack-header {hexed(front)} {hexed(some_text(dice, 255 - over(8 * len(front), 7)))}"


def count_near(dice, right):
    """A count: the right one or near it, mostly."""
    if dice.chance(0.7):
        return max(0, right + dice.pick([0, 0, 0, -1, 1, 2, -2]))
    return dice.pick([0, 1, 2, 7, 8, 160, 161, 254, 255, 256, 257, 1000, 999999999, dice.below(256)])


def text_octets(dice):
    return dice.pick([139, 140, 141, 222, 223, 224, 225, 230, 300]) if dice.chance(0.15) else dice.below(24)


def unpack(dice):
    size = text_octets(dice)
    count = count_near(dice, size * 8 // 7)
    data = packed_septets(dice, count if count * 7 <= size * 8 else size * 8 // 7)
    data = (data + dice.octets(size))[:size]
    return f"unpack {count} {hexed(data)}"


def unpack_header(dice):
    front = header(dice)
    size = text_octets(dice)
    fill = -8 * len(front) % 7
    codes = max(0, size * 8 - fill) // 7
    data = front + packed_septets(dice, codes, fill) + (dice.octets(dice.below(3)))
    count = count_near(dice, over(8 * len(front), 7) + (codes if dice.chance(0.7) else 0))
    if dice.chance(0.1):
        data = data[: dice.below(len(data) + 1)]
    return f"unpack-header {count} {hexed(data)}"


# Addresses, codings, times


def address_text(dice, type_of_number):
    """A text of the type, mostly of a length that can be written."""
    if type_of_number == 5:
        return text_of(dice, dice.below(12) if dice.chance(0.8) else dice.pick([11, 12, 13, 20, 40]))
    count = dice.below(21) if dice.chance(0.8) else dice.pick([19, 20, 21, 22, 40, 100])
    return "".join(dice.pick(DIGITS) for _ in range(count)).encode()


def type_and_plan(dice):
    return (5 if dice.chance(0.4) else dice.below(8)), dice.pick([0, 1, 15, dice.below(16)])


def address(dice):
    ton, npi = type_and_plan(dice)
    text = address_text(dice, ton if dice.chance(0.9) else 12 - ton)
    if dice.chance(0.2):
        text = with_foreign(dice, text)
    if dice.chance(0.02):
        text = dice.pick([b"1", b"A", b"z", b"\xff"]) * dice.pick([144, 145, 146, 289, 290, 291, 292, 400])
    if dice.chance(0.08):
        ton = dice.pick([7, 8, 9, 21, 255])
    if dice.chance(0.08):
        npi = dice.pick([15, 16, 17, 255])
    return f"address {ton} {npi} {hexed(text)}"


# Addresses of the relay layer


def relay_field(dice):
    """Length octet, type octet and value, mostly of a length that can be written."""
    size = dice.below(13)
    if dice.chance(0.15):
        size = dice.pick([10, 11, 12, 13, 14, 20, 21, 100, 253, 254, 255, dice.below(256)])
    if size == 0:
        return b"\0"
    kind = (0x80 if dice.chance(0.9) else 0) | dice.below(8) << 4 | dice.pick([0, 1, 8, 15, dice.below(16)])
    return bytes([size, kind]) + semi_octets(dice, size - 1, size > 1 and dice.chance(0.5))


def relay(dice):
    """An address whole, cut off, with octets after it, or with another length octet; or any octets."""
    field = relay_field(dice)
    way = dice.below(10)
    if way < 2:
        field = field[: dice.below(len(field))]
    elif way < 4:
        field += dice.octets(dice.between(1, 20))
    elif way == 4:
        field = bytes([(field[0] + dice.pick([1, 2, 254, 255])) % 256]) + field[1:]
    elif way == 5:
        field = dice.octets(dice.below(24))
    return f"relay {cased(dice, hexed(field))}"


def relay_write(dice):
    if dice.chance(0.03):
        return "relay-write - - -"
    ton, npi = dice.below(8), dice.pick([0, 1, 15, dice.below(16)])
    text = address_text(dice, 5 if dice.chance(0.05) else 1)
    if dice.chance(0.2):
        text = with_foreign(dice, text)
    if dice.chance(0.02):
        text = dice.pick([b"1", b"A", b"\xff"]) * dice.pick([20, 21, 290, 291, 507, 508, 509, 510, 600])
    if dice.chance(0.08):
        ton = dice.pick([7, 8, 9, 21, 255])
    if dice.chance(0.08):
        npi = dice.pick([15, 16, 17, 255])
    return f"relay-write {ton} {npi} {cased(dice, hexed(text))}"


def relay_well_formed(dice):
    return dice.pick([relay, relay_write])(dice)


def coding(dice):
    return f"coding {cased(dice, '%02x' % dice.below(256))}"


def digits(dice):
    """Calendar values and zone, up to two of them at a border or past it."""
    values = [dice.between(low, high) for low, high in CALENDAR]
    for _ in range(dice.below(4) % 3):
        place = dice.below(7)
        values[place] = dice.pick(borders(place))
    return "digits " + " ".join(map(str, values))


CALENDAR = [(0, 99), (1, 12), (1, 31), (0, 23), (0, 59), (0, 59), (-79, 79)]


def borders(place):
    """A calendar value's least and largest, those beside them, and those of its type."""
    low, high = CALENDAR[place]
    least, most = (-128, 127) if place == 6 else (0, 255)
    return sorted({least, max(least, low - 1), low, high, high + 1, most})


# Records to be written


def time_text(dice):
    pool = dice.pick(["0123456789", "0123456789", "0123456789abcdefABCDEF"])
    return "".join(dice.pick(pool) for _ in range(14))


def wrong_time(dice):
    right = time_text(dice)
    way = dice.below(9)
    if way == 0:
        return right[:-1]
    if way == 1:
        return right[:-1] + dice.pick("gGxz-:/@`")
    if way == 2:
        return ""
    if way == 3:
        return "-"
    if way == 4:
        return "x:" + (right[:12].encode() + dice.pick(FOREIGN)).hex()[:28]
    if way == 5:
        return "x:" + hexed(dice.octets(dice.pick([0, 1, 13, 14])))
    if way == 6:
        return right[:13] + "é"
    if way == 7:
        return right[: dice.below(14)]
    return "x:" + right.encode().hex()


def flag(dice):
    return str(dice.below(2))


def give_data(dice, record, dcs, udl):
    record["udl"] = str(udl)
    record["ud"] = hexed(user_data(dice, dcs, udl, dice.chance(0.3)))


def writable(dice, dcs):
    """A UDL whose data can be written."""
    most = 160 if seven_bit(dcs) else 140
    return most - dice.below(2) if dice.chance(0.2) else dice.below(20)


def give_address(dice, record):
    ton, npi = type_and_plan(dice)
    record["ton"], record["npi"] = str(ton), str(npi)
    record["address"] = hexed(address_text(dice, ton))


def give_period(dice, record):
    way = dice.below(4)
    seven = dice.octets(7).hex()
    record["vpf"] = str(way)
    record["vp"] = ["-", "enhanced:" + seven, "relative:" + seven[:2], "absolute:" + time_text(dice)][way]


def give_parameters(dice, record):
    """Indicator and the parameters that it announces."""
    flags = dice.below(8) | (dice.below(256) & 0x78 if dice.chance(0.1) else 0)
    dcs = coding_octet(dice) if flags & 2 else 0
    record["pi"] = "%02x" % flags
    record["pid"] = octet(dice).hex() if flags & 1 else "-"
    record["dcs"] = "%02x" % dcs if flags & 2 else "-"
    record["udl"], record["ud"] = "-", ""
    if flags & 4:
        give_data(dice, record, dcs, writable(dice, dcs))


def right_record(dice, kind):
    """A record of the kind that can be written."""
    record = {key: flag(dice) for key in KEYS[kind] if key != "outcome"}
    for key in ("mr", "pid", "st", "fcs"):
        if key in record:
            record[key] = octet(dice).hex()
    if "mti" in record:
        record["mti"] = "01"[kind == "submit"]
    if "vp" in record:
        give_period(dice, record)
    if "address" in record:
        give_address(dice, record)
    for key in ("scts", "dt"):
        if key in record:
            record[key] = time_text(dice)
    if "pi" not in record:
        dcs = coding_octet(dice)
        record["dcs"] = "%02x" % dcs
        give_data(dice, record, dcs, writable(dice, dcs))
        return record
    if "fcs" in record and dice.chance(0.5):
        record["fcs"] = "-"
    give_parameters(dice, record)
    if kind == "status-report" and dice.chance(0.3):
        record.update(pi="-", pid="-", dcs="-", udl="-", ud="")
    return record


def dcs_of(record):
    return 0 if record["dcs"] == "-" else int(record["dcs"], 16)


def other_length(dice, record):
    if record["udl"] == "-" or dice.chance(0.2):
        record["udl"] = str(dice.pick(EDGES))
    else:
        record["udl"] = str(min(255, max(0, int(record["udl"]) + dice.pick([-2, -1, 1, 2]))))


def other_data(dice, record):
    data = b"" if record["ud"] == "-" else bytes.fromhex(record["ud"])
    data = dice.pick([data[:-1], data + b"\0", b"", b"\1", dice.octets(dice.pick([140, 141, 255]))])
    record["ud"] = hexed(data)


def long_data(dice, record):
    """Data that UDL and DCS ask for, about as long as can be written."""
    edges = [159, 160, 161, 162] if seven_bit(dcs_of(record)) else [139, 140, 141, 142]
    give_data(dice, record, dcs_of(record), dice.pick(edges + [255]))


def no_destination(dice, record):
    record.update(ton="-", npi="-", address="-")


def other_text(dice, record):
    text = b"" if record["address"] == "-" else bytes.fromhex(record["address"])
    record["address"] = hexed(with_foreign(dice, text))


def long_text(dice, record):
    if record["ton"] == "5":
        record["address"] = hexed(text_of(dice, dice.pick([11, 12, 13, 30, 145])))
    else:
        record["address"] = (b"7" * dice.pick([20, 21, 22, 40, 290])).hex()


def other_indicator(dice, record):
    flags = 0 if record["pi"] == "-" else int(record["pi"], 16)
    record["pi"] = "%02x" % (flags ^ dice.pick([1, 2, 4, 0x80, 0x80, 0x81, 0x08]))


def other_presence(dice, record):
    """One parameter absent or there whatever the indicator says, or the indicator where it may be."""
    key = dice.pick(["pid", "dcs", "udl", "udl"] + ["pi"] * ("st" in record))
    if record[key] != "-":
        record[key] = "-"
    else:
        record[key] = str(dice.below(3)) if key == "udl" else "%02x" % dice.below(8)


def lone_data(dice, record):
    record.update(udl="-", ud=hexed(dice.octets(dice.between(1, 3))))
    if record["pi"] != "-":
        record["pi"] = "%02x" % (int(record["pi"], 16) & 0xFB)


def past_array(dice, record):
    """A value that is longer than the port's array, or just not."""
    keys = [key for key in ("address", "ud", "scts", "dt", "vp") if key in record]
    key = dice.pick(keys)
    if key == "address" and record["ton"] != "-":
        record[key] = (b"1" * dice.pick([289, 290, 291, 292, 300, 600])).hex()
    elif key == "ud":
        record[key] = dice.octets(dice.pick([254, 255, 256, 257, 300])).hex()
    elif key == "vp":
        record["vp"] = "absolute:" + long_time(dice)
    elif key != "address":
        record[key] = long_time(dice)


def long_time(dice):
    text = time_text(dice) + "0" * dice.pick([0, 1, 1, 2, 26])
    return text if dice.chance(0.5) else "x:" + text.encode().hex()


def set_to(key, values):
    return lambda dice, record: record.update({key: dice.pick(values)})


ADDRESS_FAULTS = [
    set_to("ton", ["7", "8", "9", "255", "5"]),
    set_to("npi", ["15", "16", "255"]),
    other_text,
    other_text,
    long_text,
]
DATA_FAULTS = [other_length, other_data, long_data]
TIME_FAULT = lambda dice, record: record.update(scts=wrong_time(dice))
PARAMETER_FAULTS = [other_indicator, other_indicator, other_presence, other_presence, lone_data]
FAULTS = {
    "deliver": ADDRESS_FAULTS + DATA_FAULTS + [TIME_FAULT, set_to("mti", ["1", "2", "3", "4", "255"])],
    "submit": ADDRESS_FAULTS
    + DATA_FAULTS
    + [
        set_to("mti", ["0", "2", "3", "5", "255"]),
        set_to("vpf", ["0", "1", "2", "3", "4", "255"]),
        no_destination,
        give_period,
        lambda dice, record: record.update(vp="absolute:" + wrong_time(dice), vpf="3"),
    ],
    "submit-report": DATA_FAULTS + PARAMETER_FAULTS + [TIME_FAULT, set_to("udhi", ["1", "2", "3", "4", "255"])],
    "deliver-report": DATA_FAULTS + PARAMETER_FAULTS,
    "status-report": ADDRESS_FAULTS
    + DATA_FAULTS
    + PARAMETER_FAULTS
    + [TIME_FAULT, lambda dice, record: record.update(dt=wrong_time(dice))],
}


def fault_fits(fault, record):
    """An address that isn't there stays so."""
    return record.get("ton") != "-" or fault not in ADDRESS_FAULTS


def writing(dice):
    """A record with no, one or two things wrong, now and then three."""
    kind = dice.pick(list(KEYS))
    record = right_record(dice, kind)
    for _ in range(dice.pick([0, 0, 1, 1, 1, 1, 2, 2, 2, 3])):
        fault = dice.pick(FAULTS[kind])
        if fault_fits(fault, record):
            fault(dice, record)
    if dice.chance(0.04):
        past_array(dice, record)
    return request_of(dice, kind, record)


def request_of(dice, kind, record):
    keys = [key for key in KEYS[kind] if key != "outcome"]
    if dice.chance(0.1):
        keys.sort(key=lambda key: dice.draw())
    if "outcome" in KEYS[kind]:
        keys.append("outcome")
        record["outcome"] = outcome.agreeing(record["fcs"])
    return f"enc-{kind} " + " ".join(f"{key}={record[key]}" for key in keys)


# Requests that aren't well formed, or just are


# what stands in for a value, the empty one first
VALUES = """ - -- 0 1 2 00 01 7 8 15 16 000000001 0000000001 255 256 0255 999999999 1000000000 -1 -0 +1 1.0 0x1
 g0 0g f ff FF fff ffff abc x: x:- x:1 x:31 x:zz X:31 relative: relative:1 relative:ff relative:FFF relative:g1
 relative:- Relative:ff absolute absolute: absolute:- absolute:24021512304500 absolute:x: absolute:x:1 absolute:x:3
 enhanced: enhanced:- enhanced:00 enhanced:00112233445566 enhanced:0011223344556 enhanced:0011223344556677 = a=b
 enhanced:0011223344556g none é""".split(" ")
VALUES = [value.strip("\n") for value in VALUES]
NAMES = """Deliver DELIVER deliver- re- re-re-deliver re-unpack enc- enc-submit-report-ack enc-submit-report-error
 enc-deliver-report-ack enc-unpack submit-report deliver-report status-report-ack unpack-headers packheader pack_header
 PACK digit coding: = - ok bad é""".split()
MARKS = [bytes([octet]) for octet in b"gG-=:0f \t\0\r\x80\xff+,"] + [b"  ", b"\xc3\xa9"]


def well_formed(dice):
    if dice.chance(0.4):
        return writing(dice)
    return dice.pick([reading, pack, pack_header, unpack, unpack_header, address, coding, digits])(dice)


def marked(dice, request):
    """One octet put in, taken out or replaced."""
    place = dice.below(len(request) + 1)
    mark = dice.pick(MARKS) if dice.chance(0.7) else b""
    return request[:place] + mark + request[place + dice.below(2) :]


def fields_moved(dice, request):
    """A field doubled, gone, put in, or two changed about."""
    fields = request.split(b" ")
    place = dice.below(len(fields))
    way = dice.below(5)
    if way == 0:
        fields.insert(place, fields[place])
    elif way == 1:
        del fields[place]
    elif way == 2:
        fields.insert(dice.between(1, len(fields)), dice.pick(VALUES).encode())
    elif way == 3:
        other = dice.below(len(fields))
        fields[place], fields[other] = fields[other], fields[place]
    else:
        fields[place] = fields[dice.below(len(fields))]
    return b" ".join(fields)


def values_changed(dice, request):
    """One to three fields with another value; in a record the key stays, mostly."""
    fields = request.split(b" ")
    for _ in range(dice.between(1, 3)):
        if len(fields) < 2:
            break
        place = dice.between(1, len(fields) - 1)
        key, equals, _ = fields[place].partition(b"=")
        value = dice.pick(VALUES).encode()
        if equals and dice.chance(0.15):
            key = dice.pick([b"read", b"header", b"text", b"", b"MTI", b"x", b"udl", b"ud", b"udhi", b"rp"])
        if equals and dice.chance(0.95):
            value = key + b"=" + value
        fields[place] = value
    return b" ".join(fields)


def renamed(dice, request):
    name, space, rest = request.partition(b" ")
    if dice.chance(0.3):
        other = well_formed(dice).encode("utf-8").partition(b" ")[0]
    else:
        other = dice.pick(NAMES).encode()
    return other + space + rest


def spaced(dice, request):
    """Spaces where they don't count, and CR in front of the line's end."""
    gap = lambda: b" " * dice.between(1, 3)
    if dice.chance(0.5):
        request = gap().join(request.split(b" "))
    if dice.chance(0.5):
        request = gap() + request
    if dice.chance(0.5):
        request += gap()
    return request + dice.pick([b"", b"\r", b"\r", b"\r\r", b"\t"])


def long_line(dice, request):
    """About as long as a line may be, of spaces or of octets; some with CR."""
    size = dice.pick([8190, 8191, 8192, 8193, 8194, 9000, 20000])
    end = dice.pick([b"", b"", b"\r"])
    if dice.chance(0.4):
        line = dice.pick([b"deliver ", b"pack ", b"unpack 10 ", b"re-submit "])
        line += b"0" * (size - len(line) - len(end))
    else:
        line = request + b" " * (size - len(request) - len(end))
    return line[: size - len(end)] + end


def empty_line(dice, request):
    return dice.pick([b"", b" ", b"   ", b"\r", b" \r", b"\t", b"\0", b"-"])


def malformed(dice, right=well_formed):
    request = right(dice).encode("utf-8")
    ways = [marked, fields_moved, values_changed, values_changed, values_changed, renamed, spaced]
    way = dice.pick(ways)
    if dice.chance(0.03):
        way = dice.pick([long_line, empty_line])
    return way(dice, request)


# The whole


def up_to_two_octets(readers):
    """Every input of 0, 1 and 2 octets for each reader."""
    for kind in readers:
        yield f"{kind} -".encode()
        for first in range(256):
            yield f"{kind} {first:02x}".encode()
        for both in range(65536):
            yield f"{kind} {both:04x}".encode()


SHARES = [
    (36, reading),
    (5, reading_of_anything),
    (25, writing),
    (5, unpack),
    (5, unpack_header),
    (5, pack),
    (5, pack_header),
    (4, address),
    (1, coding),
    (3, digits),
    (6, malformed),
]
WAYS = [way for share, way in SHARES for _ in range(share)]


def at_random(seed):
    """Requests of all kinds without end."""
    dice = Dice(seed)
    while True:
        request = dice.pick(WAYS)(dice)
        yield request if isinstance(request, bytes) else request.encode("utf-8")


def relay_at_random(seed):
    """Requests for addresses of the relay layer without end."""
    dice = Dice(seed)
    while True:
        if dice.chance(0.06):
            yield malformed(dice, relay_well_formed)
        else:
            yield relay_well_formed(dice).encode("utf-8")
