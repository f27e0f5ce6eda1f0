"""The last field of the port's answers that the Rust doesn't give: how many escapes were replaced.

An escape is replaced where it leads to no character of the extension table: before a code that isn't in it, before
another escape, and as the last septet counted. The number is worked out from the request and the Rust's answer to it,
over all that the request reads as text, and CASES holds numbers worked out by hand.
"""

from cases import EXTENSION_CODES, READERS, seven_bit

ESCAPE = 0x1B
FIELD = b" replaced="
TEXT_READERS = ("unpack", "unpack-header")
# where the address field of a message starts
ADDRESS_AT = {"deliver": 1, "submit": 2, "status-report": 2}

CASES = {
    "unpack 2 9b0d": 1,  # escape before escape
    "unpack 2 9b20": 1,  # "A" after an escape
    "unpack 2 9b32": 0,  # the euro sign
    "unpack 3 9b4d10": 1,  # escape, escape, "A"
    "unpack 1 1b": 1,  # a lone escape
    "unpack 3 9bcd06": 2,  # escape before escape, and a lone one
    "unpack-header 9 0500030102013641": 1,  # after the header "A" after an escape
    "unpack-header 9 051b1b1b1b1b9065": 0,  # escapes of the header are no septets
    "deliver 0004d0c10d00004220512103540000": 1,  # from "A" and a lone escape
    "deliver 000491c10d00004220512103540000": 0,  # the same octets as digits
    "deliver 0005912143f5000042205121035400029b20": 0,  # user data stay octets
    "submit 010004d0c10d0000029b20": 2,  # to "A" and a lone escape; "A" after an escape
    "submit 010004d0c10d0004029b20": 1,  # 8-bit data
    "submit 410005912143f5000005011b601304": 1,  # header 01 1b, then "A" after an escape
    "status-report 020104d0c10d422051210354004220512103540000": 1,
    "deliver-report-ack 0004029b20": 0,  # the reports have no text
    "submit-report-ack 010442205121035400029b20": 0,
}


def septets(octets, fill, count):
    """Septets after fill bits, low bit first."""
    number = int.from_bytes(octets, "little") >> fill
    return [number >> 7 * i & 0x7F for i in range(count)]


def replaced(codes):
    """How many escapes among septets are replaced."""
    number, i = 0, 0
    while i < len(codes):
        if codes[i] != ESCAPE:
            i += 1
            continue
        number += codes[i + 1 : i + 2] == [] or codes[i + 1] not in EXTENSION_CODES
        i += 2
    return number


def after_header(octets, size, udl):
    """The septets after a header of so many octets, of those that UDL counts."""
    taken = -(-8 * size // 7)
    return septets(octets[size:], 7 * taken - 8 * size, udl - taken)


def in_address(field):
    """The septets of an address field: none but in type 5."""
    if field[1] >> 4 & 7 != 5:
        return []
    return septets(field[2 : 2 + (field[0] + 1) // 2], 0, 4 * field[0] // 7)


def expected(request, answer):
    """The number that belongs to a request and the Rust's answer; nothing where the answer has none."""
    fields = request.split()
    if not answer.startswith(b"ok ") or not fields:
        return None
    name = fields[0].decode()
    if name in TEXT_READERS:
        octets, count = octets_in(fields[2]), int(fields[1])
        size = octets[0] + 1 if name == "unpack-header" else 0
        return replaced(after_header(octets, size, count))
    if name not in READERS:
        return None
    if name not in ADDRESS_AT:
        return 0
    octets = octets_in(fields[1])
    number = replaced(in_address(octets[ADDRESS_AT[name] :]))
    if name == "submit":
        number += in_user_data(dict(field.split(b"=", 1) for field in answer.split()[1:]))
    return number


def in_user_data(record):
    """What is replaced in the user data of a SUBMIT, by the fields of its record."""
    if not seven_bit(int(record[b"dcs"], 16)):
        return 0
    header = b"" if record[b"header"] == b"-" else bytes.fromhex(record[b"header"].decode())
    return replaced(after_header(octets_in(record[b"ud"]), len(header), int(record[b"udl"])))


def octets_in(field):
    return b"" if field == b"-" else bytes.fromhex(field.decode())


def apart(answer):
    """The port's answer without the field, and the number; nothing for it where it has none."""
    front, field, number = answer.rpartition(FIELD)
    return (front, int(number)) if field else (answer, None)


def with_field(request, answer):
    """The Rust's answer with the field that the port adds."""
    number = expected(request, answer)
    return answer if number is None else answer + FIELD + str(number).encode()
