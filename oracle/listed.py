"""The differences between the Rust and the port that are meant to be there.

Each rule says of a request, and of the Rust's answer to it, what the port has to answer instead. The
port's arrays have fixed sizes and its counts stop at 255; the Rust's don't.
"""

import outcome

TOO_LARGE = b"refused 1 LengthTooLarge"
TOO_MANY = b"refused 22 TooManySeptets"
TOO_SHORT = b"refused 23 OutputTooShort"
DISAGREES = b"refused 29 OutcomeDisagrees"
ALPHANUMERIC = b"refused 32 AlphanumericRelayAddress"

ADDRESS_ARRAY = 290
RELAY_ARRAY = 508
DATA_ARRAY = 255
TIME_ARRAY = 14
MOST_SEPTETS = 255
LENT = 255

NAMES = {
    "a": "a text reader's count passes 255",
    "b": "header and text take more than 255 septets in packing",
    "c": "a value is longer than the port's array",
    "d": "the octets don't fit the lent output",
    "e": "type of number is 5 in a relay address, which the Rust refuses in words without a number",
    "f": "a report's outcome isn't that of its cause, which the Rust's record doesn't hold",
}


def expected(request, answer):
    """Name of the rule that holds and the port's answer by it, or nothing."""
    if answer.startswith(b"bad"):
        return None
    fields = [field for field in request.split(b" ") if field]
    name = fields[0]
    if name in (b"unpack", b"unpack-header"):
        return ("a", TOO_LARGE) if int(fields[1]) > MOST_SEPTETS and read_text(answer) else None
    if name in (b"pack", b"pack-header"):
        return ("b", TOO_MANY) if septets(answer) > MOST_SEPTETS else None
    if name in (b"address", b"relay-write") or name.startswith(b"enc-"):
        if answer.startswith(b"refused ") and past_array(name, fields):
            return "c", TOO_LARGE
    if name.startswith(b"enc-") and outcome_disagrees(fields[1:]):
        return "f", DISAGREES
    if name == b"relay-write" and answer == b"refused -":
        return "e", ALPHANUMERIC
    if answer.startswith(b"ok ") and b"=" not in answer and (len(answer) - 3) // 2 > LENT:
        return "d", TOO_SHORT
    return None


def read_text(answer):
    """A text, or a refusal that a text reader gives after 1."""
    return answer.startswith(b"ok ") or answer.split()[1] in (b"17", b"18", b"19")


def septets(answer):
    """The number of septets in a packer's answer, 0 in a refusal."""
    if not answer.startswith(b"ok septets="):
        return 0
    return int(answer.split()[1].partition(b"=")[2])


def past_array(name, fields):
    if name == b"address":
        return octets(fields[3]) > ADDRESS_ARRAY
    if name == b"relay-write":
        return octets(fields[3]) > RELAY_ARRAY
    return any(value_past_array(*field.split(b"=", 1)) for field in fields[1:])


def outcome_disagrees(fields):
    values = dict(field.split(b"=", 1) for field in fields)
    return b"outcome" in values and values[b"outcome"].decode() != outcome.agreeing(values[b"fcs"].decode())


def value_past_array(key, value):
    if key == b"address":
        return octets(value) > ADDRESS_ARRAY
    if key == b"ud":
        return octets(value) > DATA_ARRAY
    if key in (b"scts", b"dt"):
        return time_octets(value) > TIME_ARRAY
    if key == b"vp" and value.startswith(b"absolute:"):
        return time_octets(value[len(b"absolute:") :]) > TIME_ARRAY
    return False


def octets(value):
    """The number of octets in hexadecimal digits; 0 for `-`."""
    return len(value) // 2


def time_octets(value):
    """The number of octets of a time as it stands, or behind `x:`."""
    return octets(value[2:]) if value.startswith(b"x:") else len(value)
