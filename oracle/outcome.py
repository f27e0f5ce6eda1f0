"""The outcome of a report, which the Rust's record doesn't hold and the port's does.

The port adds it to a report reader's answer as ` outcome=ack` or ` outcome=error`, by the reader that
was asked; in a request for a writer the oracle takes the key and ignores it.
"""

FIELD = b" outcome="
READERS = {
    b"submit-report-ack": b"ack",
    b"submit-report-error": b"error",
    b"deliver-report-ack": b"ack",
    b"deliver-report-error": b"error",
}


def agreeing(cause):
    """The outcome that goes with a cause, so that refusal 29, which the Rust doesn't have, passes."""
    return "ack" if cause == "-" else "error"


def with_field(request, answer):
    """The Rust's answer with the field that the port adds."""
    fields = request.split()
    if not answer.startswith(b"ok ") or not fields or fields[0] not in READERS:
        return answer
    return answer + FIELD + READERS[fields[0]]
