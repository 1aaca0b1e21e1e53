#!/usr/bin/env python3
"""Answers a script as `replay_calls` should, from the documents alone.

Written apart from the crates, over Python's own hashlib and hmac, so that the expected output of
`replay_calls` in the gate does not come from the program itself:

    python3 tests/reference_calls.py < crates/replay_calls/stdin | diff - crates/replay_calls/stdout

Here a line is read and an answer printed, by a table of the lines; tests/proxy.py beside it has the calls, and
tests/reference.py the packets.
"""

import re
import sys

sys.dont_write_bytecode = True  # leave no __pycache__ in the repository

from proxy import LAST_NUMBER, Offer, Proxy, seal
from reference import DIGESTS, BadLine, Fault, data, key, tag_of, unseal


# --- fields -----------------------------------------------------------------------------------------


def number(word, most=LAST_NUMBER):
    if not re.fullmatch(rb"[0-9]+", word):
        raise BadLine
    digits = word.lstrip(b"0") or b"0"
    if len(digits) > len(str(most)) or int(digits) > most:
        raise BadLine
    return int(digits)


def small(word):
    return number(word, 255)


def half(word):
    return number(word, 65535)


def algorithm(word):
    chosen = small(word)
    if chosen not in DIGESTS:
        raise BadLine
    return chosen


def packet(word):
    source, mark, offset = word.partition(b"^")
    kind, *parts = source.split(b":")
    if kind == b"seal":
        if len(parts) != 5:
            raise BadLine
        chosen, ik, spi, sequence = algorithm(parts[0]), key(parts[1]), number(parts[2]), number(parts[3])
        segment = data(parts[4])
        if sequence < 1:
            raise BadLine
        try:
            made, _ = seal(chosen, ik, spi, sequence - 1, segment, 1424)
        except Fault:
            raise BadLine from None
    else:
        made = data(source)
    if mark:
        at = number(offset)
        if at >= len(made):
            raise BadLine
        made = made[:at] + bytes([made[at] ^ 1]) + made[at + 1:]
    return made


FIELDS = {
    "ALG": algorithm, "IK": key, "BYTES": data, "SEGMENT": data, "ADDR": key, "PACKET": packet,
    "A": small, "B": small, "ANY": small, "IMPU": small, "PORT": half, "MASK": half,
    "SPI": number, "COUNT": number, "AREA": number, "ROWS": number, "T": number, "SUB": number, "TIMER": number,
}


# --- lines ------------------------------------------------------------------------------------------


# A word in capitals is a field, any other stands for itself. The list that `open` is handed may be a bad one.
LINES = [
    "tag ALG IK BYTES",
    "seal ALG IK SPI COUNT SEGMENT AREA",
    "window",
    "unseal ALG IK SPI PACKET",
    "open ROWS PORT ANY",
    "open ROWS PORT ANY ANY",
    "tick T",
    "register ADDR SUB PORT SPI A B",
    "challenge SUB IK SEGMENT AREA",
    "arrive ADDR PACKET opening SUB PORT SPI A B",
    "arrive ADDR PACKET response PORT SPI A B",
    "arrive ADDR PACKET ordinary IMPU",
    "outcome SUB success TIMER MASK SEGMENT AREA",
    "outcome SUB user-failure SEGMENT AREA",
    "outcome SUB other-failure SEGMENT AREA",
    "send SUB SEGMENT AREA",
    "refresh SUB TIMER",
    "deregister SUB MASK",
    "show SUB",
]


def read(words):
    """The name of the call, and its fields; a word that stands for itself is among them."""
    for line in LINES:
        kinds = line.split()
        if len(kinds) == len(words) and all(
            kind in FIELDS or kind.encode() == word for kind, word in zip(kinds, words)
        ):
            name, *fields = [FIELDS[kind](word) if kind in FIELDS else kind for kind, word in zip(kinds, words)]
            return name, fields
    raise BadLine


def shown(some):
    return some.hex() or "-"


class Replay:
    def __init__(self):
        self.recorded = set()
        self.proxy = Proxy(0, 0, [])

    def answer(self, line):
        """The text that a line is answered, or None for a line that is skipped."""
        words = [word for word in line.split(b" ") if word]
        if line.startswith(b"#") or not words:
            return None
        name, fields = read(words)
        try:
            return f"{name} {getattr(self, name)(*fields)}"
        except Fault as fault:
            return f"{name} fault={fault.number} place={fault.place}"

    def tag(self, chosen, ik, text):
        return shown(tag_of(chosen, ik, text))

    def seal(self, chosen, ik, spi, count, segment, area):
        made, after = seal(chosen, ik, spi, count, segment, area)
        return f"bytes={len(made)} count={after} out={shown(made)}"

    def window(self):
        self.recorded = set()
        return "empty"

    def unseal(self, chosen, ik, spi, some):
        return f"place=8 segment={shown(unseal(chosen, ik, spi, self.recorded, some))}"

    def open(self, rows, port, *listed):
        self.proxy = Proxy(rows, port, listed)
        return f"n={len(self.proxy.rows)}"

    def tick(self, second):
        return f"clock={self.proxy.tick(second)}"

    def register(self, address, subscriber, *offer):
        return "algorithm={} spi={}".format(*self.proxy.register(address, subscriber, Offer(*offer)))

    def arrive(self, address, some, message, *rest):
        details = {
            "opening": lambda subscriber, *offer: (subscriber, Offer(*offer)),
            "response": lambda *offer: Offer(*offer),
            "ordinary": lambda impu: impu,
        }[message](*rest)
        subscriber, slot, segment, *chosen = self.proxy.arrive(address, some, message, details)
        text = f"subscriber={subscriber} slot={slot} segment={shown(segment)}"
        return text + (" algorithm={} spi={}".format(*chosen) if chosen else "")

    def sent(self, answer):
        written, carrier = answer
        return f"bytes={len(written)} carrier={carrier} out={shown(written)}"

    def challenge(self, subscriber, ik, segment, area):
        return self.sent(self.proxy.challenge(subscriber, ik, segment, area))

    def outcome(self, subscriber, result, *rest):
        *success, segment, area = rest
        return self.sent(self.proxy.outcome(subscriber, result, segment, area, *success))

    def send(self, subscriber, segment, area):
        return self.sent(self.proxy.send(subscriber, segment, area))

    def refresh(self, subscriber, timer):
        return f"expiry={self.proxy.refresh(subscriber, timer)}"

    def deregister(self, subscriber, mask):
        return f"remaining={self.proxy.deregister(subscriber, mask)}"

    def show(self, subscriber):
        row = self.proxy.row(subscriber)
        text = ""
        for slot, some in row.slots.items():
            values = (some.port, some.spi, some.own_spi, some.expiry) if some else (0, 0, 0, 0)
            text += f"{slot}=" + ",".join(map(str, values)) + " "
        return text + f"stage={row.stage} impus={bin(row.mask).count('1')}"


def main():
    replay = Replay()
    for count, line in enumerate(sys.stdin.buffer, 1):
        if line.endswith(b"\r\n"):
            line = line[:-2]
        elif line.endswith(b"\n"):
            line = line[:-1]
        try:
            text = replay.answer(line)
        except BadLine:
            text = f"bad line {count}"
        if text is not None:
            print(text, flush=True)


if __name__ == "__main__":
    main()
