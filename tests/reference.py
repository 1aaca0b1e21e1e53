#!/usr/bin/env python3
"""Answers a script as `replay` should, from the documents alone.

Written apart from the crates, over Python's own hashlib and hmac, so that the expected output of `replay`
in the gate does not come from `replay` itself:

    python3 tests/reference.py < crates/replay/stdin | diff - crates/replay/stdout

The replay window is kept here as the set of the numbers recorded, and a packet is taken apart by slices, so
that a slip in the bitmap or in an index of the program shows as a difference.
"""

import hashlib
import hmac
import re
import struct
import sys

UDP = 17
DIGESTS = {1: hashlib.md5, 2: hashlib.sha1}


class BadLine(Exception):
    """The line is not of the grammar."""


class Fault(Exception):
    """A call was refused, with a number and a place."""

    def __init__(self, number, place):
        super().__init__(number, place)
        self.number = number
        self.place = place


# --- the integrity algorithms -----------------------------------------------------------------------


def tag_of(algorithm, ik, text):
    """HMAC-MD5-96 (RFC 2403) or HMAC-SHA-1-96 (RFC 2404) of at most 4096 bytes."""
    key = ik if algorithm == 1 else ik + bytes(4)
    return hmac.new(key, text[:4096], DIGESTS[algorithm]).digest()[:12]


# --- packets (RFC 2406, integrity only) -------------------------------------------------------------


def seal(algorithm, ik, spi, count, segment, area):
    """The packet, and the new count."""
    if not 8 <= len(segment) <= 1400:
        raise Fault(16, len(segment))
    if count >= 4294967295:
        raise Fault(26, 0)
    body = struct.pack(">II", spi, count + 1) + segment
    pads = 0
    while (len(segment) + pads + 2) % 4:
        pads += 1
    body += bytes(range(1, pads + 1)) + bytes([pads, UDP])
    packet = body + tag_of(algorithm, ik, body)
    if len(packet) > area:
        raise Fault(17, area)
    return packet, count + 1


def unseal(algorithm, ik, spi, recorded, packet):
    """The segment. Records the number in the set `recorded` once the tag is right."""
    if not 32 <= len(packet) <= 1424 or len(packet) % 4:
        raise Fault(11, len(packet))
    found_spi, number = struct.unpack(">II", packet[:8])
    if found_spi != spi:
        raise Fault(21, 0)
    highest = max(recorded, default=0)
    if number < 1 or number + 64 <= highest or number in recorded:
        raise Fault(12, 4)
    body, tag = packet[:-12], packet[-12:]
    if tag != tag_of(algorithm, ik, body):
        raise Fault(13, len(packet) - 12)
    recorded.add(number)
    payload, pads, header = body[8:-2], body[-2], body[-1]
    segment = payload[: len(payload) - pads] if pads <= len(payload) else b""
    padding = payload[len(segment):]
    if header != UDP or padding != bytes(range(1, pads + 1)) or not 8 <= len(segment) <= 1400:
        raise Fault(14, len(packet) - 14)
    return segment


# --- fields -----------------------------------------------------------------------------------------


def number(word, most=4294967295):
    if not re.fullmatch(rb"[0-9]+", word) or int(word) > most:
        raise BadLine
    return int(word)


def data(word):
    if word == b"-":
        return b""
    if not re.fullmatch(rb"([0-9a-fA-F]{2})+", word):
        raise BadLine
    return bytes.fromhex(word.decode())


def key(word):
    ik = data(word)
    if len(ik) != 16:
        raise BadLine
    return ik


def algorithm(word):
    chosen = number(word, 255)
    if chosen not in DIGESTS:
        raise BadLine
    return chosen


def packet(word):
    source, mark, offset = word.partition(b"^")
    kind, *parts = source.split(b":")
    if kind == b"seal":
        if len(parts) != 5:
            raise BadLine
        chosen, ik, spi, sequence = algorithm(parts[0]), key(parts[1]), number(parts[2]), number(parts[3])
        segment = data(parts[4])
        if sequence < 1:
            raise BadLine
        try:
            made, _ = seal(chosen, ik, spi, sequence - 1, segment, 1424)
        except Fault:
            raise BadLine from None
    else:
        made = data(source)
    if mark:
        at = number(offset)
        if at >= len(made):
            raise BadLine
        made = made[:at] + bytes([made[at] ^ 1]) + made[at + 1:]
    return made


# --- lines ------------------------------------------------------------------------------------------


def shown(some):
    return some.hex() or "-"


class Replay:
    def __init__(self):
        self.recorded = set()

    def answer(self, line):
        """The text that a line is answered, or None for a line that is skipped."""
        words = [word for word in line.split(b" ") if word]
        if line.startswith(b"#") or not words:
            return None
        name, fields = words[0], words[1:]
        calls = {b"tag": (self.tag, 3), b"seal": (self.seal, 6), b"window": (self.window, 0), b"unseal": (self.unseal, 4)}
        call, arity = calls.get(name, (None, 0))
        if call is None or len(fields) != arity:
            raise BadLine
        try:
            return call(*fields)
        except Fault as fault:
            return f"{name.decode()} fault={fault.number} place={fault.place}"

    def tag(self, chosen, ik, text):
        return "tag " + shown(tag_of(algorithm(chosen), key(ik), data(text)))

    def seal(self, chosen, ik, spi, count, segment, area):
        made, after = seal(algorithm(chosen), key(ik), number(spi), number(count), data(segment), number(area))
        return f"seal bytes={len(made)} count={after} out={shown(made)}"

    def window(self):
        self.recorded = set()
        return "window empty"

    def unseal(self, chosen, ik, spi, word):
        segment = unseal(algorithm(chosen), key(ik), number(spi), self.recorded, packet(word))
        return f"unseal place=8 segment={shown(segment)}"


def main():
    replay = Replay()
    for count, line in enumerate(sys.stdin.buffer, 1):
        if line.endswith(b"\r\n"):
            line = line[:-2]
        elif line.endswith(b"\n"):
            line = line[:-1]
        try:
            text = replay.answer(line)
        except BadLine:
            text = f"bad line {count}"
        if text is not None:
            print(text, flush=True)


if __name__ == "__main__":
    main()
