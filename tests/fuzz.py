#!/usr/bin/env python3
"""Prints a random script that makes sense most of the time, to hold `replay_calls` against the reference.

    python3 tests/fuzz.py [SEED] [LINES] [--show] > script
    (cd crates/replay_calls && rt run) < script > theirs; python3 tests/reference_calls.py < script | diff - theirs

The same seed gives the same script. A reference proxy runs along, so that the next line can follow from the
state of the rows: an offer is challenged, a challenge is answered under the right key and number, the clock goes
to the second at which something runs out. Now and then a field is another than it should be, or a line is damaged.
`show` lines are left out unless --show is given.
"""

import random
import struct
import sys

sys.dont_write_bytecode = True  # leave no __pycache__ in the repository

from proxy import LAST_NUMBER, LAST_SECOND
from reference import tag_of
from reference_calls import BadLine, Replay

ADDRESSES = ["20010db8000000000000000000000001", "20010db8000000000000000000000002",
             "20010db8000000010000000000000001", "ffffffffffffffffffffffffffffffff"]
PORTS = [5100, 5101, 5102, 5103, 5104, 5105, 5106, 5107, 1, 65535]
TIMERS = [1, 2, 60, 600, 600, 600, 3600, 1000000]
EDGES = [0, 1, 2, 15, 16, 255, 256, 4095, 4096, 5060, 65535, 65536, 1000000, 1000001, LAST_SECOND, LAST_SECOND + 1,
         LAST_NUMBER, LAST_NUMBER + 1]
RESULTS = ["success", "user-failure", "other-failure"]
MESSAGES = ["opening", "response", "ordinary"]


class Fuzz:
    def __init__(self, seed, show):
        self.random = random.Random(seed)
        self.replay = Replay()
        self.show = show
        self.port = 6000

    # --- chance -------------------------------------------------------------------------------------

    def one_in(self, n):
        return self.random.randrange(n) == 0

    def pick(self, some):
        return self.random.choice(list(some))

    def data(self, length):
        return self.random.randbytes(length)

    def edge(self, right, n=40):
        """The right number, but one time in n another."""
        return self.pick(EDGES) if self.one_in(n) else right

    # --- what the rows are --------------------------------------------------------------------------

    @property
    def proxy(self):
        return self.replay.proxy

    def subscriber(self):
        """Mostly one of a few, so that their rows fill."""
        n = len(self.proxy.rows)
        few = [s for s in (0, 1, 2, 3, 4, n - 1) if 0 <= s < n]
        if few and not self.one_in(40):
            return self.pick(few)
        return self.pick([n, n + 1, 0, self.random.randrange(n + 1), LAST_NUMBER])

    def row(self, subscriber):
        return self.proxy.rows[subscriber] if subscriber < len(self.proxy.rows) else None

    def filled(self, row, *slots):
        return [slot for slot in slots if row and row.slots[slot]]

    # --- fields -------------------------------------------------------------------------------------

    def key(self):
        return self.data(16).hex()

    def offer(self, subscriber):
        spi = self.pick([256, 300, 301, 302, 303, 4096 + 16 * subscriber + self.random.randrange(16), 4095, LAST_NUMBER])
        a, b = self.pick([(1, 0), (2, 0), (1, 2), (2, 1), (1, 2), (2, 1)])
        return f"{self.edge(self.pick(PORTS)) % 65536} {self.edge(spi) % 2**32} {self.edge(a, 80) % 256} {self.edge(b, 80) % 256}"

    def text(self):
        if self.one_in(60):
            return self.data(self.pick([1391, 1392, 1393]))
        return self.data(self.random.randrange(12))

    def segment(self, source, destination):
        if self.one_in(60):
            return self.data(self.pick([0, 1, 4, 7])).hex() or "-"
        if self.one_in(40):
            source = self.pick([self.port, 5060, 0, *PORTS])
        if self.one_in(40):
            destination = self.pick([self.port, 5060, 0, *PORTS])
        text = self.text()
        return (struct.pack(">HHHH", source, destination, 8 + len(text), 0) + text).hex()

    def down(self, row, carrier):
        """A segment to the handset, and an area for it: in clear, or by the set in the slot `carrier`."""
        some = row.slots[carrier] if row and carrier in (1, 2, 3) else None
        segment = self.segment(self.port, some.port) if some else self.segment(5060, self.pick([5060, 5100]))
        length = len(segment) // 2
        packet = length + (-length - 2) % 4 + 22
        area = self.pick([1424] * 12 + [length, length - 1, packet, packet - 1, 0, LAST_NUMBER])
        return f"{segment} {max(area, 0)}"

    def number(self, some):
        """A sequence number for a set: mostly the next one."""
        highest = max(some.recorded, default=0)
        if self.one_in(300):
            return LAST_NUMBER - self.pick([0, 1, 63, 64])
        if not self.one_in(8):
            return min(highest + 1, LAST_NUMBER)
        far = self.pick([0, -1, -62, -63, -64, -65, 2, 63, 64, 70, -self.random.randrange(highest + 1)])
        return min(max(highest + far, 1), LAST_NUMBER)

    def packet(self, some):
        segment = self.segment(some.port, self.port)
        ik, spi, algorithm, number = some.ik, some.own_spi, some.algorithm, self.number(some)
        if self.one_in(60):
            ik = self.data(16)
        if self.one_in(60):
            spi = self.pick([0, 300, some.spi, 4095, spi - 1, spi + 1, spi + 16, LAST_NUMBER])
        if self.one_in(60):
            algorithm = 3 - algorithm
        if self.one_in(60):
            return self.data(self.pick([1, 28, 31, 32, 33, 36, 1424, 1425, 1428])).hex()
        if self.one_in(12):
            made = self.plain(algorithm, ik, spi, number, bytes.fromhex(segment.replace("-", "")))
        else:
            made = f"seal:{algorithm}:{ik.hex()}:{spi}:{number}:{segment}"
        if self.one_in(30):
            made += f"^{self.pick([0, 3, 4, 7, 8, 9, 15, 19, 20, 24, 31, 32, 36, self.random.randrange(1430)])}"
        return made

    def plain(self, algorithm, ik, spi, number, segment):
        """A packet with a right tag, and perhaps a trailer that sealing would not write."""
        pads = self.pick([(-len(segment) - 2) % 4 + 4 * self.pick([0, 0, 1, 2, 20, 62]), self.random.randrange(12)]) % 256
        padding = bytes(range(1, pads + 1))
        if pads and self.one_in(6):
            at = self.random.randrange(pads)
            padding = padding[:at] + bytes([padding[at] ^ 1]) + padding[at + 1:]
        length = self.random.randrange(256) if self.one_in(10) else pads
        header = self.pick([6, 16, 18]) if self.one_in(10) else 17
        if self.one_in(20):
            number = 0
        body = struct.pack(">II", spi, number) + segment + padding + bytes([length, header])
        return (body + tag_of(algorithm, ik, body)).hex()

    # --- calls --------------------------------------------------------------------------------------

    def open(self):
        rows = self.pick([1, 2, 4, 5, 8, 16, 16, 16, 40, 40] + ([4096, 5000, 0, LAST_NUMBER] if self.one_in(6) else []))
        port = self.pick([6000, 6000, 6000, 5061, 65535, 1] + ([0, 5060] if self.one_in(6) else []))
        bad = ["0", "3", "1 1", "2 2", "1 3", "0 2"]
        listed = self.pick(["1", "2", "1 2", "2 1", "1 2", "2 1"] + (bad if self.one_in(6) else []))
        self.port = port
        return f"open {rows} {port} {listed}"

    def tick(self):
        clock = self.proxy.clock
        ends = [some.expiry for _, _, some in self.proxy.table()]
        ends += [row.procedure.deadline for row in self.proxy.rows if row.stage == 1]
        near = [second for second in ends if second <= clock + 2000]
        if near and self.one_in(4):
            return f"tick {self.pick(near) + self.pick([-1, -1, 0, 0, 1])}"
        if ends and self.one_in(60):
            return f"tick {self.pick(ends)}"
        if self.one_in(60):
            return f"tick {self.pick([0, max(clock - 1, 0), LAST_SECOND + 1, LAST_NUMBER])}"
        if self.one_in(400):
            return f"tick {LAST_SECOND - self.pick([0, 1, 500])}"
        return f"tick {clock + self.pick([0, 1, 1, 2, 5, 10, 30])}"

    def register(self, subscriber):
        address = self.pick(ADDRESSES)
        return f"register {address} {subscriber} {self.offer(subscriber)}"

    def challenge(self, subscriber):
        row = self.row(subscriber)
        cover = row.procedure.cover if row and row.stage else 0
        return f"challenge {subscriber} {self.key()} {self.down(row, cover)}"

    def outcome(self, subscriber, result=None):
        row = self.row(subscriber)
        result = result or self.pick(RESULTS)
        cover = row.procedure.cover if row and row.stage else 0
        carrier = 3 if result == "success" or (result == "user-failure" and cover == 0) else cover
        if result == "success":
            result += f" {self.edge(self.pick(TIMERS)) % 2**32} {self.edge(self.pick([1, 3, 7, 65535, 32769])) % 65536}"
        return f"outcome {subscriber} {result} {self.down(row, carrier)}"

    def send(self, subscriber):
        row = self.row(subscriber)
        return f"send {subscriber} {self.down(row, (self.filled(row, 1, 2) or [0])[0])}"

    def refresh(self, subscriber):
        return f"refresh {subscriber} {self.edge(self.pick(TIMERS), 10) % 2**32}"

    def deregister(self, subscriber):
        return f"deregister {subscriber} {self.pick([0, 1, 2, 2, 4, 8, 32768, 3] + ([65535] if self.one_in(4) else []))}"

    def arrive(self, subscriber, slot=None, message=None):
        row = self.row(subscriber)
        slots = self.filled(row, 1, 2, 3)
        if not slots:
            return self.register(subscriber)
        slot = slot or self.pick(slots)
        some = row.slots[slot]
        if not message:
            message = self.pick(MESSAGES) if self.one_in(10) else "response" if slot == 3 else "ordinary"
        address = self.pick(ADDRESSES) if self.one_in(40) else some.address.hex()
        if message == "opening":
            details = f"{self.subscriber() if self.one_in(20) else subscriber} {self.offer(subscriber)}"
        elif message == "response":
            offer = row.procedure.offer if row.stage else (some.port, some.spi, 1, 2)
            details = self.offer(subscriber) if self.one_in(12) else " ".join(map(str, offer))
        else:
            impus = [i for i in range(16) if row.mask >> i & 1]
            details = self.pick([0, 1, 3, 15, 16, 17, 255]) if self.one_in(10) or not impus else self.pick(impus)
        return f"arrive {address} {self.packet(some)} {message} {details}"

    def packet_line(self):
        """The lines of the packet layer alone."""
        algorithm, ik, spi = self.pick([1, 2]), "00" * 16, self.pick([300, 4096])
        segment = self.segment(5100, self.port)
        count, area = self.pick([0, 1, 77, LAST_NUMBER - 1, LAST_NUMBER]), self.pick([0, 31, 32, 36, 1424])
        return self.pick([
            "window",
            f"tag {algorithm} {self.key()} {self.data(self.random.randrange(200)).hex() or '-'}",
            f"seal {algorithm} {self.key()} {spi} {count} {segment} {area}",
            f"unseal {algorithm} {ik} 300 seal:{algorithm}:{ik}:{spi}:{self.random.randrange(1, 200)}:{segment}",
            f"unseal 1 {ik} 300 seal:1:{ik}:300:{self.random.randrange(1, 200)}:{segment}",
        ])

    # --- lines --------------------------------------------------------------------------------------

    def sensible(self, subscriber):
        """What comes next for this subscriber."""
        row = self.row(subscriber)
        if not row:
            return self.register(subscriber)
        if row.stage and row.procedure.cover == 1 and self.filled(row, 1, 2) == [1, 2] and self.one_in(4):
            return self.arrive(subscriber, 2, "ordinary")  # takes the cover away
        if row.stage and row.procedure.cover and not row.slots[row.procedure.cover] and self.one_in(3):
            return self.outcome(subscriber, self.pick(RESULTS))
        if row.stage == 1 and not self.one_in(5):
            return self.challenge(subscriber)
        if row.stage == 2 and not self.one_in(5):
            return self.arrive(subscriber, 3, "response")
        if row.stage == 3 and not self.one_in(5):
            return self.outcome(subscriber, self.pick(["success"] * 5 + RESULTS))
        covers = self.filled(row, 1, 2)
        if not covers:
            return self.register(subscriber)
        if self.one_in(3):
            return self.arrive(subscriber, self.pick(covers), "opening")
        return self.pick([self.arrive(subscriber, self.pick(covers)), self.send(subscriber)])

    def call(self):
        if not self.proxy.rows and self.one_in(10):
            return self.open()
        if self.proxy.clock > LAST_SECOND - 1000 and self.one_in(60):
            return self.open()
        subscriber = self.subscriber()
        if not self.one_in(3):
            return self.sensible(subscriber)
        kind = self.random.randrange(100)
        if kind < 30:
            return self.tick()
        if kind < 40:
            return self.refresh(subscriber)
        if kind < 44:
            return self.deregister(subscriber)
        if kind < 48:
            return self.packet_line()
        if kind < 60:
            return self.send(subscriber)
        if self.show and kind < 70:
            return f"show {subscriber}"
        if self.one_in(80) or (len(self.proxy.rows) > 1000 and self.one_in(40)):
            return self.open()
        return self.pick([self.register, self.challenge, self.outcome, self.arrive, self.arrive])(subscriber)

    def damaged(self, line):
        words = line.split(" ")
        at = self.random.randrange(len(words))
        kind = self.random.randrange(10)
        if kind == 0:
            del words[at]
        elif kind == 1:
            words.insert(at, words[at])
        elif kind == 2:
            words[at] = words[at].upper()
        elif kind == 3:
            words[at] += self.pick("0 9 g - + ^ : ^0 ^99999 \t".split(" "))
        elif kind == 4:
            words[at] = words[at][:-1]
        elif kind == 5:
            words[at] = str(self.pick(EDGES + [2**64, 10**30]))
        elif kind == 6:
            words[at] = self.pick(["-", "#", "open", "seal", "+1", "-1", "0x10", "success", "ordinary", "seal:1:00:1:1:00", "é"])
        elif kind == 7:
            words[at] = "000" + words[at]
        elif kind == 8:
            words[at] = self.pick(["", " ", "  "]) + words[at] + self.pick(["", " ", "  "])
        else:
            return self.pick(["", "  ", "# " + line, "#", " # " + line, line + "\r", line.replace(" ", "\t", 1), line + "\r\r"])
        return " ".join(words)

    def line(self, first):
        line = self.open() if first else self.call()
        if not first and self.one_in(25):
            line = self.damaged(line)
        return line.encode() + (b"\r\n" if self.one_in(50) else b"\n")

    def run(self, lines):
        for count in range(lines):
            line = self.line(count == 0)
            sys.stdout.buffer.write(line)
            try:
                self.replay.answer(line[:-2] if line.endswith(b"\r\n") else line[:-1])
            except BadLine:
                pass


def main():
    words = [word for word in sys.argv[1:] if word != "--show"]
    seed, lines = [int(word) for word in (words + ["1", "1000"][len(words):])[:2]]
    Fuzz(seed, "--show" in sys.argv).run(lines)


if __name__ == "__main__":
    main()
