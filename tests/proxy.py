"""The proxy itself, as a second implementation: rows and calls, over the packets of tests/reference.py.

Written from the documents alone, for tests/reference_calls.py. It is kept unlike the program where it can be, so that
a slip on either side shows as a difference: the set that a packet belongs to is looked for in the whole table.
"""

import struct
from collections import namedtuple

import reference
from reference import Fault, unseal

LAST_NUMBER = 4294967295

MOST_ROWS = 4096
SIP_PORT = 5060
FIRST_SPI = 4096  # subscriber s has the SPIS_EACH SPIs from FIRST_SPI + SPIS_EACH * s on
SPIS_EACH = 16
LEAST_OFFERED_SPI = 256
PATIENCE = 240  # seconds that an offer, and then a challenge, waits for the next step
GRACE = 30  # seconds that a set outlives the registration that it was made for
LAST_SECOND = 4000000000
LONGEST_TIMER = 1000000

NONE, OFFERED, CHALLENGED, ANSWERED = 0, 1, 2, 3  # the stages of a procedure
CLEAR, OLD, CURRENT, REGISTRATION, NOTHING = 0, 1, 2, 3, 4  # what carries a message: in clear, a slot, nothing sent


# --- packets (RFC 2406, integrity only) -------------------------------------------------------------


def check_segment(segment):
    if not 8 <= len(segment) <= 1400:
        raise Fault(16, len(segment))


def seal(algorithm, ik, spi, count, segment, area, place=0):
    """The packet, and the new count. `place` is that of a spent counter."""
    check_segment(segment)
    if count >= LAST_NUMBER:
        raise Fault(26, place)
    return reference.seal(algorithm, ik, spi, count, segment, area)


def check_packet(packet):
    if not 32 <= len(packet) <= 1424 or len(packet) % 4:
        raise Fault(11, len(packet))


# --- the table --------------------------------------------------------------------------------------


Offer = namedtuple("Offer", "port spi a b")
Procedure = namedtuple("Procedure", "offer address algorithm own_spi cover deadline")


class Set:
    """One inbound and one outbound association; `own_spi` is the proxy's, `spi` the handset's."""

    def __init__(self, procedure, ik, expiry):
        self.address, self.port, self.spi = procedure.address, procedure.offer.port, procedure.offer.spi
        self.own_spi, self.algorithm = procedure.own_spi, procedure.algorithm
        self.ik = ik
        self.expiry = expiry
        self.count = 0
        self.recorded = set()


class Row:
    def __init__(self):
        self.slots = {OLD: None, CURRENT: None, REGISTRATION: None}
        self.mask = 0
        self.stage = NONE
        self.procedure = None

    def sets(self, *slots):
        return [self.slots[slot] for slot in slots or self.slots if self.slots[slot]]

    def end(self):
        self.stage = NONE
        self.procedure = None
        self.slots[REGISTRATION] = None


class Proxy:
    """Every call asks all its questions before it changes anything, but for what a comment says."""

    def __init__(self, rows, port, listed):
        good_list = list(listed) in ([1], [2], [1, 2], [2, 1])
        n = min(rows, MOST_ROWS) if good_list and port not in (0, SIP_PORT) else 0
        self.rows = [Row() for _ in range(n)]
        self.port = port
        self.listed = listed
        self.clock = 0

    def row(self, subscriber):
        if subscriber >= len(self.rows):
            raise Fault(31, 0)
        return self.rows[subscriber]

    def table(self):
        """Every set, with its subscriber and slot: rows in order, and in a row the lowest slot first."""
        for subscriber, row in enumerate(self.rows):
            for slot, some in row.slots.items():
                if some:
                    yield subscriber, slot, some

    def check_pair(self, address, port, stage, but=None):
        """No set, but the one in the slot `but`, has this address and handset port."""
        for subscriber, slot, some in self.table():
            if (some.address, some.port) == (address, port) and (subscriber, slot) != but:
                raise Fault(36, stage)

    def begin(self, subscriber, address, offer, cover):
        """The opening REGISTER: the algorithm and the proxy's SPI."""
        row = self.rows[subscriber]
        if offer.port < 1 or offer.spi < LEAST_OFFERED_SPI:
            raise Fault(33, row.stage)
        if offer.a not in (1, 2) or offer.b not in (0, 1, 2) or offer.a == offer.b:
            raise Fault(33, row.stage)
        common = [algorithm for algorithm in self.listed if algorithm in (offer.a, offer.b)]
        if not common:
            raise Fault(34, row.stage)
        used = [spi for some in row.sets() for spi in (some.spi, some.own_spi)]
        if offer.spi in used:
            raise Fault(35, row.stage)
        self.check_pair(address, offer.port, row.stage)
        first = FIRST_SPI + SPIS_EACH * subscriber
        own_spi = min(set(range(first, first + SPIS_EACH)) - set(used) - {offer.spi})
        row.stage = OFFERED
        row.procedure = Procedure(offer, address, common[0], own_spi, cover, self.clock + PATIENCE)
        return common[0], own_spi

    def transmit(self, row, carrier, segment, area):
        """The bytes written and the carrier. A slot that is empty carries nothing."""
        if carrier != CLEAR and not row.slots[carrier]:
            carrier = NOTHING
        check_segment(segment)
        source, destination = struct.unpack(">HH", segment[:4])
        if carrier == NOTHING:
            return b"", carrier
        if carrier == CLEAR:
            if source == self.port:
                raise Fault(15, 0)
            if len(segment) > area:
                raise Fault(17, area)
            return segment, carrier
        some = row.slots[carrier]
        if destination != some.port:
            raise Fault(15, 0)
        packet, some.count = seal(some.algorithm, some.ik, some.spi, some.count, segment, area, carrier)
        return packet, carrier

    def tick(self, second):
        if second < self.clock or second > LAST_SECOND:
            raise Fault(32, 0)
        self.clock = second
        for row in self.rows:
            for slot, some in row.slots.items():
                if some and some.expiry <= second:
                    row.slots[slot] = None
            if row.stage == OFFERED and row.procedure.deadline <= second:
                row.end()
            if row.stage in (CHALLENGED, ANSWERED) and not row.slots[REGISTRATION]:
                row.end()
        return second

    def register(self, address, subscriber, offer):
        self.row(subscriber)
        return self.begin(subscriber, address, offer, CLEAR)

    def challenge(self, subscriber, ik, segment, area):
        row = self.row(subscriber)
        if row.stage != OFFERED:
            raise Fault(37, row.stage)
        procedure = row.procedure
        try:
            if procedure.cover != CLEAR and not row.slots[procedure.cover]:
                raise Fault(38, row.stage)
            self.check_pair(procedure.address, procedure.offer.port, row.stage, (subscriber, REGISTRATION))
        except Fault:
            row.end()  # these two refusals end the procedure
            raise
        answer = self.transmit(row, procedure.cover, segment, area)
        row.slots[REGISTRATION] = Set(procedure, ik, self.clock + PATIENCE)
        row.stage = CHALLENGED
        return answer

    def arrive(self, address, packet, message, details):
        """Subscriber, slot and segment; for an opening also algorithm and SPI."""
        check_packet(packet)
        (spi,) = struct.unpack(">I", packet[:4])
        found = [entry for entry in self.table() if (entry[2].address, entry[2].own_spi) == (address, spi)]
        if not found:
            raise Fault(21, 0)
        subscriber, slot, some = found[0]
        row = self.rows[subscriber]
        segment = unseal(some.algorithm, some.ik, spi, some.recorded, packet)
        # The number is recorded, and stays so whatever is answered from here on.
        if struct.unpack(">HH", segment[:4]) != (some.port, self.port):
            raise Fault(15, 8)
        if (slot == REGISTRATION) != (message == "response"):
            raise Fault(22, slot)
        chosen = ()
        if message == "response":
            if row.stage != CHALLENGED:
                raise Fault(37, row.stage)
            if details != row.procedure.offer:
                row.end()  # so does another offer than that of the opening
                raise Fault(24, slot)
            row.stage = ANSWERED
        elif message == "opening":
            named, offer = details
            if named != subscriber:
                raise Fault(23, slot)
            chosen = self.begin(subscriber, address, offer, slot)
        else:
            if not row.mask >> details & 1:
                raise Fault(23, slot)
        if slot == CURRENT:
            row.slots[OLD] = None
        return subscriber, slot, segment, *chosen

    def outcome(self, subscriber, result, segment, area, timer=None, mask=None):
        row = self.row(subscriber)
        if row.stage == NONE or (row.stage != ANSWERED and result != "other-failure"):
            raise Fault(37, row.stage)
        if result == "success" and (not 1 <= timer <= LONGEST_TIMER or mask == 0):
            raise Fault(39, row.stage)
        cover = row.procedure.cover
        if result == "success" or (result == "user-failure" and cover == CLEAR):
            carrier = REGISTRATION
        else:
            carrier = cover
        answer = self.transmit(row, carrier, segment, area)
        if result == "success":
            new = row.slots[REGISTRATION]
            new.expiry = max([self.clock + timer + GRACE] + [some.expiry for some in row.sets(OLD, CURRENT)])
            row.slots[OLD] = {CLEAR: None, OLD: row.slots[OLD], CURRENT: row.slots[CURRENT]}[cover]
            row.slots[CURRENT] = new
            row.mask = mask
        row.end()
        return answer

    def send(self, subscriber, segment, area):
        row = self.row(subscriber)
        if not row.sets(OLD, CURRENT):
            raise Fault(25, 0)
        return self.transmit(row, OLD if row.slots[OLD] else CURRENT, segment, area)

    def refresh(self, subscriber, timer):
        row = self.row(subscriber)
        if not 1 <= timer <= LONGEST_TIMER:
            raise Fault(39, row.stage)
        some = row.slots[CURRENT]
        if not some:
            raise Fault(25, 0)
        some.expiry = max(some.expiry, self.clock + timer + GRACE)
        return some.expiry

    def deregister(self, subscriber, mask):
        row = self.row(subscriber)
        if row.mask == 0:
            raise Fault(27, 0)
        row.mask &= ~mask
        if row.mask == 0:
            row.slots[OLD] = row.slots[CURRENT] = None
            row.end()
        return bin(row.mask).count("1")
