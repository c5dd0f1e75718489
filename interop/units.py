"""What must come of a clip and its packets: an independent reading of Annex B files, of RFC 3550 and of RFC 6184.

  units.py clip CLIP NAME                                    the clip has what the clip of this name is made for
  units.py same CLIP LEFT OTHER                              OTHER, an Annex B file, has the units of CLIP
  units.py sent CLIP LEFT PACKETS MTU SOURCE FIRST PROFILE   PACKETS carry the units of CLIP, as a sender must
  units.py timed PACKETS PICTURES TICKS                      marker and time in PACKETS tell so many pictures apart
  units.py joined CLIP LEFT PACKETS ARRIVALS OTHER ACCOUNT   `join` must make exactly OTHER and ACCOUNT of ARRIVALS
  units.py turned CLIP LEFT PACKETS SECOND ITS_PACKETS ARRIVALS OTHER ACCOUNT
                                                             the same, of the arrivals of two encoders
  units.py whole CLIP LEFT PACKETS ARRIVALS OTHER            OTHER, an Annex B file, has the units that are whole in ARRIVALS
  units.py rewrite CLIP OTHER long|short|ended|altered       CLIP with other start codes or units

LEFT are the types of units that the sender leaves out, as in 9,12; - is none. PROFILE is that of the header's extensions (RFC 8285),
bede or 1000; - is none. Packets are framed by RFC 4571. ARRIVALS is what came of PACKETS: some of them, in any order, any number of times; a relay
may have marked some (RFC 6184, 5.3: F). SECOND is the clip of a second encoder: its packets bear the same SSRC, the same numbers, and times of
their own.

Exit status: 0 it is so, and the figures are printed; 3 it is not, and the first difference is told.
"""

import collections
import struct
import sys

import framing

STAP_A = 24
FU_A = 28
CODE = b"\0\0\0\1"


def differ(what):
    print(what)
    raise SystemExit(3)


def content(path):
    with open(path, "rb") as f:
        return f.read()


def kind(unit):
    return unit[0] % 32


def is_marked(unit):
    return unit[0] & 0x80 != 0


def marks(units):
    return sum(is_marked(unit) for unit in units)


def unmarked(unit):
    return bytes([unit[0] & 0x7F]) + unit[1:]


def marked(unit):
    return bytes([unit[0] | 0x80]) + unit[1:]


# Annex B: units behind start codes 00 00 01. Zeros before a code and at the end belong to no unit.


def units_of(path):
    parts = content(path).split(b"\0\0\1")
    if parts[0].strip(b"\0"):
        differ(f"{path}: bytes before the first start code")
    return [part.rstrip(b"\0") for part in parts[1:]]


def clip_units(path, left):
    """The units of a clip, without the types that its sender leaves out."""
    types = [] if left == "-" else [int(t) for t in left.split(",")]
    return [unit for unit in units_of(path) if kind(unit) not in types]


def compare(wanted, got, what):
    for i, (a, b) in enumerate(zip(wanted, got)):
        if a != b:
            same = next((n for n, (x, y) in enumerate(zip(a, b)) if x != y), min(len(a), len(b)))
            differ(f"{what}: unit {i} has {len(b)} bytes, must have {len(a)}; the first {same} are right")
    if len(wanted) != len(got):
        differ(f"{what}: {len(got)} units, must be {len(wanted)}")


# RFC 3550: the header. None of the senders uses padding or contributing sources.


class Packet:
    def __init__(self, data):
        if len(data) < 13 or data[0] not in (0x80, 0x90):
            differ(f"a packet without a plain header: {data[:12].hex()}")
        self.marker = data[1] // 128
        self.type = data[1] % 128
        self.number, self.time, self.source = struct.unpack_from(">HII", data, 2)
        self.profile = "-"
        size = 12
        if data[0] == 0x90:
            profile, words = struct.unpack_from(">HH", data, 12)
            self.profile = f"{profile:04x}"
            size = 16 + 4 * words
        self.header = data[:size]
        self.payload = data[size:]
        if not self.payload:
            differ(f"a packet without a payload: {data[:12].hex()}")
        # RFC 6184, 5.8: a fragment has bits for the start and the end of its unit
        self.fragment = kind(self.payload) == FU_A
        bits = self.payload[1] if self.fragment else 0
        self.start, self.end = bits & 0x80 != 0, bits & 0x40 != 0

    def is_of(self, sent):
        """Whether it is what was sent, save for a mark."""
        return self.header == sent.header and unmarked(self.payload) == unmarked(sent.payload)


def packets_of(path):
    return [Packet(data) for data in framing.read(path)]


# RFC 6184: a group is one unit alone, the units of a STAP-A (5.7.1), or all fragments of a unit (5.8).


class Group:
    def __init__(self, first):
        self.packets = [first]
        self.units = []
        self.aggregated = False


def aggregated(payload):
    units = []
    at = 1
    while at < len(payload):
        if len(payload) < at + 2:
            differ("a STAP-A that ends within a size")
        (size,) = struct.unpack_from(">H", payload, at)
        if size == 0 or len(payload) < at + 2 + size:
            differ("a STAP-A with a wrong size")
        units.append(payload[at + 2 : at + 2 + size])
        at += 2 + size
    return units


def groups_of(packets):
    groups = []
    # the unit whose last fragment did not come yet
    unit = None
    for i, packet in enumerate(packets):
        payload = packet.payload
        if not packet.fragment:
            if unit is not None:
                differ(f"packet {i} comes within the fragments of a unit")
            group = Group(packet)
            group.aggregated = kind(payload) == STAP_A
            group.units = aggregated(payload) if group.aggregated else [payload]
            groups.append(group)
            continue
        head = bytes([payload[0] & 0xE0 | payload[1] & 0x1F])
        if packet.start == (unit is not None) or packet.start and packet.end or unit and unit[:1] != head:
            differ(f"packet {i} is a fragment out of place")
        if packet.start:
            unit = head
            groups.append(Group(packet))
        else:
            groups[-1].packets.append(packet)
        if packet.time != groups[-1].packets[0].time:
            differ(f"packet {i} is a fragment of another time")
        unit += payload[2:]
        if packet.end:
            groups[-1].units = [unit]
            unit = None
    if unit is not None:
        differ("the last unit has no last fragment")
    return groups


def carried(wanted, packets, path):
    """The groups of packets that carry exactly these units."""
    groups = groups_of(packets)
    compare(wanted, [unit for group in groups for unit in group.units], path)
    return groups


# What becomes of arrivals. A packet is accepted where its place is above that of every packet accepted before, and it is not refused: by 4 (see
# is_short), or by 25, where it goes on with a unit whose packets so far were accepted, and is of another time.


class Show:
    def __init__(self, senders, arrivals, refuses):
        self.arrivals = len(arrivals)
        # as they were sent
        self.accepted = set()
        self.marked = set()
        self.late = 0
        self.refused = collections.Counter()
        # the first and the last place of each jump
        self.jumps = []
        self.end = max(len(packets) for packets in senders)
        highest = -1
        # the time of that unit, while there is one
        time = None
        for arrival in arrivals:
            i = place(senders[0], arrival)
            sent = next((packets[i] for packets in senders if i < len(packets) and arrival.is_of(packets[i])), None)
            if sent is None:
                differ(f"number {arrival.number} arrived, and was not sent")
            goes_on = arrival.fragment and not arrival.start and i == highest + 1 and time is not None
            if i <= highest:
                self.late += 1
            elif refuses(arrival.payload):
                self.refused[4] += 1
            elif goes_on and arrival.time != time:
                self.refused[25] += 1
            else:
                self.jump(highest, i)
                self.accepted.add(sent)
                if is_marked(arrival.payload):
                    self.marked.add(sent)
                time = arrival.time if (arrival.start or goes_on) and not arrival.end else None
                highest = i
        self.jump(highest, self.end)

    def jump(self, highest, i):
        if highest + 1 < i:
            self.jumps.append((highest + 1, i - 1))

    def handed_out(self, group):
        """The units of a group that was accepted whole. A STAP-A's have not its mark; any other has that of any of its packets."""
        if group.aggregated or self.marked.isdisjoint(group.packets):
            return group.units
        return [marked(unit) for unit in group.units]


def is_short(payload):
    """`join` refuses these, though RFC 6184 permits them: docs/DIFFERENCES.md."""
    return len(payload) < 2 or len(payload) == 2 and kind(payload) != 9


def place(packets, packet):
    return (packet.number - packets[0].number) % 65536


def show_of(sent, left, arrivals, refuses):
    """The first number, what becomes of the arrivals, the units that are whole in them, and the figures. `sent` has each clip with the file of its
    packets."""
    senders = []
    groups = []
    for clip, path in sent:
        packets = packets_of(path)
        if 32767 < len(packets):
            differ(f"{path}: more packets than their numbers tell apart")
        groups += carried(clip_units(clip, left), packets, path)
        senders.append(packets)
    show = Show(senders, packets_of(arrivals), refuses)
    groups.sort(key=lambda group: place(senders[0], group.packets[0]))
    whole = [unit for group in groups if show.accepted.issuperset(group.packets) for unit in show.handed_out(group)]
    total = sum(len(group.units) for group in groups)
    figures = f"{show.end} packets, {show.arrivals} arrived, {len(show.accepted)} accepted; {len(whole)} of {total} units whole"
    figures += f", {marks(whole)} marked"
    return senders[0][0].number, show, whole, figures


def account(first, show, whole, size):
    lines = [f"jump from {(first + a) % 65536} to {(first + b) % 65536}" for a, b in show.jumps]
    lines += [f"packets {show.arrivals}", f"accepted {len(show.accepted)}", f"late {show.late}", "other sources 0"]
    lines += [f"refused {number}: {count}" for number, count in sorted(show.refused.items())]
    lines.append(f"missed {show.end - len(show.accepted)}")
    lines += [f"units {len(whole)}", f"marked units {marks(whole)}", f"bytes {size}"]
    return "".join(line + "\n" for line in lines)


# H.264, 7.3.3: a slice begins with the number of its first macroblock and its type, both as Exp-Golomb codes (9.1).


def golomb(bits):
    zeros = bits.index("1")
    return int(bits[zeros : 2 * zeros + 1], 2) - 1, bits[2 * zeros + 1 :]


def slices_of(units):
    """The first macroblock and the type of each slice."""
    slices = []
    for unit in units:
        if kind(unit) in (1, 5):
            first, rest = golomb("".join(f"{byte:08b}" for byte in unit[1:9]))
            slices.append((first, golomb(rest)[0] % 5))
    return slices


# The commands.


def clip(path, name):
    units = units_of(path)
    kinds = collections.Counter(kind(unit) for unit in units)
    longest = max(len(unit) for unit in units)
    slices = slices_of(units)
    pictures = sum(first == 0 for first, _ in slices)
    backward = sum(slice_type == 1 for _, slice_type in slices)
    data = content(path)
    meant = {
        "plain": len(slices) == pictures and not backward,
        "slices": len(slices) == 5 * pictures,
        "delimited": kinds[9] == pictures,
        "reordered": pictures < 2 * backward,
        "noisy": 20000 < longest,
        "filled": 0 < kinds[12],
        "long": data.count(CODE) == len(units),
        "short": data.count(CODE) == 0,
        "ended": kinds[10] and kinds[11],
        "second": 1200 < min(len(unit) for unit in units if kind(unit) in (1, 5)),
    }
    figures = ", ".join(f"{count} of type {t}" for t, count in sorted(kinds.items()))
    figures = f"{len(units)} units, {figures}; the longest has {longest} bytes"
    if not meant[name]:
        differ(f"{path} is not what it is meant to be: {figures}")
    print(figures)


def same(path, left, other):
    wanted = clip_units(path, left)
    compare(wanted, units_of(other), other)
    print(f"{len(wanted)} units")


def sent(path, left, other, mtu, source, first, profile):
    packets = packets_of(other)
    groups = carried(clip_units(path, left), packets, other)
    for i, packet in enumerate(packets):
        if packet.number != (int(first) + i) % 65536:
            differ(f"{other}: packet {i} bears number {packet.number}")
        if packet.source != int(source) or packet.type != 96:
            differ(f"{other}: packet {i} is of source {packet.source} and type {packet.type}")
        if packet.profile != profile:
            differ(f"{other}: packet {i} has extensions of profile {packet.profile}")
        if int(mtu) < len(packet.payload):
            differ(f"{other}: the payload of packet {i} has {len(packet.payload)} bytes")
    units = sum(len(group.units) for group in groups)
    fragments = sum(packet.fragment for packet in packets)
    aggregates = sum(kind(packet.payload) == STAP_A for packet in packets)
    print(f"{len(packets)} packets, {fragments} of them fragments and {aggregates} STAP-A; {units} units")


def timed(path, pictures, ticks):
    """The marker is on the last packet of each picture, and the time goes on behind it and nowhere else."""
    packets = packets_of(path)
    time = 0
    markers = 0
    for i, packet in enumerate(packets):
        if packet.time != time:
            differ(f"{path}: packet {i} bears time {packet.time}, must bear {time}")
        if packet.marker:
            time += int(ticks)
            markers += 1
    if markers != int(pictures) or not packets[-1].marker:
        differ(f"{path}: {markers} markers, must be {pictures}, the last on the last packet")
    print(f"{markers} pictures")


def judge(sent, left, arrivals, other, written):
    first, show, whole, figures = show_of(sent, left, arrivals, is_short)
    compare(whole, units_of(other), other)
    wanted = b"".join(CODE + unit for unit in whole)
    if content(other) != wanted:
        differ(f"{other}: the units are right, what stands between them is not")
    wanted = account(first, show, whole, len(wanted)).splitlines()
    got = content(written).decode().splitlines()
    if got != wanted:
        differ(f"{written}: {next((line for line in wanted if line not in got), 'a line')} must be there, and nothing else")
    print(f"{figures}; {show.refused[25]} of another time")


def joined(path, left, sent_path, arrivals, other, written):
    judge([(path, sent_path)], left, arrivals, other, written)


def turned(path, left, sent_path, second, second_path, arrivals, other, written):
    judge([(path, sent_path), (second, second_path)], left, arrivals, other, written)


def whole_in(path, left, sent_path, arrivals, other):
    _, _, whole, figures = show_of([(path, sent_path)], left, arrivals, lambda payload: False)
    compare(whole, units_of(other), other)
    print(figures)


def rewrite(path, other, how):
    units = units_of(path)
    if how == "ended":
        # an end of sequence (type 10) before each parameter set of sequence but the first; at the end one more, and an end of stream (11)
        sets = [i for i, unit in enumerate(units) if kind(unit) == 7]
        for i in reversed(sets[1:]):
            units.insert(i, b"\x0a")
        units += [b"\x0a", b"\x0b"]
    if how == "altered":
        longest = max(range(len(units)), key=lambda i: len(units[i]))
        units[longest] = framing.altered(units[longest])
    code = CODE[1:] if how == "short" else CODE
    with open(other, "wb") as f:
        f.write(b"".join(code + unit for unit in units))


COMMANDS = {
    "clip": (clip, 2),
    "same": (same, 3),
    "sent": (sent, 7),
    "timed": (timed, 3),
    "joined": (joined, 6),
    "turned": (turned, 8),
    "whole": (whole_in, 5),
    "rewrite": (rewrite, 3),
}


def main():
    command, count = COMMANDS.get(sys.argv[1] if 1 < len(sys.argv) else "", (None, 0))
    if command is None or len(sys.argv) != 2 + count:
        print(__doc__, end="", file=sys.stderr)
        raise SystemExit(2)
    command(*sys.argv[2:])


main()
