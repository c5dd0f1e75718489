"""A bad channel, by a seed, with a relay that marks packets and a second encoder; and what lets the checks be seen to fail.

  channel.py lose PACKETS ARRIVALS SEED COUNT          COUNT packets are left out
  channel.py disturb PACKETS ARRIVALS SEED COUNT       the same; of the others COUNT come twice, and COUNT up to 8 places later
  channel.py mark PACKETS ARRIVALS SEED COUNT          COUNT packets get the top bit of their payload, behind a header of 12 bytes
  channel.py turn PACKETS OTHERS ARRIVALS SEED COUNT   two encoders that number alike take turns: COUNT times the one takes over from the other. Up
                                                       to 8 places before that it sends, too, and each of its packets comes first
  channel.py later PACKETS ARRIVALS PLACE TICKS        from this place on all bear a time so much later
  channel.py alter PACKETS ARRIVALS                    one byte in the middle of the longest packet is another
"""

import random
import struct
import sys

import framing

PLACES = 8


def lose(packets, chance, count):
    lost = set(chance.sample(range(len(packets)), count))
    return [packet for i, packet in enumerate(packets) if i not in lost]


def disturb(packets, chance, count):
    left = lose(packets, chance, count)
    places = [float(i) for i in range(len(left))]
    for i in chance.sample(range(len(left)), count):
        places[i] += chance.randint(1, PLACES) + 0.5
    for i in chance.sample(range(len(left)), count):
        left.append(left[i])
        places.append(i + chance.randint(0, PLACES) + 0.25)
    order = sorted(range(len(left)), key=lambda i: places[i])
    return [left[i] for i in order]


def mark(packets, chance, count):
    marked = set(chance.sample(range(len(packets)), count))
    return [p[:12] + bytes([p[12] | 0x80]) + p[13:] if i in marked else p for i, p in enumerate(packets)]


def turn(packets, others, chance, count):
    arrivals = []
    at = 0
    for over in sorted(chance.sample(range(1, min(len(packets), len(others))), count)):
        both = max(at, over - chance.randint(0, PLACES))
        arrivals += packets[at:both]
        for i in range(both, over):
            arrivals += [others[i], packets[i]]
        packets, others = others, packets
        at = over
    return arrivals + packets[at:]


def later(packets, place, ticks):
    def moved(packet):
        (time,) = struct.unpack_from(">I", packet, 4)
        return packet[:4] + struct.pack(">I", (time + ticks) % 2**32) + packet[8:]

    return packets[:place] + [moved(packet) for packet in packets[place:]]


def alter(packets):
    longest = max(range(len(packets)), key=lambda i: len(packets[i]))
    return packets[:longest] + [framing.altered(packets[longest])] + packets[longest + 1 :]


def seeded(change):
    """A change by chance, as one by a seed."""
    return lambda *packets, seed, count: change(*packets, random.Random(seed), count)


# how many files of packets it reads, and the numbers that follow the one that it writes
COMMANDS = {
    "lose": (seeded(lose), 1, ("seed", "count")),
    "disturb": (seeded(disturb), 1, ("seed", "count")),
    "mark": (seeded(mark), 1, ("seed", "count")),
    "turn": (seeded(turn), 2, ("seed", "count")),
    "later": (later, 1, ("place", "ticks")),
    "alter": (alter, 1, ()),
}


def main():
    how, *arguments = sys.argv[1:] or [""]
    change, files, names = COMMANDS.get(how, (None, 0, ()))
    if change is None or len(arguments) != files + 1 + len(names):
        print(__doc__, end="", file=sys.stderr)
        raise SystemExit(2)
    packets = [framing.read(path) for path in arguments[:files]]
    numbers = {name: int(number) for name, number in zip(names, arguments[files + 1 :])}
    framing.write(arguments[files], change(*packets, **numbers))


main()
