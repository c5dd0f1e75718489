"""Packets of a file to and from a program, by UDP on the loopback.

  udp.py play PACKETS SDP COMMAND ..   starts COMMAND, which receives by the file SDP, and sends it the packets
  udp.py record PACKETS COMMAND ..     starts COMMAND, which sends to PORT, and writes what came

`play` writes the file SDP, with a free port, and sends an RTCP BYE (RFC 3550, section 6.6) behind the last packet. For `record` PORT
in COMMAND's arguments stands for a free port, the next of which gets RTCP, and COMMAND's end is the end.

Nothing may be lost on the way. `play` waits while many bytes wait to be read at the receiver's port; `record` starts COMMAND again,
up to 5 times, where the system dropped a datagram. COMMAND has 60 seconds.
"""

import select
import signal
import socket
import struct
import subprocess
import sys
import time

import framing

HOST = "127.0.0.1"
SECONDS = 60
TRIES = 5
# how many bytes may wait at the receiver's port, as the system counts them
WAITING = 65536
# the bytes that we have room for as a receiver, where the system permits it
ROOM = 16 * 1024 * 1024

SDP = """v=0
o=- 0 0 IN IP4 127.0.0.1
s=-
c=IN IP4 127.0.0.1
t=0 0
m=video {port} RTP/AVP 96
a=rtpmap:96 H264/90000
a=fmtp:96 packetization-mode=1
"""


def give_up(why):
    raise SystemExit("udp.py: " + why)


def free_pair():
    """Two sockets at ports that follow each other, the first even: RTP and RTCP."""
    for _ in range(1000):
        rtp = socket.socket(socket.AF_INET, socket.SOCK_DGRAM)
        rtcp = socket.socket(socket.AF_INET, socket.SOCK_DGRAM)
        rtp.bind((HOST, 0))
        port = rtp.getsockname()[1]
        try:
            if port % 2 == 0:
                rtcp.bind((HOST, port + 1))
                return rtp, rtcp, port
        except OSError:
            pass
        rtp.close()
        rtcp.close()
    give_up("no two free ports")


def state_of(port):
    """How many bytes wait at a port, and how many datagrams the system dropped there; None where nobody listens."""
    with open("/proc/net/udp") as f:
        lines = f.read().splitlines()[1:]
    for line in lines:
        fields = line.split()
        if int(fields[1].split(":")[1], 16) == port:
            return int(fields[4].split(":")[1], 16), int(fields[-1])
    return None


class Program:
    """A program that is over at the end of the block, whatever happens in it."""

    def __init__(self, command):
        self.child = subprocess.Popen(command, stdin=subprocess.DEVNULL)
        self.limit = time.monotonic() + SECONDS

    def __enter__(self):
        return self

    def __exit__(self, *_):
        if self.child.poll() is None:
            self.child.kill()
            self.child.wait()

    def runs(self):
        """Whether it still runs; not for longer than it may."""
        if self.child.poll() is not None:
            return False
        if self.limit < time.monotonic():
            give_up(f"the program took over {SECONDS} seconds")
        return True

    def check_status(self):
        if self.child.wait():
            give_up(f"the program ended with status {self.child.returncode}")


def wait_for_room(program, port):
    """Waits until somebody listens and few bytes wait."""
    while program.runs():
        state = state_of(port)
        if state is not None:
            if state[1]:
                give_up("the system dropped a datagram")
            if state[0] <= WAITING:
                return
        time.sleep(0.001)
    give_up("the program ended before the packets did")


def bye(source):
    """An empty receiver report and a BYE."""
    return struct.pack(">BBHIBBHI", 0x80, 201, 1, source, 0x81, 203, 1, source)


def play(path, sdp, command):
    packets = framing.read(path)
    rtp, rtcp, port = free_pair()
    rtp.close()
    rtcp.close()
    with open(sdp, "w") as f:
        f.write(SDP.format(port=port))
    out = socket.socket(socket.AF_INET, socket.SOCK_DGRAM)
    source = struct.unpack_from(">I", packets[0], 8)[0]
    with Program(command) as program:
        for packet in packets + [bye(source)]:
            wait_for_room(program, port)
            out.sendto(packet, (HOST, port))
        while program.runs():
            time.sleep(0.005)
        program.check_status()


def widen(sock):
    try:
        sock.setsockopt(socket.SOL_SOCKET, socket.SO_RCVBUFFORCE, ROOM)
    except (AttributeError, PermissionError):
        sock.setsockopt(socket.SOL_SOCKET, socket.SO_RCVBUF, ROOM)


def waiting(sock):
    """The datagrams that wait at a socket."""
    while True:
        try:
            yield sock.recv(65536)
        except BlockingIOError:
            return


def record_once(command):
    """The packets of one run of the command; None where the system dropped one."""
    rtp, rtcp, port = free_pair()
    widen(rtp)
    rtp.setblocking(False)
    packets = []
    with rtp, rtcp, Program([a.replace("PORT", str(port)) for a in command]) as program:
        while program.runs():
            select.select([rtp], [], [], 0.01)
            packets.extend(waiting(rtp))
        program.check_status()
        packets.extend(waiting(rtp))
        return None if state_of(port)[1] else packets


def record(path, command):
    for _ in range(TRIES):
        packets = record_once(command)
        if packets is not None:
            framing.write(path, packets)
            return
    give_up(f"the system dropped a datagram {TRIES} times")


def main():
    # where this tool is ended, it ends its program first
    signal.signal(signal.SIGTERM, lambda *_: give_up("ended from outside"))
    arguments = sys.argv[1:]
    if arguments[:1] == ["play"] and 3 < len(arguments):
        play(arguments[1], arguments[2], arguments[3:])
    elif arguments[:1] == ["record"] and 2 < len(arguments):
        record(arguments[1], arguments[2:])
    else:
        print(__doc__, end="", file=sys.stderr)
        raise SystemExit(2)


main()
