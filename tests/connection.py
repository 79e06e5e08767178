"""A controller's end of an OpenFlow 1.3 connection: says hello, sends bytes, asks for a barrier behind them, and tells
each error that comes back.

    python3 tests/connection.py SOCKET FILE     SOCKET is a switch's unix socket, FILE has FLOW_MODs
"""
import socket
import struct
import sys

VERSION = 4
# Types of messages: the standard's OFPT_HELLO and so on.
HELLO, ERROR, ECHO_REQUEST, ECHO_REPLY, BARRIER_REQUEST, BARRIER_REPLY = 0, 1, 2, 3, 20, 21


def message(kind, xid=0, body=b""):
    return struct.pack(">BBHI", VERSION, kind, 8 + len(body), xid) + body


def received(stream):
    """The messages that come: kind, xid and body."""
    while True:
        head = stream.read(8)
        if len(head) < 8:
            sys.exit("the switch ended the connection")
        _, kind, length, xid = struct.unpack(">BBHI", head)
        yield kind, xid, stream.read(length - 8)


def main():
    if len(sys.argv) != 3:
        sys.exit(__doc__)
    with open(sys.argv[2], "rb") as file:
        sent = file.read()
    with socket.socket(socket.AF_UNIX) as link:
        link.settimeout(10)
        link.connect(sys.argv[1])
        link.sendall(message(HELLO))
        coming, errors = received(link.makefile("rb")), 0
        if next(coming)[0] != HELLO:
            sys.exit("the switch does not say hello")
        link.sendall(sent + message(BARRIER_REQUEST))
        for kind, xid, body in coming:
            if kind == ERROR:
                errors += 1
                print("error type %d, code %d for change %d" % (*struct.unpack(">HH", body[:4]), xid), file=sys.stderr)
            elif kind == ECHO_REQUEST:
                link.sendall(message(ECHO_REPLY, xid, body))
            elif kind == BARRIER_REPLY:
                break
    print("%d bytes sent, %d errors" % (len(sent), errors))
    sys.exit(errors > 0)


if __name__ == "__main__":
    main()
