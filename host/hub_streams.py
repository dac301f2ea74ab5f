"""What comes to a hub's port and is not a stream of requests alone: bad streams, and a technician's lines. For host/hub_drive.py."""
import socket
import time

from hub_client import (ECHO_REQ, ECHO_RES, ERROR, GRAB_JOB_ALL, NOOP, SET_CLIENT_ID, WORK_COMPLETE, asleep, expect, grab, header, request,
                        submit)


def bad_streams(hub):
    """What is no stream of requests is closed, at once and by what came so far; what stood before it is answered."""
    for name, text, number in (("size 1,025", header(ECHO_REQ, 1025), 7), ("greatest size", header(ECHO_REQ, 2**32 - 1), 7),
                               ("oversize", header(ECHO_REQ, 5000) + b"x" * 5000, 7), ("nearly", b"\0RE\0", 5),
                               ("response", header(ECHO_RES, 0, b"\0RES"), 6), ("garbage", bytes(range(0, 256, 3)) * 9, 6)):
        client = hub.client(name)
        client.refused = [number]
        client.send(text)
        client.closed()
    client = hub.client("a foreign type")
    expect("a type that is not served", client.ask(request(GRAB_JOB_ALL), ERROR), b"09\0type")
    client.refused = [9]
    hub.client("gone in the middle of a packet").socket.sendall(request(ECHO_REQ, b"half")[:14])
    hub.clients[-1].kill()


def technician(hub, workers):
    """Text lines on the same port, between packets and in pieces; a line without an end is answered once and closes."""
    client = hub.client("technician")
    status = b"reverse\t0\t0\t2\n.\n"
    expect("status", client.text(b"status\n", b".\n"), status)
    expect("status with a carriage return", client.text(b"status\r\n", b".\n"), status)
    expect("version", client.text(b"version\n", b"\n"), b"lap 1\n")
    for line in (b"\n", b"STATUS\n", b"status\r\r\n", b"x" * 127 + b"\n"):
        expect(f"the line {line!r}", client.text(line, b"\n"), b"ERR unknown\n")
    workers[0].send(request(SET_CLIENT_ID, b"grey box"))
    workers[0].quiet()
    handle = submit(client, b"seen by nobody")
    for worker in workers:
        worker.reads(NOOP)
    expect("a job that waits", client.text(b"status\n", b".\n"), b"reverse\t1\t0\t2\n.\n")
    expect("the technician's job", grab(workers[0]), (handle, b"seen by nobody"))
    expect("a job that is held", client.text(b"status\n", b".\n"), b"reverse\t1\t1\t2\n.\n")
    for byte in b"workers":
        client.send(bytes([byte]))
        time.sleep(0.001)
    said = client.text(b"\n", b".\n").splitlines(keepends=True)
    expect("workers: with functions", [line for line in said if b"reverse" in line], [b"0 - grey?box : reverse\n", b"1 - - : reverse\n"])
    expect("workers: all others", [line for line in said if b"reverse" not in line], [b"%d - - :\n" % c for c in (2, 3, 4, 5)] + [b".\n"])
    workers[0].send(request(WORK_COMPLETE, handle, b""))
    client.reads(WORK_COMPLETE, handle, b"")
    for worker in workers:
        asleep(worker)
    endless = hub.client("endless line")
    expect("a line above 128 bytes", endless.text(b"x" * 200, b"\n"), b"ERR unknown\n")
    endless.closed()
    client.socket.shutdown(socket.SHUT_WR)
    client.drain()
