#!/usr/bin/env python3
"""Drives the hub of host/hub over sockets of 127.0.0.1 and compares what it sent with a replay of its capture.

usage: hub_drive.py FOLDER REPLAY HUB     the folder for its files, and two commands, each one word: "qemu-x86_64 target/hub/hub"

The first fault is printed and ends it with status 1. It takes a few seconds, and never more than LIMIT.
"""
import os
import shlex
import signal
import socket
import subprocess
import sys
import time

from hub_client import (CAN_DO, ECHO_REQ, ECHO_RES, FUNCTION, GRAB_JOB, GRAB_JOB_ALL, JOB_ASSIGN_UNIQ, JOB_CREATED, LAP, NO_JOB, NOOP,
                        OPTION_REQ, OPTION_RES, PRE_SLEEP, SET_CLIENT_ID, SUBMIT_JOB, SUBMIT_JOB_BG, WORK_COMPLETE, WORK_DATA,
                        WORK_EXCEPTION, WORK_FAIL, Client, Fault, Hub, asleep, compare, expect, grab, header, keep_serial, lives,
                        refused_start, request, serial_in, submit, worker_of)
from hub_names import foreign_handles, late_results, refuses_names
from hub_restart import mains_off, second_life, without_the_serial
from hub_streams import bad_streams, technician

LIMIT = 180


def two_workers_three_boards(hub):
    """All at once: nobody reads before everybody has sent."""
    workers = [worker_of(hub, f"worker {n}") for n in (1, 2)]
    boards = [hub.client(f"board {n}") for n in (1, 2, 3)]
    for board in boards:
        board.send(*[request(SUBMIT_JOB, FUNCTION, b"", board.mark + digit) for digit in (b"0", b"1")])
    wanted = {}
    for board in boards:
        for digit in (b"0", b"1"):
            wanted[board.read()[1]] = (board, (board.mark + digit)[::-1])
    expect("different handles", len(wanted), 6)
    for worker in workers:
        worker.reads(NOOP)
        worker.send(*[request(GRAB_JOB)] * 3)
    for worker in workers:
        for _ in range(3):
            handle, _, workload = worker.read()[1].split(b"\0", 2)
            worker.send(request(WORK_COMPLETE, handle, workload[::-1]))
    for board in boards:
        for _ in range(2):
            kind, data = board.read()
            handle, result = data.split(b"\0", 1)
            expect(f"{board.name}: a result", (kind, wanted[handle]), (WORK_COMPLETE, (board, result)))
    for client in workers + boards:
        client.quiet()
    for worker in workers:
        asleep(worker)
    return workers, boards


def pieces(board, workers):
    """A packet in many pieces, several packets in one, and a piece that ends in the middle of a packet."""
    for byte in request(SUBMIT_JOB, FUNCTION, b"", b"in pieces"):
        board.send(bytes([byte]))
        time.sleep(0.001)
    handle = board.read()[1]
    for worker in workers:
        worker.reads(NOOP)
    expect("the job in pieces", grab(workers[0]), (handle, b"in pieces"))
    workers[0].send(request(WORK_COMPLETE, handle, b""))
    board.reads(WORK_COMPLETE, handle, b"")
    texts = (b"one", b"", b"three", b"x" * 1024)
    board.send(*[request(ECHO_REQ, text) for text in texts], request(ECHO_REQ, b"cut")[:5])
    for text in texts:
        board.reads(ECHO_RES, text)
    board.send(request(ECHO_REQ, b"cut")[5:])
    board.reads(ECHO_RES, b"cut")
    for worker in workers:
        asleep(worker)


def killed_worker(board, workers):
    """The job of a killed worker returns to the queue, and the other gets it under the same handle."""
    handle = submit(board, b"of a killed worker")
    for worker in workers:
        worker.reads(NOOP)
    expect("the first worker's job", grab(workers[0]), (handle, b"of a killed worker"))
    workers[1].send(request(PRE_SLEEP))
    workers[1].quiet()
    workers[0].kill()
    workers[1].reads(NOOP)
    expect("the second worker's job", grab(workers[1]), (handle, b"of a killed worker"))
    workers[1].send(request(WORK_COMPLETE, handle, b"done"))
    board.reads(WORK_COMPLETE, handle, b"done")
    asleep(workers[1])


def exception(boards, worker):
    """No board waits after an exception: it goes to the one that set the option, and WORK_FAIL to the others that wait for the job."""
    boards[1].send(request(OPTION_REQ, b"exceptions"))
    boards[1].reads(OPTION_RES, b"exceptions")
    shared = request(SUBMIT_JOB, FUNCTION, b"shared", b"no seats")
    handles = {board.ask(shared, JOB_CREATED) for board in boards}
    worker.reads(NOOP)
    handle, _workload = grab(worker)
    expect("the boards' one job", handles, {handle})
    worker.send(request(WORK_EXCEPTION, handle, b"why"))
    for board, told in zip(boards, ((WORK_FAIL, handle), (WORK_EXCEPTION, handle, b"why"), (WORK_FAIL, handle))):
        board.reads(*told)
    asleep(worker)


def slow_reader(hub, board, worker):
    """A board that does not read is closed when its queue is full; the others are served. The next board gets its number, not its bytes."""
    slow = hub.client("slow board", receive_buffer=4096)
    slow.slow = True
    handle = submit(slow, b"much")
    worker.reads(NOOP)
    expect("the slow board's job", grab(worker), (handle, b"much"))
    for _ in range(2000):
        worker.send(*[request(WORK_DATA, handle, b"d" * 1000)] * 16)
        worker.quiet()
        board.quiet()
        if "its queue is full" in hub.stderr():
            break
    else:
        raise Fault("the slow board was not closed after 32 megabytes")
    following = hub.client("board after the slow one")
    worker.send(request(WORK_DATA, handle, b"nobody listens"), request(WORK_COMPLETE, handle, b"nobody listens"))
    worker.quiet()
    following.quiet()
    slow.drain()
    asleep(worker)


def seventeenth(hub):
    """Sixteen are served. The 17th is closed at once, and served when it comes again after another has left."""
    number = 0
    here = [client for client in hub.clients if not client.ended]
    while len(here) < 16:
        number += 1
        here.append(hub.client(f"guest {number}"))
    turned_away = Client(hub.port, "17th")
    turned_away.closed()
    here[-1].socket.shutdown(socket.SHUT_WR)
    here[-1].drain()
    hub.client("17th again")
    for client in here[:-1]:
        client.quiet()


def first_life(start, replay, serial):
    hub = start("first", serial)
    workers, boards = two_workers_three_boards(hub)
    pieces(boards[0], workers)
    technician(hub, workers)
    bad_streams(hub)
    killed_worker(boards[1], workers)
    exception(boards, workers[1])
    slow_reader(hub, boards[2], workers[1])
    seventeenth(hub)
    late = submit(boards[0], b"the pupil's profile")
    workers[1].reads(NOOP)
    expect("the job that is held at the end", grab(workers[1]), (late, b"the pupil's profile"))
    expect("the kept serial", hub.handle(serial_in(serial)), late)
    hub.end()
    numbers = compare(hub, replay)
    expect("the number after the slow board", numbers["board after the slow one"], numbers["slow board"])
    return late


def unmodified_workers(start, replay, serial):
    """-w: type 39 is answered as 30, and the capture has what was handed over. Serials go on after 70."""
    keep_serial(serial, 70)
    hub = start("unmodified", serial, "-w")
    board, worker = hub.client("board"), hub.client("worker")
    worker.send(request(SET_CLIENT_ID, b"name"), request(CAN_DO, FUNCTION), request(GRAB_JOB_ALL))
    worker.reads(NO_JOB)
    handle = submit(board, b"text", SUBMIT_JOB_BG)
    expect("the handle after 70", handle, hub.handle(71))
    expect("the job", worker.ask(request(GRAB_JOB_ALL), JOB_ASSIGN_UNIQ), b"\0".join((handle, FUNCTION, b"", b"text")))
    long_name = hub.client("too long a name")
    long_name.refused = [7]
    long_name.send(header(SET_CLIENT_ID, 1025))
    long_name.closed()
    hub.end()
    compare(hub, replay, leading=3)
    expect("type 39 in the capture", [], [life for life in lives(replay, hub.capture) if header(GRAB_JOB_ALL, 0) in life["packets"]])


def refuses_to_start(command, folder):
    """A serial file that is in use or not understood, a capture that is there already, a bad port: status 1, and a word."""
    taken, broken = os.path.join(folder, "taken"), os.path.join(folder, "broken")
    with open(broken, "w", encoding="ascii") as file:
        file.write("12\n")
    hub = Hub(command, folder, "holder", taken)
    try:
        for words in (["-p", "0", taken], ["-p", "0", broken], ["-p", "0", "-c", hub.capture, taken + "2"], ["-p", "x", taken + "2"]):
            refused_start(command, *words)
        hub.end()
    finally:
        hub.kill()


def drive(folder, replay, command):
    hubs = []

    def start(life, serial, *options, name=LAP):
        hubs.append(Hub(command, folder, life, serial, *options, name=name))
        return hubs[-1]

    paths = [os.path.join(folder, name) for name in ("serial", "other-serial", "third-serial", "named-serial", "renamed-serial")]
    for path in paths:
        if os.path.exists(path):
            os.remove(path)
    try:
        late = first_life(start, replay, paths[0])
        second_life(start, replay, paths[0], late)
        mains_off(start, paths[0])
        without_the_serial(start, paths[1], late)
        unmodified_workers(start, replay, paths[2])
        late = foreign_handles(start, replay, paths[3])
        late_results(start, replay, paths[3:], late)
        refuses_to_start(command, folder)
        refuses_names(command, folder)
    finally:
        for hub in hubs:
            hub.kill()


def too_long(_number, _frame):
    raise Fault(f"all of it takes more than {LIMIT} seconds")


if __name__ == "__main__":
    signal.signal(signal.SIGALRM, too_long)
    signal.alarm(LIMIT)
    try:
        drive(sys.argv[1], shlex.split(sys.argv[2]), shlex.split(sys.argv[3]))
    except (Fault, OSError, subprocess.SubprocessError) as fault:
        sys.exit(f"hub: {fault}")
