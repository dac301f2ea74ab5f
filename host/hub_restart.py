"""A hub that starts again, with the kept serial and without it, and the results that come late. For host/hub_drive.py."""
import signal
import socket

from hub_client import (ERROR, LAP, NOOP, SUBMIT_JOB_BG, WORK_COMPLETE, compare, expect, grab, request, serial_in, submit, worker_of)


def late_result(hub, late):
    """After a restart: a board's new job is held by the worker whose result of the life before comes late."""
    board, worker = hub.client("board"), worker_of(hub, "worker")
    handle = submit(board, b"the default")
    worker.reads(NOOP)
    expect("the new job", grab(worker), (handle, b"the default"))
    worker.send(request(WORK_COMPLETE, late, b"the pupil's profile, done"))
    return board, worker, handle


def second_life(start, replay, serial, late, name=LAP):
    """The late result is refused, and the new job has another handle, with the serial after the kept one. Returns the hub."""
    before = serial_in(serial)
    hub = start("second", serial, name=name)
    board, worker, handle = late_result(hub, late)
    worker.reads(ERROR, b"14", b"handle")
    worker.refused = [14]
    expect("the next serial", handle, hub.handle(before + 1))
    board.quiet()
    worker.send(request(WORK_COMPLETE, handle, b"the default, done"))
    board.reads(WORK_COMPLETE, handle, b"the default, done")
    hub.end(signal.SIGINT)
    compare(hub, replay, leading=-(-before // 32))
    return hub


def mains_off(start, serial):
    """A hub that is killed has kept every serial of which it spoke, and the next one goes on after it."""
    hub = start("killed", serial)
    handles = [submit(hub.client("board"), b"", SUBMIT_JOB_BG) for _ in range(3)]
    hub.kill()
    hub = start("after", serial)
    handles.append(submit(hub.client("board"), b"", SUBMIT_JOB_BG))
    serials = [int(handle.split(b":")[2]) for handle in handles]
    expect("serials over the cut", serials, list(range(serials[0], serials[0] + 4)))
    hub.end()


def without_the_serial(start, serial, late):
    """Why it is kept: a hub of this name that starts at 0 gives the old handles again, and a late result meets another's job."""
    hub = start("without", serial)
    filler = hub.client("filler")
    for _ in range(int(late.split(b":")[2]) - 1):
        submit(filler, b"")
        filler.socket.shutdown(socket.SHUT_WR)
        filler.drain()
        filler = hub.client("filler")
    board, _, handle = late_result(hub, late)
    expect("the handle that is given again", handle, late)
    board.reads(WORK_COMPLETE, late, b"the pupil's profile, done")
    hub.end()
