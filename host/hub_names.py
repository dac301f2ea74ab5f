"""Hubs of other names than lap: their handles, those of other hubs, a restart, a replay, and names that are none. For host/hub_drive.py."""
import os

from hub_client import (ERROR, GET_STATUS, NOOP, STATUS_RES, WORK_COMPLETE, compare, expect, grab, keep_serial, lives, refused_start,
                        request, submit, worker_of)
from hub_restart import second_life

FOREIGN = (b"H:lap:1", b"H:hub:1", b"H:hub71:1", b"H:7:1", b"H::1", b"H:HUB7:1", b"H:hub7:01", b"H:hub7:11", b"hub7:1")


def foreign_handles(start, replay, serial):
    """A handle has the hub's name in it. Under another one a result is refused, and a status unknown. Returns the handle of a held job."""
    hub = start("first", serial, name="hub7")
    board, worker = hub.client("board"), worker_of(hub, "worker")
    handle = submit(board, b"the pupil's profile")
    expect("the first handle", handle, b"H:hub7:1")
    worker.reads(NOOP)
    expect("the hub's job", grab(worker), (handle, b"the pupil's profile"))
    for foreign in FOREIGN:
        worker.send(request(WORK_COMPLETE, foreign, b"of another hub"))
        worker.reads(ERROR, b"14", b"handle")
        worker.refused.append(14)
        board.send(request(GET_STATUS, foreign))
        board.reads(STATUS_RES, foreign, b"0", b"0", b"0", b"0")
    board.send(request(GET_STATUS, handle))
    board.reads(STATUS_RES, handle, b"1", b"1", b"0", b"0")
    hub.end()
    compare(hub, replay)
    return handle


def late_results(start, replay, serials, late):
    """A restart under the same name, one under another, which goes on after the kept serial, and one under a third from serial 1 on."""
    kept, new = serials
    keep_serial(new, 0)
    for name, serial in (("hub7", kept), ("7", kept), ("grammarschool15", new)):
        hub = second_life(start, replay, serial, late, name)
        refused = [life["refused"] for life in lives(replay, hub.capture) if life["refused"]]
        expect(f"refusals where the capture of {name} is replayed as lap's, the new job's own result among them", refused, [[14, 14]])


def refuses_names(command, folder):
    """What is no name: status 1, and a message that says which are good."""
    why = "is no hub's name; good ones have 1 to 15 lowercase letters and digits"
    for name in ("Hub7", "a" * 16, "", "hub-7", "hub 7", "hub:7"):
        said = refused_start(command, "-p", "0", "-n", name, os.path.join(folder, "no-serial"))
        expect(f"the message for the name {name!r}", said, f"hub: {name}: {why}\n")
