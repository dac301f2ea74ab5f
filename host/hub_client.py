"""What host/hub_drive.py drives a hub with: the hub as a process, clients over sockets of 127.0.0.1, and the replay of a capture.

Every wait has an end. What does not come in time, or comes otherwise, is a Fault that says what was waited for.
"""
import os
import signal
import socket
import subprocess

SECONDS = 20.0
HEADER = 12
CAN_DO, PRE_SLEEP, NOOP, SUBMIT_JOB, JOB_CREATED, GRAB_JOB, NO_JOB, JOB_ASSIGN = 1, 4, 6, 7, 8, 9, 10, 11
WORK_COMPLETE, ECHO_REQ, ECHO_RES, SUBMIT_JOB_BG, ERROR, SET_CLIENT_ID = 13, 16, 17, 18, 19, 22
WORK_FAIL, WORK_EXCEPTION, OPTION_REQ, OPTION_RES, WORK_DATA, JOB_ASSIGN_UNIQ, GRAB_JOB_ALL = 14, 25, 26, 27, 28, 31, 39
GET_STATUS, STATUS_RES = 15, 20
FUNCTION = b"reverse"
LAP = "lap"  # the name of a hub, and of a replay, that is given none


class Fault(Exception):
    """Something did not happen as it must."""


def header(kind, size, magic=b"\0REQ"):
    return magic + kind.to_bytes(4, "big") + size.to_bytes(4, "big")


def request(kind, *arguments):
    data = b"\0".join(arguments)
    return header(kind, len(data)) + data


def expect(what, got, right):
    if got != right:
        raise Fault(f"{what}: {got!r} came, {right!r} is right")


class Hub:
    """A hub that was started, and its end. Its files have its own name and that of this life."""

    def __init__(self, command, folder, life, serial, *options, name=LAP):
        self.name = name
        self.capture = os.path.join(folder, f"{name}-{life}.capture")
        self.said = os.path.join(folder, f"{name}-{life}.stderr")
        for path in (self.capture, self.said):
            if os.path.exists(path):
                os.remove(path)
        named = [] if name == LAP else ["-n", name]
        with open(self.said, "wb") as said:
            self.process = subprocess.Popen([*command, "-p", "0", "-c", self.capture, *named, *options, serial],
                                            stdout=subprocess.PIPE, stderr=said)
        line = self.process.stdout.readline().decode()
        if not line.startswith("hub: 127.0.0.1 port "):
            raise Fault(f"the hub {name}, {life}, did not start: {line!r} {self.stderr()!r}")
        self.port = int(line.split()[3])
        self.clients = []

    def handle(self, serial):
        return b"H:%s:%d" % (self.name.encode(), serial)

    def replayed_by(self, replay):
        """The command that replays its capture: under its own name, which the handles in worker packets have."""
        return replay if self.name == LAP else [*replay, self.name]

    def stderr(self):
        with open(self.said, encoding="utf-8") as said:
            return said.read()

    def client(self, name, receive_buffer=None):
        """A new client, after its first echo: so the hub has given it a number."""
        client = Client(self.port, name, receive_buffer)
        self.clients.append(client)
        client.send(request(ECHO_REQ, client.mark))
        expect(f"{name}: the first answer", client.read(), (ECHO_RES, client.mark))
        return client

    def end(self, number=signal.SIGTERM):
        """Signals the hub. It must end with status 0, and every client must see the end of its stream."""
        self.process.send_signal(number)
        try:
            status = self.process.wait(SECONDS)
        except subprocess.TimeoutExpired:
            raise Fault(f"the hub does not end within {SECONDS} seconds of signal {number}") from None
        expect("the hub's exit status", status, 0)
        for client in self.clients:
            client.drain()

    def kill(self):
        if self.process.poll() is None:
            self.process.kill()
        self.process.wait()
        self.process.stdout.close()


class Client:
    """A worker or a board. It keeps all bytes that came."""

    def __init__(self, port, name, receive_buffer=None):
        self.name, self.mark = name, b"this is " + name.encode()
        self.came, self.at, self.ended = bytearray(), 0, False
        self.refused, self.slow = [], False  # what a scenario expects: numbers of refusals; a client that does not read
        self.socket = socket.socket()
        self.socket.settimeout(SECONDS)
        if receive_buffer:
            self.socket.setsockopt(socket.SOL_SOCKET, socket.SO_RCVBUF, receive_buffer)
        self.socket.connect(("127.0.0.1", port))
        self.socket.setsockopt(socket.IPPROTO_TCP, socket.TCP_NODELAY, 1)

    def send(self, *packets):
        self.socket.sendall(b"".join(packets))

    def more(self, what):
        """Waits for the next bytes; false at the end of the stream. A reset is an end too, at which bytes can be lost."""
        if self.ended:
            return False
        try:
            piece = self.socket.recv(65536)
        except socket.timeout:
            raise Fault(f"{self.name}: {what} does not come within {SECONDS} seconds") from None
        except ConnectionError:
            piece = b""
        self.ended = piece == b""
        self.came += piece
        return not self.ended

    def read(self):
        """The next packet, as its type and its data."""
        while True:
            rest = self.came[self.at:]
            end = HEADER + int.from_bytes(rest[8:12], "big")
            if len(rest) >= HEADER and len(rest) >= end:
                break
            if not self.more("a packet"):
                raise Fault(f"{self.name}: a packet was waited for, and the hub has closed the connection")
        self.at += end
        expect(f"{self.name}: magic", bytes(rest[:4]), b"\0RES")
        return int.from_bytes(rest[4:8], "big"), bytes(rest[HEADER:end])

    def text(self, line, end):
        """Sends a line and returns the text of its answer, whose last line is `end`. It is taken out of what came: no replay has it."""
        self.send(line)
        while not self.came[self.at:].endswith(end):
            if not self.more("a text"):
                raise Fault(f"{self.name}: a text was waited for, and the hub has closed the connection")
        said = bytes(self.came[self.at:])
        del self.came[self.at:]
        return said

    def reads(self, kind, *arguments):
        expect(self.name, self.read(), (kind, b"\0".join(arguments)))

    def ask(self, packet, kind):
        """Sends a packet and returns the data of its answer, which has this type."""
        self.send(packet)
        got, data = self.read()
        expect(f"{self.name}: the answer's type", got, kind)
        return data

    def quiet(self):
        """Nothing is on the way to this client: the next packet is the echo that is asked for now."""
        expect(f"{self.name}: an echo", self.ask(request(ECHO_REQ, b"?"), ECHO_RES), b"?")

    def drain(self):
        while self.more("the end of the stream"):
            pass

    def closed(self):
        """The hub closes the connection without a word more."""
        self.drain()
        expect(f"{self.name}: before the hub closed", bytes(self.came[self.at:]), b"")

    def kill(self):
        """Leaves as a killed program does: at once."""
        self.socket.setsockopt(socket.SOL_SOCKET, socket.SO_LINGER, b"\1\0\0\0\0\0\0\0")
        self.socket.close()
        self.ended = True


def asleep(worker):
    """The worker grabs nothing and sleeps; its echo says that the hub has taken PRE_SLEEP."""
    worker.send(request(GRAB_JOB), request(PRE_SLEEP))
    worker.reads(NO_JOB)
    worker.quiet()


def worker_of(hub, name):
    worker = hub.client(name)
    worker.send(request(CAN_DO, FUNCTION))
    asleep(worker)
    return worker


def submit(board, workload, kind=SUBMIT_JOB):
    return board.ask(request(kind, FUNCTION, b"", workload), JOB_CREATED)


def grab(worker):
    """The handle and the workload of the next job."""
    handle, function, workload = worker.ask(request(GRAB_JOB), JOB_ASSIGN).split(b"\0", 2)
    expect(f"{worker.name}: the job's function", function, FUNCTION)
    return handle, workload


def answers(replay, capture):
    """For each line of the capture its packets, and the number."""
    with open(capture, "rb") as lines:
        printed = subprocess.run(replay, stdin=lines, stdout=subprocess.PIPE, timeout=SECONDS, check=True).stdout.decode()
    packets = []
    for line in printed.splitlines():
        if len(line) > 2:
            packets.append(bytes.fromhex(line))
        else:
            yield packets, int(line, 16)
            packets = []


def lives(replay, capture):
    """Each life of a connection from open to close: its number, the packets that came, the bytes that a replay sends, its refusals."""
    open_now, ended = {}, []
    with open(capture, encoding="ascii") as text:
        lines = [bytes.fromhex(line) for line in text.read().splitlines()]
    got = list(answers(replay, capture))
    expect("answers of the replay", len(got), len(lines))
    for frame, (packets, number) in zip(lines, got):
        connection = frame[1]
        if frame[0] == 1:
            open_now[connection] = {"number": connection, "packets": [], "sent": bytearray(), "refused": []}
        life = open_now[connection]
        for packet in packets:
            open_now[packet[0]]["sent"] += packet[1:]
        life["packets"].append(frame[2:])
        life["refused"] += [number] if number else []
        if frame[0] == 2:
            ended.append(open_now.pop(connection))
    expect("connections that the capture leaves open", sorted(open_now), [])
    return ended


def compare(hub, replay, leading=0):
    """Each client got the bytes that a replay of the capture sends to its connection. Returns the number of each client."""
    found = lives(hub.replayed_by(replay), hub.capture)[leading:]
    expect("connections in the capture", len(found), len(hub.clients))
    numbers = {}
    for client in hub.clients:
        mark = request(ECHO_REQ, client.mark)
        life = [life for life in found if life["packets"][1:2] == [mark]]
        expect(f"{client.name}: lives in the capture", len(life), 1)
        sent, came = bytes(life[0]["sent"]), bytes(client.came)
        expect(f"{client.name}: refusals", life[0]["refused"], client.refused)
        if client.slow:
            expect("what the slow board got, a part from the start", (sent.startswith(came), len(sent) > len(came)), (True, True))
        else:
            expect(f"{client.name}: all bytes as replayed", came, sent)
        numbers[client.name] = life[0]["number"]
    return numbers


def refused_start(command, *words):
    """A hub that ends before it serves: status 1, and a message, which is returned."""
    ended = subprocess.run([*command, *words], stdout=subprocess.PIPE, stderr=subprocess.PIPE, timeout=SECONDS, check=False)
    said = ended.stderr.decode()
    expect(f"status of hub {words}, and a message", (ended.returncode, said.startswith("hub: ")), (1, True))
    return said


def serial_in(path):
    with open(path, encoding="ascii") as file:
        text = file.read()
    if len(text) != 11 or not text[:10].isdigit():
        raise Fault(f"{path} holds {text!r} and no serial")
    return int(text)


def keep_serial(path, serial):
    with open(path, "w", encoding="ascii") as file:
        file.write(f"{serial:010}\n")
