#!/usr/bin/env python3
"""Applications and members that do what they shouldn't, round a gateway. Each line tells one of them, and what came of it.

Usage: hostile.py PROGRAM PORT

For each row a gateway is started over a member, and beside the hostile end an honest application runs one unit of work, whose replies
are compared byte for byte. The gateway must serve all its sessions and end by itself.
"""
import socket
import subprocess
import sys
import threading
import time

import drda_client as client

# What one row may take, in seconds.
PATIENCE = 30


def listens(port):
    """Whether something listens at a port, by the host's table, so that no session is spent on it."""
    wanted = f":{port:04X} 00000000:0000 0A"
    with open("/proc/net/tcp", encoding="ascii") as table:
        return any(wanted in line for line in table)


def wait_for(port):
    end = time.monotonic() + PATIENCE
    while not listens(port):
        if time.monotonic() > end:
            raise TimeoutError(f"nothing listens at {port}")
        time.sleep(0.02)


def read_to_end(link):
    read = b""
    while True:
        try:
            piece = link.recv(4096)
        except ConnectionResetError:
            return read
        if not piece:
            return read
        read += piece


# ---- applications

def honest(port, key):
    """Runs one unit of work; what differs, or None."""
    with client.connect(port) as link:
        differs = client.run_unit(link, client.unit(key))
        if differs:
            return differs
        link.shutdown(socket.SHUT_WR)
        rest = read_to_end(link)
        return f"{rest.hex()} came unasked" if rest else None


def says(sent, answered):
    """An application that says these bytes, and is answered just those before its connection ends."""
    def run(port):
        with client.connect(port) as link:
            link.sendall(sent)
            read = read_to_end(link)
        return None if read == answered else f"answered {read.hex()}, not {answered.hex()}"
    return run


def leaves(sent):
    """An application that says these bytes and leaves, and is answered nothing."""
    def run(port):
        with client.connect(port) as link:
            link.sendall(sent)
            link.shutdown(socket.SHUT_WR)
            read = read_to_end(link)
        return f"answered {read.hex()}" if read else None
    return run


def is_slow(port):
    """An application that says a byte a second, some seconds long, and then all the rest."""
    sent, wanted = client.unit(7)[0]
    with client.connect(port) as link:
        for i in range(4):
            link.sendall(sent[i:i + 1])
            time.sleep(1)
        link.sendall(sent[4:])
        read = client.read_bytes(link, len(wanted))
    return None if read == wanted else f"answered {read.hex()}"


def never_reads(port):
    """An application that asks again and again and reads nothing, until nothing more is taken, and then leaves."""
    asked = client.dss(1, client.an_object(0x1041)) * 1000
    sent = 0
    link = socket.socket()
    link.setsockopt(socket.SOL_SOCKET, socket.SO_RCVBUF, 4096)
    link.connect(("127.0.0.1", port))
    link.settimeout(2)
    try:
        while sent < 64 << 20:
            sent += link.send(asked)
    except TimeoutError:
        pass
    link.close()
    return None if sent < 64 << 20 else "all was taken"


# ---- members

class Member(threading.Thread):
    """A member that does the same with each connection, until it is told to end."""

    def __init__(self, port, does):
        super().__init__(daemon=True)
        self.does = does
        self.links = []
        self.door = socket.create_server(("127.0.0.1", port))

    def run(self):
        while True:
            try:
                link, _ = self.door.accept()
            except OSError:
                return
            self.links.append(link)
            threading.Thread(target=self.serve, args=(link,), daemon=True).start()

    def serve(self, link):
        try:
            self.does(link)
        except OSError:
            pass
        link.close()

    def end(self):
        # A thread that waits in a call keeps its socket open, until that is shut down.
        for one in [self.door, *self.links]:
            try:
                one.shutdown(socket.SHUT_RDWR)
            except OSError:
                pass
        self.door.close()


def closes(link):
    link.recv(1)


def answers_garbage(link):
    link.recv(4096)
    link.sendall(bytes(range(256)))
    read_to_end(link)


def answers_half(link):
    link.recv(4096)
    link.sendall(bytes.fromhex("0022D003"))


def keeps_still(link):
    read_to_end(link)


# ---- rows

SYNTAX_01 = client.dss(0, client.an_object(0x124C, client.severity(8), client.an_object(0x114A, b"\x01")), kind=2)
SYNTAX_03 = client.dss(0, client.an_object(0x124C, client.severity(8), client.an_object(0x114A, b"\x03")), kind=2)
GREETING, GREETED = client.unit()[0]
ENTRY = client.unit()[1][0]
NO_ACCESS = client.dss(1, client.an_object(0x1232, client.severity(16)), kind=2)


def asks_for_access(port):
    """An application that comes as far as SECCHK, for which no member gives access: it is told so, and its session ends."""
    with client.connect(port) as link:
        link.sendall(GREETING)
        link.sendall(ENTRY)
        read = read_to_end(link)
    return None if read == GREETED + NO_ACCESS else f"answered {read.hex()}"


def gives_up(port):
    """An application that comes as far as SECCHK, is answered nothing by its member, and leaves."""
    with client.connect(port) as link:
        link.sendall(GREETING + ENTRY)
        read = client.read_bytes(link, len(GREETED))
    return None if read == GREETED else f"answered {read.hex()}"


APPLICATIONS = [
    ("an application that says a length of 5", says(bytes.fromhex("0005D001"), SYNTAX_01)),
    ("an application that says no DSS", says(b"GET / HTTP/1.1\r\n\r\n", SYNTAX_03)),
    ("an application that leaves in half a DSS", leaves(bytes.fromhex("0022D0410001001C10"))),
    ("an application that says a byte a second", is_slow),
    ("an application that never reads", never_reads),
]

MEMBERS = [
    ("a member that closes", closes, asks_for_access),
    ("a member that answers garbage", answers_garbage, asks_for_access),
    ("a member that answers half a DSS and closes", answers_half, asks_for_access),
]


class Gateway:
    """The program, as a gateway of two workers before these members."""

    def __init__(self, program, port, sessions, members):
        words = ["serve", "--listen", f"127.0.0.1:{port}", "--rdb", "SAMPLE", "--sessions", str(sessions), "--workers", "2", "--cap", "2"]
        self.process = subprocess.Popen([program, *words, *members], stdout=subprocess.PIPE)
        wait_for(port)

    def end(self, sessions):
        """What is wrong with how it ends; None where nothing is."""
        try:
            written, _ = self.process.communicate(timeout=PATIENCE)
        except subprocess.TimeoutExpired:
            self.process.kill()
            return "the gateway doesn't end"
        if self.process.returncode != 0 or not written.startswith(b"sessions %d\n" % sessions):
            return f"the gateway ended with status {self.process.returncode} and {written!r}"
        return None


def start_member(program, port):
    words = ["member", "--listen", f"127.0.0.1:{port}", "--sessions", "1000", "--workers", "4", "ALICE:SECRET"]
    process = subprocess.Popen([program, *words], stdout=subprocess.DEVNULL)
    wait_for(port)
    return process


def run_beside(port, hostile, honest_units):
    """Runs a hostile application and honest ones at a time; what went wrong, or None."""
    found = []

    def run(what):
        try:
            found.append(what())
        except OSError as error:
            found.append(repr(error))
    threads = [threading.Thread(target=run, args=(lambda: hostile(port),))]
    threads += [threading.Thread(target=run, args=(lambda key=key: honest(port, key),)) for key in honest_units]
    for thread in threads:
        thread.start()
    for thread in threads:
        thread.join()
    return next((one for one in found if one), None)


def main(program, port):
    failed = 0

    def tell(name, wrong):
        nonlocal failed
        print(f"{name}: {wrong or 'as it should be'}", flush=True)
        failed += wrong is not None

    member = start_member(program, port + 1)
    key = 100
    try:
        for name, hostile in APPLICATIONS:
            gateway = Gateway(program, port, 3, [f"127.0.0.1:{port + 1}=1"])
            wrong = run_beside(port, hostile, [key, key + 1])
            key += 2
            tell(name, gateway.end(3) or wrong)
        for name, does, application in MEMBERS:
            bad = Member(port + 2, does)
            bad.start()
            gateway = Gateway(program, port, 2, [f"127.0.0.1:{port + 2}=1"])
            wrong = application(port) or application(port)
            tell(name, gateway.end(2) or wrong)
            bad.end()
            bad = Member(port + 2, does)
            bad.start()
            # With a good member beside it, each application is served there, and is told nothing of the bad one.
            gateway = Gateway(program, port, 2, [f"127.0.0.1:{port + 2}=9", f"127.0.0.1:{port + 1}=1"])
            wrong = honest(port, key) or honest(port, key + 1)
            key += 2
            tell(name + ", beside a good one", gateway.end(2) or wrong)
            bad.end()
        # A session whose member keeps still waits, also after its application has left, until the member's connection ends. Others go on.
        still = Member(port + 2, keeps_still)
        still.start()
        gateway = Gateway(program, port, 3, [f"127.0.0.1:{port + 2}=1"])
        wrong = gives_up(port) or says(b"GET / HTTP/1.1\r\n\r\n", SYNTAX_03)(port) or leaves(b"")(port)
        still.end()
        tell("a member that never answers", gateway.end(3) or wrong)
    finally:
        member.kill()
        member.wait()
    return 1 if failed else 0


if __name__ == "__main__":
    sys.exit(main(sys.argv[1], int(sys.argv[2])))
