#!/usr/bin/env python3
"""Runs `ntpd serve` on real sockets, beside a second one that it asks for the time through a relay, and asks it by `ntpq` and
by sockets of its own: what must come is written here. Takes both programs as they are built; it needs no network but the loopback, and
about a minute. Prints what is not as it must be, and fails where there is one. Run at the top of the repository.

    serve_together.py [NTPD NTPQ]
"""
import hashlib
import os
import signal
import socket
import subprocess
import sys
import tempfile
import threading
import time

NTPD, NTPQ = sys.argv[1:3] if len(sys.argv) > 2 else (
    "crates/ntpd_serve/out/ntpd_serve", "crates/ntpq_tool/out/ntpq_tool")
REQUEST = bytes.fromhex("230006e9") + bytes(36) + bytes.fromhex("83aa7e8000000000")
SECRET = b"secret"
bad = []


def check(what, is_so, seen=""):
    if not is_so:
        bad.append(what)
        print(f"serve: {what}" + (f": {seen}" if seen != "" else ""), flush=True)


def free_port():
    """A port of the loopback that nothing has now, in both families."""
    with socket.socket(socket.AF_INET, socket.SOCK_DGRAM) as it:
        it.bind(("127.0.0.1", 0))
        return it.getsockname()[1]


def run(*words):
    """The status and the output of a run that ends by itself."""
    it = subprocess.run(words, capture_output=True, text=True, timeout=60)
    return it.returncode, it.stdout


def ask(port, octets, source="127.0.0.1", wait=2.0):
    """What comes back for a datagram from this address, or None."""
    with socket.socket(socket.AF_INET, socket.SOCK_DGRAM) as it:
        it.settimeout(wait)
        it.bind((source, 0))
        it.sendto(octets, ("127.0.0.1", port))
        try:
            return it.recv(2048)
        except (TimeoutError, ConnectionError):
            return None


def relay(at, upper):
    """Hands requests at this port to the server above, and holds each reply less long than the one before: a sample counts
    only where its delay is the least of those that are kept, so each of these counts."""
    near, far = socket.socket(socket.AF_INET, socket.SOCK_DGRAM), socket.socket(socket.AF_INET, socket.SOCK_DGRAM)
    near.bind(("127.0.0.1", at))
    far.settimeout(1)

    def hand_over():
        hold = 0.040
        while True:
            octets, client = near.recvfrom(2048)
            far.sendto(octets, ("127.0.0.1", upper))
            try:
                reply = far.recv(2048)
            except (TimeoutError, ConnectionError):
                continue
            time.sleep(hold)
            hold = max(0.0, hold - 0.005)
            near.sendto(reply, client)

    threading.Thread(target=hand_over, daemon=True).start()


def value(at, name):
    """A variable of the server's system, or None."""
    status, text = run(NTPQ, at, "rv", "0", name)
    lines = [it for it in text.splitlines() if it.startswith(f"{name}=")]
    return lines[0].split("=", 1)[1].rstrip(",") if status == 0 and lines else None


def refused(folder):
    """What has no session: each with its line and its status."""
    def conf(text):
        with tempfile.NamedTemporaryFile("w", dir=folder, suffix=".conf", delete=False) as it:
            it.write(text)
        return it.name
    taken = socket.socket(socket.AF_INET, socket.SOCK_DGRAM)
    taken.bind(("127.0.0.1", 0))
    cases = [
        ("a bad line", conf("# first\nlisten 127.0.0.1:1\nrestrict 10.0.0.0/33\n"), 2, "ntpd: conf line 3 word 2\n"),
        ("no file", f"{folder}/none", 3, "ntpd: host\n"),
        ("a directory", folder, 3, "ntpd: host\n"),
        ("an endless file", "/dev/zero", 2, "ntpd: file too long\n"),
        ("an address in use", conf(f"listen 127.0.0.1:{taken.getsockname()[1]}\n"), 3, "ntpd: host\n"),
        ("an address of another host", conf("listen 203.0.113.77:12345\n"), 3, "ntpd: host\n"),
        ("no key file", conf(f"keys {folder}/none\n"), 3, "ntpd: host\n"),
        ("a bad key", conf(f"keys {conf_of_keys(folder)}\n"), 2, "ntpd: keys line 1 word 3\n"),
    ]
    for what, name, status, text in cases:
        seen = run(NTPD, "serve", name)
        check(f"{what} is refused", seen == (status, text), seen)
    taken.close()


def conf_of_keys(folder):
    name = f"{folder}/bad.keys"
    with open(name, "w") as it:
        it.write("7 MD5\n")
    return name


def synchronizes(at):
    """The server follows the one that it asks, four samples later."""
    end = time.monotonic() + 80
    while value(at, "stratum") != "3" and time.monotonic() < end:
        time.sleep(1)
    status, text = run(NTPQ, at, "rv")
    check("the server is synchronized within 80 seconds", "stratum=3,\n" in text, text)
    for line in ("leap=0,", "refid=127.0.0.1,", "peer=1,"):
        check(f"rv has {line}", line in text.splitlines(), text)
    check("rv ends well", status == 0, status)
    status, text = run(NTPQ, at, "as")
    check("as lists one association, the system peer", status == 0 and text.splitlines()[-1].split()[:2] == ["1", "1"]
          and int(text.splitlines()[-1].split()[2], 16) & 0x9700 == 0x9600, text)
    status, text = run(NTPQ, at, "peers")
    check("peers marks it", status == 0 and text.splitlines()[-1].startswith("*127.0.0.1"), text)


def authenticates(port):
    key = (7).to_bytes(4, "big")
    def mac(header):
        return key + hashlib.md5(SECRET + header).digest()
    reply = ask(port, REQUEST + mac(REQUEST))
    check("a request with a MAC is answered with one", reply is not None and len(reply) == 68, reply)
    if reply is not None:
        check("that MAC is good", reply[48:] == mac(reply[:48]), reply)
    reply = ask(port, REQUEST + key + bytes(16))
    check("a bad MAC gets a crypto-NAK", reply is not None and reply[48:] == bytes(4), reply)


def lists_clients(at, port, count):
    """Each of so many clients is listed once, and one who is ignored is not."""
    for number in range(count):
        reply = ask(port, REQUEST, f"127.1.{number // 250}.{1 + number % 250}")
        if reply is None:
            check(f"client {number} is answered", False)
            return
    check("an ignored client gets nothing", ask(port, REQUEST, "127.9.9.9", 0.5) is None)
    for options in ([], ["limit=256", "frags=128"], ["frags=1"]):
        status, text = run(NTPQ, at, "mrulist", *options)
        rows = [line.split()[-1] for line in text.splitlines()[1:]]
        wanted = {f"127.1.{number // 250}.{1 + number % 250}" for number in range(count)} | {"127.0.0.1"}
        check(f"mrulist {' '.join(options)} lists each client once", status == 0 and sorted(rows) == sorted(wanted),
              (status, len(rows), len(set(rows))))


def main():
    folder = tempfile.mkdtemp(prefix="sarquteb-")
    upper, lower, other, between = free_port(), free_port(), free_port(), free_port()
    files = {
        "upper.conf": f"listen 127.0.0.1:{upper}\nlocal 2\n",
        "lower.conf": f"listen 127.0.0.1:{lower}\nlisten 127.0.0.2:{other}\nserver 127.0.0.1:{between} minpoll 4\n"
                      f"keys {folder}/keys\nrestrict 127.9.9.9 ignore\n",
        "keys": "7 MD5 secret\n",
    }
    for name, text in files.items():
        with open(f"{folder}/{name}", "w") as it:
            it.write(text)
    refused(folder)
    relay(between, upper)
    servers = [subprocess.Popen([NTPD, "serve", f"{folder}/{name}"]) for name in ("upper.conf", "lower.conf")]
    try:
        at = f"127.0.0.1:{lower}"
        end = time.monotonic() + 10
        while ask(lower, REQUEST, wait=0.2) is None and time.monotonic() < end:
            time.sleep(0.1)
        check("the second worker answers", run(NTPQ, f"127.0.0.2:{other}", "rv", "0", "stratum")[0] == 0)
        authenticates(lower)
        lists_clients(at, lower, 1000)
        synchronizes(at)
        for server in servers:
            check("a server goes on", server.poll() is None, server.poll())
    finally:
        for server in servers:
            server.send_signal(signal.SIGTERM)
    check("SIGTERM ends them", [server.wait(10) for server in servers] == [-signal.SIGTERM] * 2)
    sys.exit(1 if bad else 0)


os.chdir(os.path.dirname(os.path.dirname(os.path.abspath(__file__))))
main()
