"""Clients of the example broker of hosts/rust/rt. tests/rt uses it."""
import signal
import socket
import subprocess
import threading
import time

PORT = 17071


class Client:
    def __init__(self):
        for _ in range(400):
            try:
                self.socket = socket.create_connection(("127.0.0.1", PORT))
                break
            except OSError:
                time.sleep(0.02)
        self.socket.settimeout(20)
        self.lines = self.socket.makefile()

    def ask(self, line):
        self.socket.sendall(f"{line}\n".encode())
        return self.lines.readline().rstrip("\n")


def start(program, folder, lease):
    return subprocess.Popen([program, "--port", str(PORT), "--lease", str(lease), "--dir", folder], stderr=subprocess.PIPE, text=True)


def end(server):
    server.send_signal(signal.SIGTERM)
    server.communicate(timeout=30)
    return server.returncode


def consume(topic, group, wanted, got, dies_at):
    """Takes messages until all are there. Each so many are held by a client that hangs up, and come again."""
    client = Client()
    while True:
        told = client.ask(f"TAKE {topic} {group}").split(" ", 2)
        if told[0] != "MSG":
            return
        if int(told[1]) % dies_at == 0 and told[1] not in got.get("hung", set()):
            got.setdefault("hung", set()).add(told[1])
            client.socket.close()
            client = Client()
            continue
        if client.ask(f"ACK {topic} {group} {told[1]}") == "OK":
            got.setdefault("texts", []).append(told[2])
        if len(got.get("texts", [])) >= wanted:
            return


def try_all(program, room, check):
    folder = room / "broker"
    folder.mkdir()
    server = start(program, folder, 300)
    try:
        client = Client()
        check("broker: no such group", client.ask("TAKE news nobody")[:3], "ERR")
        check("broker: what?", [client.ask(it) for it in ("", "NO", "NO such line", "ACK news all none")], ["ERR what?"] * 3 + ["GONE"])
        check("broker: JOIN", [client.ask("JOIN news all"), client.ask("JOIN news others"), client.ask("JOIN mail all")], ["OK"] * 3)
        check("broker: PUB", [client.ask("PUB news first of all"), client.ask("PUB news second"), client.ask("PUB mail one")], ["OK 1", "OK 2", "OK 1"])
        check("broker: TAKE", client.ask("TAKE news all"), "MSG 1 first of all")
        check("broker: LEFT", [client.ask("LEFT news all"), client.ask("LEFT news others")], ["OK 1 1", "OK 2 0"])
        check("broker: ACK", [client.ask("ACK news all 1"), client.ask("ACK news all 1")], ["OK", "GONE"])
        check("broker: TAKE again", client.ask("TAKE news all"), "MSG 2 second")
        began = time.monotonic()
        check("broker: a lease that is over", client.ask("TAKE news all"), "MSG 2 second")
        check("broker: the lease lasted", 0.25 <= time.monotonic() - began < 5, True)
        check("broker: ACK of the second lease", client.ask("ACK news all 2"), "OK")
        # Clients that hang up with a message lose none.
        client.ask("JOIN many all")
        got, count = {}, 300
        threads = [threading.Thread(target=consume, args=("many", "all", count, got, 10)) for _ in range(3)]
        for it in threads:
            it.start()
        for number in range(count):
            client.ask(f"PUB many text {number}")
        deadline = time.monotonic() + 30
        while len(got.get("texts", [])) < count and time.monotonic() < deadline:
            time.sleep(0.02)
        check("broker: all messages came", sorted(got.get("texts", [])), sorted(f"text {it}" for it in range(count)))
        check("broker: some clients hung up", len(got.get("hung", ())), count // 10)
        # Both are held or wait when the broker stops, and come again.
        check("broker: PUB before the stop", client.ask("PUB mail two"), "OK 2")
        check("broker: TAKE before the stop", client.ask("TAKE mail all"), "MSG 1 one")
        check("broker ends by SIGTERM", end(server), 0)
        for it in threads:
            it.join(20)
        server = start(program, folder, 300)
        client = Client()
        check("broker: what is there again", sorted(client.ask("TAKE mail all") for _ in range(2)), ["MSG 1 one", "MSG 2 two"])
        check("broker: the other group", [client.ask("TAKE news others"), client.ask("PUB news third")], ["MSG 1 first of all", "OK 3"])
        check("broker ends by SIGTERM", end(server), 0)
    finally:
        if server.poll() is None:
            server.kill()
            server.wait()
