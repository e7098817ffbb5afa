"""What the examples of this crate must bear: gigabytes, idle connections, ends in the middle of writes and of messages. tests/rt uses it."""
import re
import signal
import threading
import time
from pathlib import Path

import broker_clients
import kv_clients


def resident(process):
    """Megabytes of memory that a process has."""
    return int(re.search(r"^VmRSS:\s+(\d+)", Path(f"/proc/{process.pid}/status").read_text(), re.MULTILINE)[1]) / 1024


def send_until_refused(client, data, times, seconds):
    """Sends this so often, until the other end hangs up or takes nothing for some seconds. How many bytes went."""
    client.settimeout(seconds)
    sent = 0
    try:
        for _ in range(times):
            view = memoryview(data)
            while view:
                count = client.send(view)
                sent, view = sent + count, view[count:]
    except OSError:
        pass
    return sent


def try_gigabytes(program, check):
    """Clients that send a gigabyte: of values, of one line, and of commands whose answers they don't read."""
    with kv_clients.Server(program, "--cores", 2) as server:
        client, value = kv_clients.connect(), b"v" * (64 << 20)
        client.settimeout(120)
        told = []
        for number in range(16):
            client.sendall(kv_clients.command("SET", f"big{number % 2}", value))
            told.append(client.recv(5))
        check("kv takes values of 64 MiB", told, [b"+OK\r\n"] * 16)
        told = kv_clients.ask(client, kv_clients.command("GET", "big1"), b"$%d\r\n%s\r\n" % (len(value), value))
        check("kv tells a value of 64 MiB", len(told), len(value) + 13)
        kv_clients.ask(client, kv_clients.command("FLUSHALL"), b"+OK\r\n")
        line = send_until_refused(kv_clients.connect(), b"x" * (1 << 20), 1024, 60)
        check("kv refuses a line of a gigabyte", line < 64 << 20, True)
        deaf, pings = kv_clients.connect(), kv_clients.command("PING") * 10_000
        unread = send_until_refused(deaf, pings, (1 << 30) // len(pings), 3)
        check(f"kv doesn't take a gigabyte of commands whose answers nobody reads: {unread}", unread < 64 << 20, True)
        check("kv has little memory behind that", resident(server.process) < 400, True)
        check("kv answers others meanwhile", kv_clients.ask(client, kv_clients.command("PING"), b"+PONG\r\n"), b"+PONG\r\n")
        slow = kv_clients.connect()
        for byte in kv_clients.command("SET", "slow", "one byte after the other"):
            slow.sendall(bytes([byte]))
        check("kv hears a command of single bytes", slow.recv(5), b"+OK\r\n")
        check("kv ends by SIGTERM", server.end()[0], 0)
    print(f"a gigabyte of values was taken; {line >> 10} KiB of a line and {unread >> 10} KiB of unread commands were, until that was refused")


def try_idle(program, check):
    """Connections on which nothing comes for a second are closed, and none that goes on."""
    with kv_clients.Server(program, "--cores", 2, "--idle", 1) as server:
        silent, half, busy = kv_clients.connect(), kv_clients.connect(), kv_clients.connect()
        half.sendall(kv_clients.command("PING")[:-3])
        began = time.monotonic()
        told = []
        while time.monotonic() - began < 2.5:
            told.append(kv_clients.ask(busy, b"PING\r\n", b"+PONG\r\n"))
            time.sleep(0.3)
        check("kv answers who goes on", set(told), {b"+PONG\r\n"})
        check("kv closes idle connections", (silent.recv(1), half.recv(1)), (b"", b""))
        check("kv ends by SIGTERM", server.end()[0], 0)


def write_until_end(clients, number, until, size, known):
    """SETs over some clients until a time, or until the server hangs up. What was answered is known, and what wasn't isn't any more."""
    count = 0
    while time.monotonic() < until:
        sent = []
        for place, client in enumerate(clients):
            key, value = f"key{(count * len(clients) + place) % 200}", b"%d.%d." % (number, count) + b"x" * size
            try:
                client.sendall(kv_clients.command("SET", key, value))
            except OSError:
                return count
            sent.append((client, key, value))
            # Until it is answered, either value may be there.
            known[key] = known.get(key, [b""])[-1:] + [value]
        for client, key, value in sent:
            try:
                if client.recv(5) == b"+OK\r\n":
                    known[key] = [value]
            except OSError:
                pass
        count += 1
    return count


def value_of(client, key):
    """What a server tells for a key."""
    client.sendall(b"*2\r\n$3\r\nGET\r\n$%d\r\n%s\r\n" % (len(key), key.encode()))
    answer = client.makefile("rb")
    length = int(answer.readline()[1:])
    return answer.read(length + 2)[:-2] if length >= 0 else b""


def try_ends(program, room, check, name, times, size, fsync, by):
    """It is ended in the middle of writes, so often, by this signal. Each write that was answered is there when it starts again."""
    folder, known, lost, answered = room / name, {}, 0, 0
    for number in range(times + 1):
        with kv_clients.Server(program, "--cores", 2, "--dir", folder, "--fsync", fsync) as server:
            client = kv_clients.connect()
            lost += sum(value_of(client, key) not in values for key, values in known.items())
            # What is there now is there from now on.
            known = {key: [value_of(client, key)] for key in known}
            if number == times:
                check("kv ends by SIGTERM", server.end()[0], 0)
                break
            clients, until = [kv_clients.connect() for _ in range(8)], time.monotonic() + 20
            ends = threading.Timer(0.1 + number % 10 / 20, server.process.send_signal, [by])
            ends.start()
            answered += 8 * write_until_end(clients, number, until, size, known)
            ends.join()
            for it in clients:
                it.close()
            check(f"kv ends by {by.name}", server.end(by)[0] in (0, -signal.SIGKILL), True)
    # Each compaction begins a file.
    last = [max(int(it.stem) for it in (folder / f"of-2/{core}").iterdir() if it.stem.isdigit()) for core in (0, 1)]
    check(f"{name}: writes that were answered and lost", lost, 0)
    print(f"{name}: {times} times by {by.name}, fsync {fsync}, some {answered} writes of {size} bytes, {lost} of them lost; the last files of the logs are {last}")


# What is sent, and how what is answered begins.
COMMANDS = [
    (("CONFIG", "GET", "save"), b"*2\r\n$4\r\nsave\r\n$0\r\n\r\n"),
    (("config", "get", "appendonly"), b"*2\r\n$10\r\nappendonly\r\n"),
    (("CLIENT", "SETNAME", "me"), b"+OK\r\n"),
    (("INFO",), b"$"),
    (("PING", "a text"), b"$6\r\na text\r\n"),
    (("SET", "k", "1", "EX", "1", "NX"), b"+OK\r\n"),
    (("set", "k", "2", "nx", "ex", "1"), b"$-1\r\n"),
    (("EXPIRE", "none", "5"), b":0\r\n"),
    (("EXPIRE", "k", "soon"), b"-ERR value is not an integer"),
    (("SET", "n", "9223372036854775807"), b"+OK\r\n"),
    (("INCR", "n"), b"-ERR value is not an integer or out of range"),
    (("MSET", "a", "1", "b"), b"-ERR wrong number"),
    (("MGET",), b"-ERR wrong number"),
    (("EXISTS", "n", "n", "none"), b":2\r\n"),
    (("SCAN", "0", "COUNT", "1000"), b"*2\r\n$"),
    (("SCAN", "x"), b"-ERR invalid cursor"),
    (("FLUSHALL", "ASYNC"), b"+OK\r\n"),
    (("",), b"-ERR unknown command ''"),
]


def try_commands(program, check):
    """What other clients don't ask for, and a time that is over."""
    with kv_clients.Server(program, "--cores", 2) as server:
        for words, wanted in COMMANDS:
            client = kv_clients.connect()
            check(f"kv: {' '.join(words)}", kv_clients.ask(client, kv_clients.command(*words), wanted), wanted)
            client.close()
        client = kv_clients.connect()
        kv_clients.ask(client, kv_clients.command("SET", "k", "1", "EX", "1"), b"+OK\r\n")
        time.sleep(1.1)
        check("kv: a time that is over", kv_clients.ask(client, kv_clients.command("GET", "k"), b"$-1\r\n"), b"$-1\r\n")
        check("kv ends by SIGTERM", server.end()[0], 0)


def publish(number, answered):
    """Publishes until the broker is gone. What was answered has a number."""
    client = broker_clients.Client()
    for count in range(1_000_000):
        text = f"{number}.{count}"
        try:
            told = client.ask(f"PUB stops {text}")
        except OSError:
            return
        if not told.startswith("OK "):
            return
        answered.append(text)


def try_broker(program, room, check, times):
    """The broker stops in the middle of messages. Each that was answered comes at the next start, once if nobody took it."""
    folder, answered, came = room / "stops", [], []
    folder.mkdir()
    for number in range(times + 1):
        server = broker_clients.start(program, folder, 5000)
        try:
            client = broker_clients.Client()
            check("broker: JOIN", client.ask("JOIN stops all"), "OK")
            waiting = int(client.ask("LEFT stops all").split()[1])
            acknowledged = 0
            for _ in range(waiting):
                _, message, text = client.ask("TAKE stops all").split(" ", 2)
                came.append(text)
                acknowledged += client.ask(f"ACK stops all {message}") == "OK"
            check("broker: ACK", acknowledged, waiting)
            threads = [threading.Thread(target=publish, args=(f"{number}.{it}", answered)) for it in range(4 if number < times else 0)]
            for it in threads:
                it.start()
            time.sleep(0.2 if threads else 0)
            check("broker ends by SIGTERM", broker_clients.end(server), 0)
            for it in threads:
                it.join(20)
        finally:
            if server.poll() is None:
                server.kill()
                server.wait()
    check("broker: answered messages that didn't come, and those that came twice", (sorted(set(answered) - set(came)), len(came) - len(set(came))), ([], 0))
    print(f"broker: {times} stops in the middle of {len(answered)} messages that were answered, {len(set(answered) - set(came))} of them lost")


def try_kv(program, room, check, is_all):
    try_commands(program, check)
    try_gigabytes(program, check)
    try_idle(program, check)
    try_ends(program, room, check, "kills in compactions", 60 if is_all else 10, 100_000, "always", signal.SIGKILL)
    for fsync in ("always", "everysec", "no"):
        try_ends(program, room, check, f"stops, fsync {fsync}", 25 if is_all else 5, 2000, fsync, signal.SIGTERM)
