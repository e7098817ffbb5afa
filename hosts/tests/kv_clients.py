"""Clients of the example kv of hosts/rust/rt that nobody here wrote, and some that behave badly. tests/rt uses it."""
import os
import re
import resource
import shutil
import signal
import socket
import subprocess
import sys
import time

PORT = 16379


class Server:
    def __init__(self, program, *words, port=PORT):
        self.port = port
        self.process = subprocess.Popen([program, "--port", str(port), *map(str, words)], stderr=subprocess.PIPE, text=True)
        for _ in range(400):
            try:
                socket.create_connection(("127.0.0.1", port)).close()
                return
            except OSError:
                if self.process.poll() is not None:
                    break
                time.sleep(0.01)
        raise RuntimeError(f"kv doesn't start: {self.process.stderr.read()}")

    def __enter__(self):
        return self

    def __exit__(self, *_):
        if self.process.poll() is None:
            self.process.kill()
            self.process.wait()

    def end(self, by=signal.SIGTERM):
        self.process.send_signal(by)
        told = self.process.communicate(timeout=30)[1]
        return self.process.returncode, told


def connect(port=PORT):
    client = socket.create_connection(("127.0.0.1", port))
    client.settimeout(20)
    return client


def ask(client, text, wanted):
    """Whether the answer to these bytes is this, at its length."""
    client.sendall(text)
    got = b""
    while len(got) < len(wanted):
        more = client.recv(len(wanted) - len(got))
        if not more:
            break
        got += more
    return got


def command(*words):
    words = [it if isinstance(it, bytes) else str(it).encode() for it in words]
    return b"*%d\r\n" % len(words) + b"".join(b"$%d\r\n%s\r\n" % (len(it), it) for it in words)


# What is sent, and what is answered.
EXCHANGES = [
    (command("PING"), b"+PONG\r\n"),
    (b"PING\r\n", b"+PONG\r\n"),
    (command("ECHO", "a b"), b"$3\r\na b\r\n"),
    (command("GET", "none"), b"$-1\r\n"),
    (command("SET", "a", "1"), b"+OK\r\n"),
    (command("SET", "a", "2", "NX"), b"$-1\r\n"),
    (command("INCR", "a"), b":2\r\n"),
    (command("SET", "text", b"\x00\r\n\xff"), b"+OK\r\n"),
    (command("GET", "text"), b"$4\r\n\x00\r\n\xff\r\n"),
    (command("INCR", "text"), b"-ERR value is not an integer or out of range\r\n"),
    (command("MSET", "b", "x", "c", "y", "d", "z"), b"+OK\r\n"),
    (command("MGET", "b", "none", "d"), b"*3\r\n$1\r\nx\r\n$-1\r\n$1\r\nz\r\n"),
    (command("EXISTS", "a", "b", "none"), b":2\r\n"),
    (command("DBSIZE"), b":5\r\n"),
    (command("TTL", "a"), b":-1\r\n"),
    (command("TTL", "none"), b":-2\r\n"),
    (command("EXPIRE", "a", "100"), b":1\r\n"),
    (command("TTL", "a"), b":100\r\n"),
    (command("SET", "e", "1", "EX", "50"), b"+OK\r\n"),
    (command("TTL", "e"), b":50\r\n"),
    (command("EXPIRE", "e", "-1"), b":1\r\n"),
    (command("GET", "e"), b"$-1\r\n"),
    (command("DEL", "b", "c", "none"), b":2\r\n"),
    (command("SET", "a"), b"-ERR wrong number of arguments for 'set' command\r\n"),
    (command("SET", "a", "1", "EX", "0"), b"-ERR syntax error\r\n"),
    (command("NOSUCH"), b"-ERR unknown command 'NOSUCH'\r\n"),
    (command("GET", "text") * 3 + command("PING"), b"$4\r\n\x00\r\n\xff\r\n" * 3 + b"+PONG\r\n"),
    (command("FLUSHALL"), b"+OK\r\n"),
    (command("DBSIZE"), b":0\r\n"),
    (command("QUIT"), b"+OK\r\n"),
]

# What no command is. The server tells so and hangs up, or waits for more.
GARBAGE = [b"*1\r\n$9223372036854775808\r\n", b"*1\r\n$1073741824\r\n", b"*99999999999\r\n", b"*1\r\nPING\r\n", b"*-5\r\n*1\r\n:1\r\n", b"$" * 100_000, os.urandom(5000)]


def try_exchanges(program, check):
    for cores in (1, 2, 3):
        with Server(program, "--cores", cores) as server:
            client = connect()
            for text, wanted in EXCHANGES:
                check(f"kv on {cores} cores answers {text[:60]!r}", ask(client, text, wanted), wanted)
            check("kv hangs up behind QUIT", client.recv(1), b"")
            for text in GARBAGE:
                client = connect()
                client.sendall(text)
                client.shutdown(socket.SHUT_WR)
                try:
                    while client.recv(1 << 16):
                        pass
                except ConnectionError:
                    pass
            for cut in range(1, 60, 7):
                client = connect()
                client.sendall(command("SET", "half", "x" * 40)[:cut])
                client.close()
            client = connect()
            check("kv goes on behind garbage", ask(client, command("GET", "half"), b"$-1\r\n"), b"$-1\r\n")
            check("kv ends by SIGTERM", server.end()[0], 0)


def try_redis(program, check, skip, requests):
    if not shutil.which("redis-benchmark"):
        skip("redis-cli and redis-benchmark on kv: there is no redis-tools")
        return
    with Server(program, "--cores", 2) as server:
        cli = ["redis-cli", "-p", str(PORT)]
        said = subprocess.run([*cli, "SET", "by", "cli"], capture_output=True, text=True)
        check("redis-cli SET", said.stdout, "OK\n")
        said = subprocess.run(cli, input="GET by\nINCR n\nTTL by\n", capture_output=True, text=True)
        check("redis-cli", said.stdout, "cli\n1\n-1\n")
        said = subprocess.run([*cli, "--scan"], capture_output=True, text=True)
        check("redis-cli --scan", sorted(said.stdout.split()), ["by", "n"])
        for words in (["-c", "50"], ["-c", "50", "-P", "16"], ["-c", "1"], ["-c", "1000"]):
            count = requests // 50 if words[1] == "1" else requests
            said = subprocess.run(["redis-benchmark", "-p", str(PORT), "-q", "-n", str(count), "-r", "10000", "-t", "set,get,incr,mset", *words], capture_output=True, text=True, timeout=300)
            told = re.findall(r"(\w+)[^\r\n]*: ([\d.]+) requests per second", said.stdout)
            check(f"redis-benchmark {' '.join(words)}", (said.returncode, [name for name, _ in told]), (0, ["SET", "GET", "INCR", "MSET"]))
        check("kv ends by SIGTERM", server.end()[0], 0)


def try_python(program, check, skip):
    # Debian's packages are those of its own python.
    sys.path.append(os.path.join("/", "usr", "lib", "python3", "dist-packages"))
    try:
        import redis
    except ImportError:
        skip("the client of python3-redis on kv: there is none")
        return
    with Server(program, "--cores", 2):
        client = redis.Redis(port=PORT)
        check("python: set", client.set("key", "value", ex=100), True)
        check("python: get", client.get("key"), b"value")
        check("python: nx", client.set("key", "other", nx=True), None)
        pipe = client.pipeline(transaction=False)
        for number in range(1000):
            pipe.set(f"key{number}", number)
            # Its own call is INCRBY, which kv has not.
            pipe.execute_command("INCR", "count")
        check("python: a pipeline", pipe.execute()[-1], 1000)
        check("python: scan", len(set(client.scan_iter(count=37))), 1002)
        check("python: mget", client.mget("key1", "key2"), [b"1", b"2"])
        check("python: delete", client.delete(*(f"key{number}" for number in range(1000))), 1000)
        check("python: dbsize", client.dbsize(), 2)


def try_many(program, check, skip):
    """10,000 connections at once."""
    wanted, (soft, hard) = 10_000, resource.getrlimit(resource.RLIMIT_NOFILE)
    if hard != resource.RLIM_INFINITY and hard < wanted + 100:
        skip(f"10,000 connections: {hard} files may be open")
        return
    resource.setrlimit(resource.RLIMIT_NOFILE, (max(soft, wanted + 100), hard))
    try:
        with Server(program, "--cores", 2) as server:
            clients = [connect() for _ in range(wanted)]
            for client in clients:
                client.sendall(command("INCR", "all"))
            check("10,000 connections", sorted(int(client.recv(20)[1:]) for client in clients), list(range(1, wanted + 1)))
            for client in clients[::2]:
                client.close()
            check("half of them hang up", ask(clients[1], command("PING"), b"+PONG\r\n"), b"+PONG\r\n")
            check("kv ends by SIGTERM", server.end()[0], 0)
    finally:
        resource.setrlimit(resource.RLIMIT_NOFILE, (soft, hard))


def try_kills(program, room, check, times):
    """It is killed in the middle of writes. Each write that was answered is there when it starts again, and a tail that is torn is told."""
    folder, known, lost, compacted = room / "log", {}, [], False
    for time_round in range(times):
        with Server(program, "--cores", 2, "--dir", folder, "--fsync", "always") as server:
            client = connect()
            for key, value in list(known.items())[-500:]:
                wanted = b"$%d\r\n%s\r\n" % (len(value), value)
                if ask(client, command("GET", key), wanted) != wanted:
                    lost.append(key)
            clients = [connect() for _ in range(8)]
            end = time.monotonic() + 0.02 + (time_round % 10) / 50
            count = 0
            while time.monotonic() < end:
                sent = []
                for number, each in enumerate(clients):
                    key, value = f"key{(count * 8 + number) % 700}", b"%d.%d." % (time_round, count) + b"x" * ((count * 37) % 3000)
                    each.sendall(command("SET", key, value))
                    sent.append((each, key, value))
                count += 1
                if count % 5 == 4 and time.monotonic() > end - 0.01:
                    # These weren't answered: either may be there.
                    for _, key, _ in sent:
                        known.pop(key, None)
                    break
                for each, key, value in sent:
                    if each.recv(5) == b"+OK\r\n":
                        known[key] = value
            if time_round % 20 == 19:
                check("kv ends by SIGTERM", server.end()[0], 0)
            else:
                server.end(signal.SIGKILL)
    check(f"writes that were answered and lost, in {times} kills", lost, [])
    check("writes that were answered", len(known) > 100, True)
    # Of a core's files that of the greatest number grows.
    with open(max((it for it in (folder / "of-2/0").iterdir() if it.stem.isdigit()), key=lambda it: int(it.stem)), "ab") as log:
        log.write(b"\x40\x00\x00\x00torn")
    with Server(program, "--cores", 2, "--dir", folder) as server:
        client = connect()
        wanted = {key: b"$%d\r\n%s\r\n" % (len(value), value) for key, value in known.items()}
        check("all keys behind a torn tail", [key for key, value in wanted.items() if ask(client, command("GET", key), value) != value], [])
        check("a torn tail is told", "a torn tail of 8 bytes is cut off" in server.end()[1], True)


def bytes_of(folder):
    """The bytes of the files there, of which any may be removed meanwhile."""
    count = 0
    for it in folder.iterdir():
        try:
            count += it.stat().st_size
        except FileNotFoundError:
            pass
    return count


def try_compaction(program, room, check):
    """A log that grows is compacted while it is written."""
    folder = room / "compacted"
    with Server(program, "--cores", 1, "--dir", folder, "--fsync", "no") as server:
        client = connect()
        for count in range(300):
            for key in range(8):
                client.sendall(command("SET", f"key{key}", b"%d." % count + b"y" * 8000))
            for _ in range(8):
                client.recv(5)
        # How soon that comes to its end depends on the disk and on what else the machine does. A compaction that was lost never ends.
        deadline = time.monotonic() + 300
        while bytes_of(folder / "of-1/0") > 8 << 20 and time.monotonic() < deadline:
            ask(client, command("SET", "key0", b"299." + b"y" * 8000), b"+OK\r\n")
            time.sleep(0.02)
        check("kv ends by SIGTERM", server.end()[0], 0)
    check("the log was compacted", bytes_of(folder / "of-1/0") < 9 << 20, True)
    with Server(program, "--cores", 1, "--dir", folder):
        client = connect()
        wanted = b"$8004\r\n299." + b"y" * 8000 + b"\r\n"
        check("what a compacted log has", [ask(client, command("GET", f"key{key}"), wanted) == wanted for key in range(8)], [True] * 8)


def try_all(program, room, check, skip, is_all):
    try_exchanges(program, check)
    try_redis(program, check, skip, 100_000 if is_all else 20_000)
    try_python(program, check, skip)
    try_many(program, check, skip)
    try_compaction(program, room, check)
    try_kills(program, room, check, 200 if is_all else 40)
