#!/usr/bin/env python3
"""The page of a bot: what it answers, to whom, what it costs on IRC, and how it looks in a browser.

    trials/page.py [PROGRAM] [SECONDS] [PICTURES]      20 seconds of load, if they aren't said

PROGRAM is the program to try, else what EGGNET names, else ours. A hub with 500 users and bans serves its page while a server
asks it. Readers ask for 50 pages a second, one of them sends a byte a second, and 100 connect and close at once: an answer on
IRC comes at most 10 ms later for it. A POST, another site's name, a wrong password and a request that is too long get no page.
Texts of others add no markup and no control byte. Chromium, if there is one, draws the pages at 400 and 1200 pixels, in light
and in dark, into the folder PICTURES, if one is said. The last line is 'N well, M bad'; the status is 1 where any is bad.
"""
import base64
import http.client
import math
import os
import re
import shutil
import socket
import statistics
import subprocess
import sys
import tempfile
import threading
import time
from html.parser import HTMLParser
from pathlib import Path

sys.dont_write_bytecode = True
from bots import Bot, Tally, comes, counts_of, end_all, free_port, program_of, ran
from small_server import SmallServer

RATE = 50  # pages a second
MOST = 10  # milliseconds that an answer may take longer
PACE = 2.1  # seconds: the bot sends a line at once, if the one before went two seconds earlier
PATHS = ["/", "/records", "/records?from=100", "/records?who=nick!u7@h7.example", "/log", "/metrics", "/style.css"]
CONTROLS = re.compile(rb"[\x00-\x09\x0b\x0c\x0e-\x1f\x7f-\xff]")
VOID = {"meta", "link", "input", "br"}


class Reading(HTMLParser):
    """The tags of a page, and whether each is closed in order."""

    def __init__(self, text):
        super().__init__()
        self.open, self.tags, self.is_whole = [], set(), True
        self.feed(text)
        self.is_whole &= not self.open

    def handle_starttag(self, tag, attrs):
        self.tags.add(tag)
        if tag not in VOID:
            self.open.append(tag)

    def handle_endtag(self, tag):
        self.is_whole &= bool(self.open) and self.open.pop() == tag


def asked(port, path="/", method="GET", host=None, headers=(), body=None):
    """The status, the fields and the body of an answer; none where there is none."""
    try:
        it = http.client.HTTPConnection("127.0.0.1", port, timeout=15)
        it.putrequest(method, path, skip_host=True, skip_accept_encoding=True)
        it.putheader("Host", host or f"127.0.0.1:{port}")
        for name, value in headers:
            it.putheader(name, value)
        if body:
            it.putheader("Content-Length", str(len(body)))
        it.endheaders(body)
        answer = it.getresponse()
        heard = answer.read()
        it.close()
        return answer.status, dict(answer.getheaders()), heard
    except (OSError, http.client.HTTPException):
        return None, {}, b""


def load(port, seconds):
    """Asks for so many pages a second, and prints how many were answered with 200, of how many, the slowest in milliseconds, and
    the seconds that it took; it ends 30 seconds late at the latest."""
    began, well, slowest = time.monotonic(), 0, 0.0
    for number in range(RATE * seconds):
        if time.monotonic() - began > seconds + 30:
            break
        time.sleep(max(0.0, began + number / RATE - time.monotonic()))
        start = time.monotonic()
        status, _, _ = asked(port, PATHS[number % len(PATHS)])
        well += status == 200
        slowest = max(slowest, time.monotonic() - start)
    print(well, RATE * seconds, f"{slowest * 1000:.0f}", f"{time.monotonic() - began:.1f}")


def waits_of(bot, visitor, seconds):
    """How late answers are, for so long: on IRC, and at the bot's control socket. One that doesn't come is 10 s late."""
    pings, commands, end, due, number = {}, [], time.monotonic() + seconds, 0.0, ""
    while time.monotonic() < end:
        if time.monotonic() > due:
            number, due = str(time.monotonic_ns()), time.monotonic() + PACE
            pings[number] = time.monotonic()
            visitor.say(f"PING :{number}")
        began = time.monotonic()
        is_answered = bot.answers("status")
        commands.append(time.monotonic() - began if is_answered else 10.0)
        time.sleep(0.03)
    comes(lambda: visitor.said(f"^PONG :?{number}$"))
    heard = {number: visitor.said(f"^PONG :?{number}$") for number in pings}
    return [heard[number][0] - sent if heard[number] else 10.0 for number, sent in pings.items()], commands


def shape(waits):
    """The median and the 99th percentile, in milliseconds; endless where fewer than two answers came."""
    if len(waits) < 2:
        return math.inf, math.inf
    return statistics.median(waits) * 1000, statistics.quantiles(waits, n=100, method="inclusive")[98] * 1000


def fill(tally, bot):
    """Gives the hub 500 users and 100 bans, with texts that a page must not take as they are."""
    with socket.socket(socket.AF_UNIX) as it:
        it.settimeout(60)
        it.connect(f"{bot.folder}/control")
        lines = []
        for number in range(500):
            lines += [f"adduser u{number}", f"addhost u{number} *!u{number}@*.example", f"addhost u{number} *!*@h{number}.example"]
        lines += ["info u1 <script>alert(1)</script>", "info u2 gr\u00fc\u00dfe", "chan u3 #egg o", "global u4 mn"]
        lines += [f"addban #egg *!*@b{number}.example u1 0 \"it's\" & <b>" for number in range(100)]
        refused = 0
        for line in lines:
            it.sendall(line.encode() + b"\n")
            heard = b""
            while not (heard == b".\n" or heard.endswith(b"\n.\n")):
                piece = it.recv(65536)
                if not piece:
                    tally.note(f"a hub takes {len(lines)} changes", False, f"it is gone at {line!r}")
                    return
                heard += piece
            refused += heard.startswith((b"refused", b"fault"))
    tally.note(f"a hub takes {len(lines)} changes", refused == 0, f"{refused} refused")


def is_plain(body):
    return not CONTROLS.search(body)


def looks_at_answers(tally, port):
    """Which answer a request gets."""
    for path in PATHS:
        status, fields, body = asked(port, path)
        safe = "default-src 'none'" in fields.get("Content-Security-Policy", "") and fields.get("Cache-Control") == "no-store"
        tally.note(f"GET {path}", status == 200 and is_plain(body) and safe, f"{status}, {len(body)} bytes")
        if fields.get("Content-Type", "").startswith("text/html"):
            page = Reading(body.decode())
            tally.note(f"GET {path}: each tag is closed, and there is no script", page.is_whole and "script" not in page.tags)
    status, fields, body = asked(port, "/", "HEAD")
    length = int(fields.get("Content-Length", 0))
    tally.note("HEAD / has no body", status == 200 and not body and length > 1000, f"{status}, {len(body)} bytes, of {length}")
    status, fields, _ = asked(port, "/", "POST", body=b"x" * 100)
    tally.note("POST / gets 405", status == 405 and fields.get("Allow") == "GET, HEAD", status)
    for method in ("PUT", "DELETE", "OPTIONS", "TRACE", "get", "CONNECT"):
        status = asked(port, "/", method)[0]
        tally.note(f"{method} gets 405", status == 405, status)
    for path, host, wanted in (("/other", None, 404), ("/records?from=x", None, 400), ("/", "evil.example", 421),
                               ("/", f"evil.example:{port}", 421), ("/", f"localhost:{port}", 200),
                               ("/", "127.0.0.1", 421), ("/../etc/passwd", None, 404), ("/log?from=99999999999999999999999", None, 400)):
        status = asked(port, path, host=host)[0]
        tally.note(f"GET {path} at {host or 'its own address'} gets {wanted}", status == wanted, status)
    status = asked(port, "/", headers=[("X", "y" * 5000)])[0]
    tally.note("5,000 bytes of fields get 431", status == 431, status)
    two = f"GET / HTTP/1.1\r\nHost: localhost:{port}\r\nHost: localhost:{port}\r\n\r\n".encode()
    for what, sent in (("no HTTP gets", b"EHLO there\r\n\r\n"), ("two Hosts get", two)):
        line = raw(port, sent).partition(b"\r\n")[0].decode(errors="replace")
        tally.note(f"{what} 400", line.startswith("HTTP/1.1 400 "), line)


def raw(port, sent, seconds=15):
    """All that comes for these bytes."""
    with socket.create_connection(("127.0.0.1", port), seconds) as it:
        it.sendall(sent)
        heard = b""
        try:
            while piece := it.recv(65536):
                heard += piece
        except OSError:
            pass
        return heard


def looks_at_texts(tally, port):
    """Texts of others are shown, and add nothing."""
    body = asked(port, "/records")[2]
    tally.note("an info of markup is shown as a text", b"&lt;script&gt;alert(1)&lt;/script&gt;" in body)
    tally.note("an info of other letters is shown", b"gr&#252;&#223;e" in body)
    _, _, found = asked(port, "/records?who=nick!u7@h7.example")
    tally.note("a search names the user and the hostmask", b"<strong>u7</strong> by the hostmask <code>" in found)
    _, _, found = asked(port, "/records?who=%3Cb%3E!x@%1b[2J")
    tally.note("a search for a text of markup and control bytes", b"&lt;b&gt;!x@\\x1b[2J" in found and is_plain(found))
    rows = [len(re.findall(b"<th scope=\"row\">", asked(port, f"/records?from={it}")[2])) for it in (0, 100, 450, 550)]
    tally.note("at most 100 rows a page", rows == [100, 100, 100, 50], rows)
    text = asked(port, "/metrics")[2].decode()
    numbers = dict(re.findall(r"^(\w+) (\d+)$", text, re.M))
    right = numbers.get("eggnet_users") == "500" and numbers.get("eggnet_channels_op") == "1" and numbers.get("eggnet_bans") == "100"
    tally.note("the metrics count", right, {key: numbers.get(key) for key in ("eggnet_users", "eggnet_bans", "eggnet_channels_op")})
    log = asked(port, "/log")[2]
    lines = len(re.findall(b"<li>", log))
    tally.note("the log is shown, its last line first", 0 < lines <= 500, f"{lines} lines")


def looks_at_strangers(tally, bot, port):
    """Readers who are slow, or leave at once, starve nobody."""
    slow = [socket.create_connection(("127.0.0.1", port), 15) for _ in range(7)]
    for it in slow:
        it.sendall(b"GET / HTTP/1.1\r\n")
    began = time.monotonic()
    status = asked(port)[0]
    tally.note("seven slow readers: an eighth gets its page", status == 200 and time.monotonic() - began < 1, status)
    late = socket.create_connection(("127.0.0.1", port), 15)
    seconds, is_over = 0, False
    while not is_over and seconds < 20:
        try:
            late.sendall(b"G")
            time.sleep(1)
            seconds += 1
            late.setblocking(False)
            is_over = late.recv(1) == b""
        except BlockingIOError:
            late.setblocking(True)
        except OSError:
            is_over = True
    tally.note("a reader of a byte a second is disconnected", is_over and seconds <= 12, f"after {seconds} s")
    gone = 0
    for it in slow:
        it.settimeout(5)
        try:
            gone += it.recv(1) == b""
        except OSError:
            gone += 1
    tally.note("and so are those who stopped", gone == 7, gone)
    for it in [*slow, late]:
        it.close()
    spent = bot.spent()
    for _ in range(100):
        socket.create_connection(("127.0.0.1", port), 15).close()
    status = asked(port)[0]
    tally.note("100 connects that close at once", status == 200, f"{bot.spent() - spent:.0f} ms of processor time")


def trickle(port, seconds):
    """Sends a byte a second, on one connection after another."""
    end, it = time.monotonic() + seconds, socket.create_connection(("127.0.0.1", port), 15)
    while time.monotonic() < end:
        time.sleep(1)
        try:
            it.sendall(b"G")
        except OSError:
            it.close()
            it = socket.create_connection(("127.0.0.1", port), 15)
    it.close()


def looks_at_load(tally, bot, visitor, port, seconds):
    """Pages that are read make no answer on IRC come more than 10 ms later."""
    time.sleep(10)  # the bot may send five lines at once again
    calm = waits_of(bot, visitor, seconds)
    spent = bot.spent()
    readers = subprocess.Popen([sys.executable, __file__, "--load", str(port), str(seconds)], stdout=subprocess.PIPE, text=True)
    slow = threading.Thread(target=trickle, args=(port, seconds))
    slow.start()
    try:
        loaded = waits_of(bot, visitor, seconds)
        out = readers.communicate(timeout=seconds + 120)[0].split() or ["0", "?", "?", "?"]
    finally:
        readers.kill()
        readers.wait()
        slow.join()
    tally.note(f"{RATE} pages a second for {seconds} s: each is answered", out[:1] == out[1:2],
               f"{out[0]} of {out[1]} in {out[3]} s, the slowest in {out[2]} ms, {bot.spent() - spent:.0f} ms of processor time")
    for name, before, after in zip(("on IRC", "at the control socket"), calm, loaded):
        (median, most), (median_after, most_after) = shape(before), shape(after)
        tally.note(f"the median of answers {name} is at most {MOST} ms later", median_after - median <= MOST,
                   f"{median:.2f} ms, {median_after:.2f} ms, of {len(after)}")
        tally.note("and the 99th percentile", most_after - most <= MOST, f"{most:.2f} ms, {most_after:.2f} ms")


def looks_at_password(tally, program, room, server):
    """A page with a password."""
    port = free_port()
    Path(f"{room}/word").write_text("egg:shell\n", encoding="utf-8")
    bot = Bot(program, room, "locked", [server], [f"page 127.0.0.1 {port} {room}/word"], nick="locked")
    try:
        if not tally.note("a bot with a password starts", bot.start(), bot.logged()[-300:]):
            return
        status, fields, _ = asked(port)
        tally.note("without it 401", status == 401 and fields.get("WWW-Authenticate", "").startswith("Basic "), status)
        for word, wanted in (("a:egg:shell", 200), (":egg:shell", 200), ("a:egg", 401), ("a:egg:shell ", 401), ("egg:shell", 401)):
            field = ("Authorization", "Basic " + base64.b64encode(word.encode()).decode())
            status = asked(port, headers=[field])[0]
            tally.note(f"with {word!r} {wanted}", status == wanted, status)
        status = asked(port, headers=[("Authorization", "Bearer egg:shell")])[0]
        tally.note("another scheme gets 401", status == 401, status)
    finally:
        end_all(bot)


def looks_at_starts(tally, program, room, server, port):
    """What a bot says whose page can't be served, and that the page is no word to change."""
    for name, line, said in (("busy", f"page 127.0.0.1 {port}", "page is in use"),
                             ("none", f"page 127.0.0.1 {free_port()} {room}/nowhere", "can't be read"),
                             ("open", f"page 0.0.0.0 {free_port()}", "page")):
        bot = Bot(program, room, name, [server], [line])
        try:
            status, _, error = ran([program, "run", bot.config])
        except subprocess.TimeoutExpired:
            status, error = None, "it runs for two minutes"
        tally.note(f"{line.replace(room, '..')}: it says what to change", status in (1, 3) and said in error, f"status {status}, {error}")


def draw(tally, port, pictures):
    """Draws the pages in a browser."""
    browser = shutil.which("chromium")
    if not browser:
        tally.say("no chromium: apt-get install chromium")
        return
    for width in (400, 1200):
        for scheme, number in (("light", 1), ("dark", 0)):
            for path in ("/", "/records?who=nick!u7@h7.example", "/log"):
                name = f"{pictures}/{re.sub(r'[^a-z].*', '', path[1:]) or 'net'}-{width}-{scheme}.png"
                words = [browser, "--headless", "--no-sandbox", "--disable-gpu", "--hide-scrollbars", f"--window-size={width},1400",
                         f"--blink-settings=preferredColorScheme={number}", f"--screenshot={name}", f"http://127.0.0.1:{port}{path}"]
                status, _, error = ran(words)
                tally.note(f"a picture of {path} at {width} pixels, {scheme}", status == 0 and os.path.getsize(name) > 5000, error[-200:] if status else "")


def main(words):
    if words[:1] == ["--load"]:
        load(int(words[1]), int(words[2]))
        return 0
    folders = [it for it in words if os.path.isdir(it)]
    words = [it for it in words if it not in folders]
    (seconds,), tally = counts_of(words, 20), Tally()
    program = program_of(words)
    with tempfile.TemporaryDirectory(prefix="page-") as room:
        server, port = SmallServer(), free_port()
        bot = Bot(program, room, "paged", [server], ["channel #egg", "log lines", f"page 127.0.0.1 {port}"])
        try:
            if not tally.note("a bot with a page starts", bot.start(), bot.logged()[-300:]):
                return tally.end()
            visitor = server.visitor("egg")
            comes(lambda: visitor.said("^JOIN #egg$"))
            visitor.say(":ann!ann@host.trial MODE #egg +o egg")
            fill(tally, bot)
            looks_at_answers(tally, port)
            looks_at_texts(tally, port)
            looks_at_strangers(tally, bot, port)
            looks_at_load(tally, bot, visitor, port, seconds)
            looks_at_password(tally, program, room, server)
            looks_at_starts(tally, program, room, server, port)
            draw(tally, port, folders[0] if folders else room)
            _, status, took = bot.end()
            tally.note("it ends as it is told", status == 0, f"status {status} after {took:.1f} s")
        finally:
            end_all(bot, server)
    return tally.end()


if __name__ == "__main__":
    sys.exit(main(sys.argv[1:]))
