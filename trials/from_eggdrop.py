#!/usr/bin/env python3
"""Moves the records of an Eggdrop to a bot of ours by tools/from_eggdrop, and tries what could go wrong on the way.

    trials/from_eggdrop.py [PROGRAM] [ROUNDS]     200 rounds of random lines if they aren't said
    apt-get install eggdrop                       without it, no file of a real Eggdrop is tried

PROGRAM is the program to try, else what EGGNET names, else ours. At the partyline of a real Eggdrop and by its Tcl, users,
hostmasks, flags everywhere, on channels and as a bot, info lines, bans with and without end, sticky bans, exempts, invites
and ignores are made and saved. The lines that our script makes of the two files go to a bot at `eggnet serve`: its `show`
has each record, its clients meet a bot that knows them, and what is not brought over is named. Then come files at the
limits and above them, files that are none of an Eggdrop, and lines that try to leave the shell's quotes: by hand, and at
random. These run with a program in the place of ours that only writes down its words, and with traps on the path.
SEED chooses the random lines. The last line is 'N well, M bad'; the status is 1 where any is bad.
"""
import os
import random
import re
import shutil
import subprocess
import sys
import tempfile
import time
from pathlib import Path

sys.dont_write_bytecode = True
import sharing_eggdrops
from bots import TOP, Bot, Guest, Ours, Tally, comes, counts_of, end_all, program_of, ran
from sharing_eggdrops import Operator

COMMANDS = (b"adduser", b"addhost", b"global", b"chan", b"bot", b"info", b"addban", b"sticky")
SCRIPT = str(TOP / "tools/from_eggdrop")
ADDRESS = "127.0.0.84"
HEADER = b"#4v: eggdrop v1.8.4 -- egg -- written Sat Nov 28 02:48:46 2026\n"
SETTINGS = """
set nick egg
set botnet-nick egg
set username egg
set realname egg
set owner boss
set userfile users
set chanfile channels
set pidfile pid
set mod-path /usr/lib/eggdrop/modules/
set help-path /usr/share/eggdrop/help/
set text-path /usr/share/eggdrop/text/
set net-type [expr {{$numversion >= 1090000 ? "Other" : 5}}]
set vhost4 {address}
set listen-addr {address}
set protect-telnet 0
set telnet-flood 0:0
set must-be-owner 0
foreach module {{blowfish channels server irc}} {{loadmodule $module}}
set servers {{127.0.0.1:1}}
logfile cobxmk * log
listen {users} users
proc begin {{args}} {{
  channel add #egg {{chanmode "+nt-l"}}
  channel add {{#b[1]}} {{+bitch}}
  channel add #old {{+inactive}}
  channel set #egg need-op {{putserv "PRIVMSG x :op"}}
  adduser boss
  setuser boss PASS secret
  chattr boss +nmop
  save
}}
bind evnt - loaded begin
"""
# What is made in Tcl, as a script.
TCL = r"""
setuser boss HOSTS *!boss@*
adduser bob {*!bob@b.test}
setuser bob HOSTS {*!~bob@*.c.test}
setuser bob HOSTS {*!back\*@*}
setuser bob INFO {the info of bob}
setuser bob PASS hidden
foreach mask {bare user@host nick!user} {setuser bob HOSTS $mask}
chattr bob +of|+v #egg
chattr bob |+d #b\[1\]
adduser carol
setuser carol INFO "hello there  two  spaces, it's \$(reboot) `reboot` \"x\" \\"
setuser carol COMMENT {a comment}
setchaninfo carol #egg {an info of #egg}
chattr carol +avQX|+avZ #egg
chattr carol |+o #b\[1\]
adduser {ca$fe'}
adduser {w"`q}
addbot leaf 127.0.0.1 4000 4001
botattr leaf +sgp1
botattr leaf |+s #egg
newban *!*@bad.test boss {a comment: it's so} 60 sticky
newban *!*@perm.test boss {for ever} 0
newban {*!*@2001:db8::/32} stranger {} 0
newchanban #egg *!*@soon.test boss soon 120
newchanban #egg bare boss bare 0 sticky
newchanban {#b[1]} some@where boss {} 10
newexempt *!*@exempt.test boss ex 0
newchanexempt #egg *!*@exempt2.test boss ex 0
newinvite *!*@invite.test boss in 0
newchaninvite #egg *!*@invite2.test boss in 0
newignore *!*@ignore.test boss ig 0
""".strip()
# What is made at the partyline, and what it answers.
SAID = [(".+user dave *!dave@*", "Added dave"), (".chattr dave +m", "are now"), (".+host dave *!*@a{b}.test", "Added"),
        (".+ban *!*@said.test %2d said: by boss", "New ban"), (".+user erin n!e@h:1,2", "Added erin")]
# What `show` has then, without the number of the bot, and with E for an end in the future.
RECORDS = r"""
user bob flo -
host bob *!bob@b.test
host bob *!~bob@*.c.test
info bob the info of bob
host bob *!back\\*@*
chan bob #b[1] d
chan bob #egg v
user boss jlmnoptx -
host boss *!boss@*
user ca$fe' - -
user carol avQX -
info carol hello there  two  spaces, it's $(reboot) `reboot` "x" \
chan carol #b[1] lo
chan carol #egg avZ
user dave jlmoptx -
host dave *!dave@*
host dave *!*@a{b}.test
user erin - -
host erin n!e@h:1?2
user leaf b gps
chan leaf #egg s
user w"`q - -
ban * *!*@bad.test boss E a comment: it's so
sticky * *!*@bad.test
ban * *!*@perm.test boss 0 for ever
ban * *!*@2001:db8::/32 stranger 0
ban * *!*@said.test boss E said: by boss
ban #egg *!*@soon.test boss E soon
ban #egg bare!*@* boss 0 bare
sticky #egg bare!*@*
ban #b[1] some!*@where boss E
""".strip().splitlines()
# What is named on standard error.
NAMED = r"""
bob: left out: a password
bob: left out: the hostmask bare: Eggdrop knows nobody
bob: left out: the hostmask user@host: Eggdrop knows nobody
bob: left out: the hostmask nick!user: Eggdrop knows nobody
bob: changed: a backslash quotes here
bob: changed: TAKE CARE: at Eggdrop d on #b\[1\] takes away o,
bob: changed: flags that only binds look at here: fl$
carol: left out: the info on #egg: an info of #egg$
carol: left out: a comment
carol: left out: XTRA created
leaf: left out: flags as a bot that are no letters: 1$
leaf: left out: a bot's address
\*!\*@exempt.test: left out: an exempt
\*!\*@exempt2.test: left out: an exempt
\*!\*@invite.test: left out: an invite
\*!\*@invite2.test: left out: an invite
\*!\*@ignore.test: left out: an ignore
db8::/32: changed: a range of addresses
bans: left out: when each of these 7 was made
#old: left out: the channel: it is inactive$
#egg: left out: \d+ settings that this bot lacks: .*chanmode .*need-op putserv
^8 users, 7 bans, 37 commands, 2 channels; \d+ left out, \d+ changed$
""".strip().splitlines()
# A file at the limits and above them, and what is named of it. `u0` comes first, and its bans and others last.
ABOVE_OF_USERS = [b"u0 - o", *(b"--HOSTS *!*@h%d.test" % number for number in range(17)), b"--HOSTS " + b"m" * 118 + b"!*@",
                  *(b"! #c%d 0 o" % number for number in range(17)), b"! #" + b"c" * 100 + b" 0 o", b"--INFO " + b"i" * 81,
                  b"U0 - n", b"h" * 33 + b" - n", b"h:h - n", b"--HOSTS *!*@n.test", b"broken"]
ABOVE_OF_BANS = [b"*ban - -", b"- *!*@gone.test:1:+1:0:u0:gone", b"- *!*@zero.test:0:+1:0:u0:", b"- nonsense",
                 b"- *!*@x:+0:+1:0", b"- *!*@long.test:+0:+1:0:u0:" + "ü".encode() * 51,
                 b"- *!*@latin.test:+0:+1:0:u0:caf\xe9", b"- *!*@latin\xe9.test:+0:+1:0:u0:",
                 b"- *!*@maker.test:+0:+1:0:a*b:x", b"- *!*@old.test:+0:u0:an old line", b"- *!*@OLD.test:+0:u0:again",
                 b"- *!*@far.test:99999999999999999999:+1:0:u0:x", b"::nochannel bans", b"- *!*@in.test:+0:+1:0:u0:x",
                 b"::#egg bans", b"- nick:+0:+1:0:u0:", b"- u@h:+0:+1:0:u0:", b"- n!u:+0:+1:0:u0:",
                 b"- *!*@at.test:+0:+1:0:u0:@hidden", *(b"- *!*@b%d.test:+0:+1:0:u0:" % number for number in range(200)),
                 b"--INFO nobody's", b"! #x 0 o", b"x" * 600]
ABOVE = r"""
u500: left out: the user.*500 users
u0: left out: the hostmask \*!\*@h16.test: .*16
u0: left out: the hostmask m+!\*@: a mask has at most 120
u0: left out: the flags o on #c16: .*16 channels
u0: left out: the flags o on #c{100}: a channel has
u0: changed: the info line is cut at 80
U0: left out: the user.*stands above
h{33}: left out: the user
h:h: left out: the user
broken: left out: the user.*is no record
gone.test: left out: the ban.*it has ended
zero.test: left out: the ban.*it has ended
nonsense: left out: a ban that Eggdrop can't read
x:\+0:\+1:0: left out: a ban that Eggdrop can't read
long.test: changed: the comment of the ban is cut at 100
latin.test: left out: the comment
latin\\xe9.test: left out: the ban
maker.test: changed: a\*b made the ban
OLD.test: left out: the ban.*stands above
far.test: left out: the ban.*no second
in.test: left out: the ban from nochannel: a channel
at.test: changed: Eggdrop doesn't say a comment that begins with @
b199.test: left out: the ban.*200 bans
INFO: left out: an entry that belongs to nobody
#x: left out: flags on a channel that belong to nobody
x{30}: left out: the line has more than 510
""".strip().splitlines()


class Eggdrop:
    """A real Eggdrop, with files of its own."""

    address = ADDRESS

    def __init__(self, room):
        self.folder = f"{room}/eggdrop"
        os.mkdir(self.folder)
        conf = SETTINGS.format(address=ADDRESS, users=sharing_eggdrops.USERS)
        Path(f"{self.folder}/conf").write_text(conf, encoding="utf-8")
        as_nobody = ["setpriv", "--reuid=nobody", "--regid=nogroup", "--clear-groups"] if os.getuid() == 0 else []
        for path in [room, self.folder, f"{self.folder}/conf"] if as_nobody else []:
            shutil.chown(path, "nobody", "nogroup")
        self.process = subprocess.Popen([*as_nobody, "eggdrop", "-n", "-m", "conf"], cwd=self.folder, stdin=subprocess.DEVNULL,
                                        stdout=subprocess.DEVNULL, stderr=subprocess.DEVNULL)

    def operator(self):
        """Somebody at its partyline, once it is up."""
        def joined():
            try:
                return Operator(self)
            except OSError:
                return None
        return comes(joined, rest=0.3)

    def kill(self):
        self.process.kill()
        self.process.wait()


def made_by_eggdrop(tally, room):
    """Has a real Eggdrop make its two files. Their paths."""
    eggdrop = Eggdrop(room)
    try:
        with eggdrop.operator() as operator:
            refused = [line for line in TCL.splitlines() if operator.tcl(f"catch {{{line}}}") != "0"]
            refused += [line for line, pattern in SAID if not operator.does(line, pattern)[0]]
            tally.note("an Eggdrop takes the records", not refused, f"{len(TCL.splitlines()) + len(SAID)} {refused or ''}")
            known = [operator.tcl(f"finduser {who}") for who in ("bare!y@z", "bare!bare@bare", "x!user@host", "nick!user@z")]
            tally.note("it knows nobody by masks without ! or @", known == ["*"] * 4, known)
            quoting = [operator.tcl(rf"matchaddr {{*!back\*@c.test}} {{n!{user}@c.test}}") for user in (r"back\up", "back*")]
            tally.note("a backslash quotes nothing there", quoting == ["1", "0"], quoting)
            operator.does(".save", "")
    finally:
        eggdrop.kill()
    return f"{eggdrop.folder}/users", f"{eggdrop.folder}/channels"


def written(words, room):
    """What our script writes: its status, its lines as a file, its lines, and what it names."""
    done = subprocess.run([SCRIPT, *words], stdout=subprocess.PIPE, stderr=subprocess.PIPE, timeout=60, check=False)
    lines = f"{room}/lines.sh"
    Path(lines).write_bytes(done.stdout)
    return done.returncode, lines, done.stdout, done.stderr.decode()


def fed(program, lines, folder):
    """Feeds the lines to a bot. The status, standard output and standard error."""
    return ran(["sh", lines, folder], env={**os.environ, "EGGNET": program})


def records_of(bot, now):
    """What it shows, without its version, and with E for an end within three days."""
    _, shown, _ = bot.show()
    def end(found):
        return f"{found.group(1)}E" if now < int(found.group(2)) < now + 3 * 86400 else found.group()
    return [re.sub(r"^(ban \S+ \S+ \S+ )(\d+)", end, line[2:]) for line in shown.splitlines()[1:]]


def moves(tally, program, room, files):
    """The records of an Eggdrop are those of our bot."""
    server = Ours(room, program)
    server.start()
    status, lines, text, named = written(files, room)
    tally.note("the script reads both files", status == 0 and not re.search("Traceback", named), named.splitlines()[-1])
    lacking = [pattern for pattern in NAMED if not re.search(pattern, named, re.MULTILINE)]
    tally.note("it names what is not brought over", not lacking, f"{len(NAMED)} {lacking or ''}")
    tally.note("it names no password", "hidden" not in named and b"hidden" not in text)
    channels = re.findall(r"^# egg\.conf: (channel .*)$", text.decode(), re.MULTILINE)
    tally.note("it names the channels", channels == ["channel #egg", "channel #b[1]"], channels)
    binds = [f"bind msg - {proc} {proc}" for proc in ("whois", "+user", "info")]
    bot = Bot(program, room, "egg", [server], [*channels, *binds])
    guests = []
    try:
        tally.note("no bot runs yet: status 3", fed(program, lines, bot.folder)[0] == 3)
        bot.start()
        status, out, err = fed(program, lines, bot.folder)
        tally.note("the bot accepts each command", status == 0 and out.endswith(" accepted, 0 refused\n"), out + err)
        told, wanted = sorted(records_of(bot, time.time())), sorted(RECORDS)
        tally.note("`show` has each record, and no other", told == wanted,
                   f"{len(told)} lines {sorted(set(told) ^ set(wanted)) or ''}")
        status, out, err = fed(program, lines, bot.folder)
        tally.note("a second time it refuses what it has", status == 1 and re.search(r"[1-9]\d* refused", out), out)
        comes(lambda: "welcome as" in bot.logged())
        guests = [Guest(server, nick, user) for nick, user in (("someone", "dave"), ("other", "back*"), ("third", "back\\up"))]
        tally.note("it knows a user that `.+user` made",
                   guests[0].asks("PRIVMSG egg :whois bob", r"NOTICE someone :bob has the flags flo and"), guests[0].lines[-1])
        tally.note("that user may add others, as at the Eggdrop",
                   guests[0].asks("PRIVMSG egg :+user fred", r"NOTICE someone :accepted under"), guests[0].lines[-1])
        tally.note("it knows nobody else", guests[1].asks("PRIVMSG egg :whois bob", r"NOTICE other :only masters")
                   and not guests[1].asks("PRIVMSG egg :info", "the info of bob", 2))
        tally.note("a mask with a backslash matches the same", guests[2].asks("PRIVMSG egg :info", "the info of bob"))
    finally:
        end_all(*guests, bot, server)


def limits(tally, program, room):
    """Files at the limits and above them: what is above is named, and the bot accepts the rest."""
    rows = [*ABOVE_OF_USERS, *(b"u%d - -" % number for number in range(1, 501)), *ABOVE_OF_BANS]
    Path(f"{room}/users").write_bytes(HEADER + b"\r\n".join(rows))
    status, lines, text, named = written([f"{room}/users"], room)
    tally.note("a file above the limits", status == 0 and "Traceback" not in named, named.splitlines()[-1])
    lacking = [pattern for pattern in ABOVE if not re.search(pattern, named, re.MULTILINE)]
    tally.note("it names each record above a limit", not lacking, f"{len(ABOVE)} {lacking or ''}")
    completed = [mask for mask in (b"nick!*@*", b"u!*@h", b"n!u@*") if b"addban '#egg' '" + mask + b"' " in text]
    tally.note("it completes bans as Eggdrop's newban does it", len(completed) == 3, completed)
    tally.note("and gives no owner's flag by one of them", b"'n'" not in text)
    server = Ours(room, program)
    server.start()
    bot = Bot(program, room, "full", [server])
    try:
        bot.start()
        status, out, err = fed(program, lines, bot.folder)
        first = bot.show()[1].partition("\n")[0]
        tally.note("the bot accepts all others", status == 0 and first.endswith("users 500 bans 200"),
                   f"{first}: {out}{err[-300:]}")
    finally:
        end_all(bot, server)


def refusals(tally, room):
    """Files that are none of an Eggdrop, and other words."""
    files = {"empty": b"", "text": b"hello\nthere\n", "old": b"#3v: eggdrop v1.1 -- egg -- written x\n", "none": HEADER[1:],
             "new": b"#5v: eggdrop v2.0 -- egg -- written x\n", 
             "channels": b"#Dynamic Channel File for egg (eggdrop v1.8.4) --\n",
             "torn": b"#Dynamic Channel File for egg (eggdrop v1.8.4) --\nchannel add #egg { chanmode +nt\n", "good": HEADER}
    for name, text in files.items():
        Path(f"{room}/{name}").write_bytes(text)
    cases = [(["empty"], "no file of users"), (["text"], "no file of users"), (["none"], "no file of users"),
             (["old"], "#3v.*1.8"), (["new"], "#5v.*1.8"), (["channels"], "file of users first"),
             (["good", "text"], "no file of channels"), (["good", "good"], "no file of channels"), 
             (["good", "torn"], "brace is not closed"), (["missing"], "No such file"), (["."], "directory")]
    wrong = []
    for names, pattern in cases:
        status, _, text, named = written([f"{room}/{name}" for name in names], room)
        if status != 1 or text or not re.search(f"^tools/from_eggdrop: .*{names[-1]}: .*{pattern}", named):
            wrong.append((names, status, named))
    tally.note("it refuses other files by name", not wrong, f"{len(cases)} {wrong or ''}")
    tally.note("it refuses other words", [written(words, room)[0] for words in ([], ["a", "b", "c"], ["-x"])] == [2, 2, 2])


class Trap:
    """A program in the place of ours that writes down its words, and programs on the path that nobody should run."""

    NAMES = ("reboot", "touch", "trap", "id", "x")

    def __init__(self, room):
        self.said, self.sprung, self.folder = f"{room}/said", f"{room}/sprung", f"{room}/traps"
        os.mkdir(self.folder)
        self.put("eggnet", f'for word; do printf "%s\\0" "$word"; done >> {self.said}; printf "\\n\\0" >> {self.said}')
        for name in self.NAMES:
            self.put(name, f"echo {name} >> {self.sprung}")

    def put(self, name, text):
        Path(f"{self.folder}/{name}").write_text(f"#!/bin/sh\n{text}\n", encoding="utf-8")
        os.chmod(f"{self.folder}/{name}", 0o755)

    def calls(self, shell, lines, folder):
        """The words of each call that a shell makes of the lines; none where it fails, or springs a trap."""
        Path(self.said).write_bytes(b"")
        environment = {"PATH": f"{self.folder}:{os.environ['PATH']}", "HOME": self.folder}
        status, _, err = ran([shell, lines, folder], env=environment, cwd=self.folder)
        if status or err or os.path.exists(self.sprung):
            return None
        return [call.split(b"\0")[:-1] for call in Path(self.said).read_bytes().split(b"\n\0")[:-1]]


def shells():
    return [shell for shell in ("sh", "bash", "ksh", "zsh") if shutil.which(shell)]


TRICKS = [b"$(reboot)", b"`reboot`", b"';reboot;'", b"'\"$(reboot)\"'", b"\\';reboot;\\'", b"|reboot", b"&reboot&",
          b"$'\\x27'", b"%s%n", b"--help", b"-", b"!reboot", b"~", b"''", b"x'\\''x", b"\\", b"\\\\'", b"$IFS",
          b"${x=y}", b">sprung", b"#x"]


def hostile(tally, room, trap):
    """Lines by hand that try to leave their quotes: each word comes as it stands in the file."""
    rows, bans, wanted, of_bans = [], [b"*ban - -"], [], []
    for place, trick in enumerate(TRICKS):
        handle, mask, channel = b"%d%s" % (place, trick), trick + b"!*@" + trick, b"#" + trick
        here = re.sub(rb"\\(?=[?*%~\\])", rb"\\\\", mask)
        rows += [handle + b" - o", b"--HOSTS " + mask, b"! " + channel + b" 0 o", b"--INFO " + trick + b" \x1b[2J"]
        wanted += [[b"adduser", handle], [b"addhost", handle, here], [b"global", handle, b"o"],
                   [b"chan", handle, channel, b"o"], [b"info", handle, trick + b" \x1b[2J"]]
        bans.append(b"- %d!*@x:+0*:+1:0:m%s:%s" % (place, trick, trick))
        of_bans += [[b"addban", b"*", b"%d!*@x" % place, b"m" + trick, b"0", trick],
                    [b"sticky", b"*", b"%d!*@x" % place, b"1"]]
    wanted += of_bans
    header = b"#4v: eggdrop v1.8.4 -- $(reboot)`reboot`'\r;reboot -- written x\n"
    Path(f"{room}/users").write_bytes(header + b"\n".join(rows + bans))
    Path(f"{room}/channels").write_bytes(b"#Dynamic Channel File for x\n" + b"".join(
        b"channel add {#%s} { need-op {%s} }\n" % (trick, trick) for trick in TRICKS if b"\\" not in trick))
    status, lines, _, named = written([f"{room}/users", f"{room}/channels"], room)
    folder = "it's $(reboot) a `folder`"
    for shell in shells():
        calls = trap.calls(shell, lines, folder) or []
        told = [call[2:] for call in calls if call[:2] == [b"tell", folder.encode()]]
        wrong = next((pair for pair in zip(told, wanted) if pair[0] != pair[1]), named[-200:])
        tally.note(f"hostile lines in {shell}: each word comes as it stands", status == 0 and told == wanted,
                   f"{len(told)} calls {wrong if told != wanted else ''}")
    tally.note("standard error has no control bytes", not re.search(r"[\x00-\x09\x0b-\x1f\x7f]", named))


PIECES = [b"'", b'"', b"`", b"$(", b")", b"\\", b";", b"\n", b"\r", b"\0", b" ", b":", b"*", b"!", b"@", b"reboot", b"x", b"-",
          b"|", b"\xff", b"\xc3\xa9", b"&", b"<", b">", b"#", b"%", b"{", b"}", b"\t", b"\x85", b"\xe2\x80\xa8", b"1", b"\\3a",
          b"$IFS"]
ROWS = [b"%s - ov", b"--HOSTS %s!%s@%s", b"--INFO %s", b"! #%s 0 o %s", b"::#%s bans", b"*ban - -",
        b"- %s!*@%s:+0*:+1:0:%s:%s", b"- *!%s@*:9999999999:%s:%s", b"%s", b"--BOTFL %s", b"%s - b"]


def some():
    """Some random pieces."""
    return b"".join(random.choices(PIECES, k=random.randrange(1, 5)))


def at_random(tally, room, trap, seed, rounds):
    """Random lines: each call has the form of a command, there are as many as the script says, and no trap is sprung."""
    bad, count = [], 0
    for number in range(rounds):
        random.seed(f"{seed} {number}")
        rows = [re.sub(b"%s", lambda _: some(), random.choice(ROWS)) for _ in range(60)]
        names = [b"channel add {#%s} { %s }" % (some(), some()) for _ in range(2)]
        Path(f"{room}/users").write_bytes(HEADER + b"\n".join(rows))
        Path(f"{room}/channels").write_bytes(b"#Dynamic Channel File for x\n" + b"\n".join(names))
        status, lines, text, named = written([f"{room}/users", f"{room}/channels"], room)
        if status == 1 and not text and "brace" in named:
            status, lines, text, named = written([f"{room}/users"], room)
        calls = trap.calls(random.choice(shells()), lines, "folder")
        said = re.search(r"(\d+) commands", (named.splitlines() or [""])[-1])
        well = calls is not None and said and len(calls) == int(said.group(1)) and all(
            call[:2] == [b"tell", b"folder"] and call[2] in COMMANDS for call in calls)
        count += len(calls or [])
        if status or not well:
            bad.append(number)
    tally.note(f"{rounds} files of random lines", not bad, f"{count} calls {bad or ''}")


def main():
    program, (rounds,) = program_of(sys.argv[1:]), counts_of(sys.argv[1:], 200)
    tally = Tally()
    with tempfile.TemporaryDirectory() as room:
        if shutil.which("eggdrop"):
            moves(tally, program, room, made_by_eggdrop(tally, room))
        else:
            tally.say("no Eggdrop here: apt-get install eggdrop")
        limits(tally, program, room)
        refusals(tally, room)
        trap = Trap(room)
        hostile(tally, room, trap)
        at_random(tally, room, trap, os.environ.get("SEED", "1"), rounds)
    return tally.end()


if __name__ == "__main__":
    sys.exit(main())
