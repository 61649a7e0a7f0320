#!/usr/bin/env python3
"""Registers a client with random servers, and compares what it says with what Python's own hashlib and hmac say.

    trials/registrations.py [PROGRAM] [EXCHANGES] [TALKS]      600 exchanges and 6,000 talks if it isn't said

PROGRAM is a built `vectors`, or ours. An exchange is a login by SCRAM-SHA-256 or SCRAM-SHA-512 with a random account, salt
and number of iterations, with a server that keeps to RFC 5802 or breaks it in one place: a foreign nonce, too few or too
many iterations, a salt or a message that cannot be read, a signature of another password, cut off, with one bit flipped or
left out. Each message of the client is compared with Python's, each piece of it too, and so is the fault. A talk is random
lines to a client; its lines are looked at for what must never be among them. SEED chooses all of it.
The last line is 'N well, M bad'; the status is 1 where any is bad.
"""
import base64
import hashlib
import hmac
import os
import random
import sys

sys.dont_write_bytecode = True
from bots import TOP, Tally, counts_of
from records import answers_of

PRINTABLE = bytes(range(32, 127))
NAMES = {"sha256": "SCRAM-SHA-256", "sha512": "SCRAM-SHA-512"}
BREAKS = ["nothing", "nothing", "nothing", "extensions", "nonce", "own nonce alone", "few", "one", "many", "zeros", "huge", "salt", "unreadable",
          "extension first", "base64", "other password", "flip", "cut", "longer", "error", "early", "no final", "rejected"]


def b64(text):
    return base64.b64encode(text)


def pieces(message):
    """The lines of a message."""
    text = b64(message).decode()
    parts = [text[place:place + 400] for place in range(0, len(text), 400)]
    if not parts or len(parts[-1]) == 400:
        parts.append("+")
    return [f"AUTHENTICATE {part}" for part in parts]


def word(text):
    return "x:" + (text.encode() if isinstance(text, str) else text).hex()


def says(lines, over=False):
    return "says" + "".join(f" '{line}'" for line in lines) + (" over" if over else "")


class Exchange:
    """One exchange: the lines of the server, and what the client must answer."""

    def __init__(self):
        self.hash = random.choice(list(NAMES))
        # ("-" says in a case that no account is wanted)
        self.name = bytes(random.choices(PRINTABLE + b"==,,", k=random.choice([1, 5, 9, 255]))).replace(b"-", b"_")
        self.password = bytes(random.choices(PRINTABLE, k=random.choice([1, 8, 20, 64, 65, 130, 255])))
        self.nonces = {"sha512": random.randbytes(15), "sha256": random.randbytes(15)}
        self.salt = random.randbytes(random.choice([0, 1, 8, 16, 33, 300]))
        self.count = random.choice([4096, 4096, random.randint(4096, 4300)])
        self.broken = random.choice(BREAKS)
        self.lines, self.answers = [], []

    def put(self, line, answer):
        self.lines.append(line)
        self.answers.append(answer)

    def play(self):
        own = b64(self.nonces[self.hash])
        bare = b"n=" + self.name.replace(b"=", b"=3D").replace(b",", b"=2C") + b",r=" + own
        self.put(f":s CAP * LS * :batch{random.choice(['', ' sasl=PLAIN'])} sasl=", "none")
        self.lines[-1] = ":s CAP * LS * :batch cap-notify"
        self.put(f":s CAP * LS :multi-prefix sasl=ECDSA,{NAMES[self.hash]},PLAIN", says(["CAP REQ :sasl"]))
        self.put(":s CAP egg0 ACK :sasl", says([f"AUTHENTICATE {NAMES[self.hash]}"]))
        self.put("AUTHENTICATE +", says(pieces(b"n,," + bare)))
        self.first(own, bare)
        return self

    def first(self, own, bare):
        """The server's first message."""
        count = {"few": 4095, "one": 1, "many": 600_001, "huge": 2 ** 32}.get(self.broken, self.count)
        nonce = {"nonce": b"x" + own, "own nonce alone": own}.get(self.broken, own + bytes(random.choices(PRINTABLE.replace(b",", b""), k=20)))
        salt = {"salt": b"!" + b64(self.salt)}.get(self.broken, b64(self.salt))
        message = b"r=" + nonce + b",s=" + salt + b",i=" + (b"0" if self.broken == "zeros" else b"") + str(count).encode()
        message = {"unreadable": message[1:], "extension first": b"m=ext," + message, "extensions": message + b",x=1"}.get(self.broken, message)
        fault = {"nonce": "ForeignNonce", "few": "TooFewIterations", "one": "TooFewIterations", "many": "TooManyIterations", "salt": "BadSalt",
                 "unreadable": "Unreadable", "extension first": "Unreadable", "zeros": "Unreadable", "huge": "Unreadable"}.get(self.broken)
        if self.broken == "early":
            return self.put(":s 903 egg0 :done", "Unproven")
        if self.broken == "rejected":
            return self.put(":s 904 egg0 :no", "Rejected")
        lines = pieces(message)
        if self.broken == "base64":
            lines, fault = ["AUTHENTICATE " + b64(message).decode()[:61] + "*"], "BadChallenge"
        for line in lines[:-1]:
            self.put(line, "none")
        if fault:
            return self.put(lines[-1], fault)
        return self.final(bare, message, nonce, lines[-1])

    def final(self, bare, message, nonce, line):
        """The client's final message, and the server's."""
        without = b"c=biws,r=" + nonce
        auth = b",".join([bare, message, without])
        salted = hashlib.pbkdf2_hmac(self.hash, self.password, self.salt, self.count)
        client_key = hmac.digest(salted, b"Client Key", self.hash)
        signature = hmac.digest(hashlib.new(self.hash, client_key).digest(), auth, self.hash)
        proof = bytes(one ^ other for one, other in zip(client_key, signature))
        self.put(line, says(pieces(without + b",p=" + b64(proof))))
        if self.broken == "other password":
            salted = hashlib.pbkdf2_hmac(self.hash, self.password + b"x", self.salt, self.count)
        shown = bytearray(hmac.digest(hmac.digest(salted, b"Server Key", self.hash), auth, self.hash))
        if self.broken == "flip":
            shown[random.randrange(len(shown))] ^= 1 << random.randrange(8)
        elif self.broken == "cut":
            shown = shown[:random.choice([0, 3, 9, len(shown) - 2])]
        elif self.broken == "longer":
            shown += b"\0"
        said = b"e=invalid-proof" if self.broken == "error" else b"v=" + b64(bytes(shown))
        if self.broken == "no final":
            return self.put(":s 903 egg0 :done", "Unproven")
        said += b",x=more" if self.broken == "extensions" else b""
        lines = pieces(said)
        if self.broken in ("other password", "flip", "cut", "longer", "error"):
            return self.put(lines[-1], "ServerError" if self.broken == "error" else "WrongSignature")
        self.put(lines[-1], says(["AUTHENTICATE +"]))
        return self.put(":s 903 egg0 :done", says(["CAP END"], over=True))

    def case(self):
        return " ".join(["register", word(self.name), word(self.password), "wsp", "open", "-", word(self.nonces["sha512"]), word(self.nonces["sha256"]),
                         *(word(line) for line in self.lines)])


LINES = [":s CAP * LS :sasl multi-prefix", ":s CAP * LS * :chghost", ":s CAP * LS :sasl=PLAIN,EXTERNAL account-notify", ":s CAP * LS :", ":s CAP x ACK :sasl",
         ":s CAP x ACK :multi-prefix", ":s CAP x NAK :sasl", ":s CAP x NAK :multi-prefix", ":s CAP x NEW :sasl", ":s CAP x DEL :sasl", "AUTHENTICATE +",
         "AUTHENTICATE abcd", "AUTHENTICATE " + "a" * 400, ":s 903 x :ok", ":s 900 x m a :in", ":s 904 x :no", ":s 902 x :no", ":s 907 x :no", ":s 908 x PLAIN,EXTERNAL :are",
         ":s 421 x CAP :?", ":s 433 * x :used", "PING :1", ":s NOTICE * :hi", ":s 001 x :hi"]
COMMON = [":s CAP * LS :sasl multi-prefix", ":s CAP x ACK :multi-prefix", ":s CAP x ACK :sasl", "AUTHENTICATE +", ":s 904 x :no", ":s 903 x :ok"]


def talk():
    """A case of random lines, and whether the client is to log in, on a private connection, with which secret."""
    account, private = random.random() < 0.8, random.random() < 0.5
    lines = [random.choice(COMMON if random.random() < 0.7 else LINES[:-1]) for _ in range(random.randint(1, 14))] + LINES[-1:]
    words = ["register", "ann" if account else "-", "passw0rd", "".join(it for it in "wsep" if random.random() < 0.7) or "-", "private" if private else "open",
             random.choice(["-", "m", "amc"]), word(random.randbytes(15)), word(random.randbytes(15)), *(word(line) for line in lines)]
    return " ".join(words), account, private, lines


def look(answer, account, private, lines):
    """What must not be in an answer, and is."""
    said = [it.split(" '")[1:] for it in answer.split(" ; ")]
    flat = [line.split("'")[0] for step in said for line in step]
    secret = b64(b"\0ann\0passw0rd").decode()
    ends = [place for place, step in enumerate(said) if any(line.startswith("CAP END") for line in step)]
    named = [line for line in flat if line.startswith("AUTHENTICATE ") and line.split()[1] in [*NAMES.values(), "EXTERNAL", "PLAIN"]]
    if len(ends) > 1:
        return "CAP END twice"
    if ends and account and " 903 " not in lines[ends[0]]:
        return "CAP END before 903"
    if not private and any(secret in line or line == "AUTHENTICATE PLAIN" for line in flat):
        return "the password on an open connection"
    if len(named) != len(set(named)):
        return "a mechanism twice"
    if any(len(line) > 510 for line in flat):
        return "a line too long"
    return None


def main():
    tally, words = Tally(), sys.argv[1:]
    named = [it for it in words if not it.isdigit()]
    program = os.path.abspath(named[0]) if named else str(TOP / "crates/vectors/out/vectors")
    exchanges, talks = counts_of(words, 600, 6000)
    random.seed(int(os.environ.get("SEED", "1")))
    played = [Exchange().play() for _ in range(exchanges)]
    heard = answers_of(program, [it.case() for it in played]) or []
    differ = [(it.broken, one, " ; ".join(it.answers)) for it, one in zip(played, heard) if one != " ; ".join(it.answers)]
    ways = {way: sum(it.broken == way for it in played) for way in dict.fromkeys(BREAKS)}
    tally.note(f"{exchanges} exchanges are answered as Python answers them", not differ and len(heard) == exchanges, f"{len(heard)} answers {differ[:1] or ways}")
    cases = [talk() for _ in range(talks)]
    heard = answers_of(program, [case for case, *_ in cases]) or []
    bad = [(why, it[0], one) for it, one in zip(cases, heard) if (why := look(one, *it[1:]))]
    ended = sum("CAP END" in one for one in heard)
    tally.note(f"{talks} talks have nothing that must not be there", not bad and len(heard) == talks, f"{ended} of them end well {bad[:1] or ''}")
    return tally.end()


if __name__ == "__main__":
    sys.exit(main())
