#!/usr/bin/env python3
"""Changes streams of sealed records at random, and looks what a reader hands on.

    trials/records.py [PROGRAM] [COUNT]      100,000 changed streams if it isn't said

PROGRAM is a built `vectors`, or ours. Each stream has some records of frames and heartbeats. In it bits are flipped, bytes are
cut out, cut off or put in, and records are swapped, repeated, dropped, or taken from another direction or connection. It comes
in random pieces. What the reader hands on is a front of what was sealed, whole records alone; and it is what another reader,
written in Python (sealed.py), hands on, with the same fault. SEED chooses the streams.
The last line is 'N well, M bad'; the status is 1 where any is bad.
"""
import os
import random
import subprocess
import sys

sys.dont_write_bytecode = True
from bots import TOP, Tally, counts_of
from sealed import BEAT, FRAMES, Opener, Sealer

KEY, OTHER = b"a key of one direction", b"a key of the other direction"


def sealed():
    """Some records, each with what it carries."""
    one, other, records, strange = Sealer(KEY), Sealer(OTHER), [], []
    for _ in range(random.randint(1, 5)):
        kind = random.choice([FRAMES, FRAMES, BEAT])
        content = random.randbytes(random.choice([1, 3, 27, 60, 400]))
        records.append((one.seal(content, kind), kind, content))
        strange.append(other.seal(content, kind))
    return records, strange


def changed(records, strange):
    """The stream of the records, changed in some way. None of its records are as they were from some place on."""
    parts = [record for record, _, _ in records]
    act = random.choice(["flip", "flip", "flips", "cut", "end", "put", "swap", "repeat", "drop", "strange", "later"])
    place = random.randrange(len(parts))
    if act == "swap" and len(parts) > 1:
        other = random.choice([it for it in range(len(parts)) if it != place])
        parts[place], parts[other] = parts[other], parts[place]
    elif act == "repeat":
        parts.insert(random.randint(place + 1, len(parts)), parts[place])
    elif act == "drop":
        del parts[place]
    elif act == "strange":
        parts[place] = strange[place]
    elif act == "later":
        # (the same content, sealed under the right key at another count)
        parts[place] = Sealer(KEY, random.randint(len(parts), 2 ** 40)).seal(records[place][2], records[place][1])
    stream = bytearray(b"".join(parts))
    if act in ("flip", "flips"):
        for _ in range(1 if act == "flip" else random.randint(2, 9)):
            stream[random.randrange(len(stream))] ^= 1 << random.randrange(8)
    elif act == "cut":
        start = random.randrange(len(stream))
        del stream[start:start + random.randint(1, 40)]
    elif act == "end":
        del stream[random.randrange(len(stream)):]
    elif act == "put":
        place = random.randrange(len(stream) + 1)
        stream[place:place] = random.randbytes(random.randint(1, 40))
    return bytes(stream)


def in_pieces(stream):
    pieces = []
    while stream:
        length = random.choice([1, 2, 7, 30, 500, len(stream)])
        pieces.append(stream[:length])
        stream = stream[length:]
    return pieces


def expected(pieces):
    """The answer of `vectors`, by the other reader, and the bodies that it hands on."""
    opener, said, all_bodies, failed = Opener(KEY), [], [], False
    for piece in pieces:
        if failed:
            said.append("failed")
            continue
        bodies = opener.feed(piece)
        all_bodies += bodies
        parts = []
        for name, kind in (("frames", FRAMES), ("beats", BEAT)):
            carried = b"".join(body[1:] for body in bodies if body[0] == kind)
            parts += [f"{name} {carried.hex()}"] if carried else []
        if opener.fault:
            parts.append(f"bad {opener.fault}")
            failed = True
        said.append(", ".join(parts) or "none")
    return " ; ".join(said), all_bodies


def answers_of(program, cases):
    """What the program answers, which takes at most 1 MiB in one run. None where it does not end well."""
    heard, batch, size = [], [], 0
    for case in [*cases, None]:
        if batch and (case is None or size + len(case) > 2 ** 19):
            ran = subprocess.run([program], input="\n".join(batch).encode() + b"\n", stdout=subprocess.PIPE, check=False)
            if ran.returncode != 0:
                return None
            heard += ran.stdout.decode().splitlines()
            batch, size = [], 0
        batch.append(case)
        size += len(case or "") + 1
    return heard


def main():
    tally, words = Tally(), sys.argv[1:]
    named = [word for word in words if not word.isdigit()]
    program = os.path.abspath(named[0]) if named else str(TOP / "crates/vectors/out/vectors")
    count, seed = counts_of(words, 100_000)[0], int(os.environ.get("SEED", "1"))
    random.seed(seed)
    cases, answers, forged, whole, faults = [], [], 0, 0, {}
    while len(cases) < count:
        records, strange = sealed()
        pieces = in_pieces(changed(records, strange))
        if not pieces:
            continue
        answer, bodies = expected(pieces)
        forged += bodies != [bytes([kind]) + content for _, kind, content in records[:len(bodies)]]
        whole += len(bodies)
        fault = next((it for it in ("bad tag", "bad length") if it in answer), "none")
        faults[fault] = faults.get(fault, 0) + 1
        cases.append(" ".join([f"open '{KEY.decode()}'", *(f"x:{piece.hex()}" for piece in pieces)]))
        answers.append(answer)
    heard = answers_of(program, cases) or []
    differ = [place for place, (one, other) in enumerate(zip(heard, answers)) if one != other]
    tally.note(f"{len(cases)} changed streams are answered", len(heard) == len(cases), f"{len(heard)} answers")
    tally.note("both readers hand on the same, with the same fault", not differ and len(heard) == len(cases),
               f"{faults} {[(cases[it][:300], heard[it], answers[it]) for it in differ[:1]] or ''}")
    tally.note("nothing but a front of what was sealed", forged == 0, f"{whole} records handed on, {forged} forged")
    return tally.end()


if __name__ == "__main__":
    sys.exit(main())
