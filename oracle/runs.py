"""Runs of `ccscript` over the crate and of the port's, and the reckoning beside them and, for lengths, within the crate's."""
import os, subprocess
import reckoning, scripts

HERE = os.path.dirname(os.path.abspath(__file__))
ROOT = os.path.dirname(HERE)
CRATE = [os.path.join(HERE, "target/release/ccscript")]
RUN = os.path.join(ROOT, "run")
PORT = [RUN, "--built", "ccscript"]
# Scripts are run many at a time, each behind the operations that make everything fresh.
FRESH = [("b", 1), ("k", 0), ("R",), ("W",), ("X",), ("Y", 0, 0)]


def lines(program, script):
    """What a program prints for a script, and how it ends; one that breaks off differs from one that ends."""
    run = subprocess.run(program, input=b"".join(map(scripts.encode, script)), capture_output=True)
    return run.stdout.decode().split("\n")[:-1] + [f"exit {run.returncode}"]


def finer(op, line):
    """A line over the crate, in which a wrong length of a packet or a block has its own number and its offset, which the crate does not
    tell: the reckoning's, if that has the same two lengths. If not, the line stays as it is, and is like none of the port's."""
    if not line.startswith("refused 13-15 "):
        return line
    number, expected, actual, offset = reckoning.length_refusal(scripts.encode(op)[3:])
    return f"refused {number} {expected} {actual} {offset}" if line == f"refused 13-15 {expected} {actual}" else line


def crate_lines(script):
    """What `ccscript` over the crate prints for a script, with the finer numbers."""
    told = lines(CRATE, script)
    return [finer(op, line) for op, line in zip(script, told)] + told[len(script) :]


def reckoned(script):
    """What the reckoning says that a script prints, and that it ends."""
    records = [scripts.encode(op)[3:] for op in script]
    return [*reckoning.answers(records), f"end {len(records)}", "exit 0"]


def written(several, program=CRATE):
    """For each of several scripts the frames that it writes by a program."""
    whole = [op for script in several for op in FRESH + script]
    answers = iter(zip(whole, lines(program, whole)))
    for script in several:
        for _ in FRESH:
            next(answers)
        told = [next(answers) for _ in script]
        texts = [line.split(" ") for op, line in told if op[0] == "w" and line.startswith("ok")]
        yield [bytes.fromhex(out)[: int(count)] for _, count, out in texts]
