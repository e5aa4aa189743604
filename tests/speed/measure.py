#!/usr/bin/env python3
"""Times crates/speed against reference.rs, a program in ordinary Rust, on logs of 128 whole operations with a scan after each.

    (cd crates/speed && rt run < stdin > /dev/null)   proves and builds our program
    python3 tests/speed/measure.py                    prints, for each log and each type of its small numbers, both times of a pass and their ratio
    python3 tests/speed/measure.py --store            stores crates/speed/stdin, and the reference's output for it in crates/speed/stdout

Both must print the same answers and rows before anything is timed. A time is that of many passes less that of one, over the passes, so that
starting, reading and printing do not count. The two programs take turns; a time is the median of the rounds, the ratio that of their ratios.
Needs Python 3.8 and rustc.
"""
import statistics
import subprocess
import sys
import tempfile
import time
from pathlib import Path

ROOT = Path(__file__).resolve().parents[2]
CRATE = ROOT / "crates" / "speed"
WRITERS, KEYS, GROUPS, OPERATIONS = 16, 32, 8, 128
PASSES, ROUNDS = 20_000, 9


def leb128(number):
    code = bytearray()
    while number >= 128:
        code.append(128 + number % 128)
        number //= 128
    code.append(number)
    return bytes(code)


def whole_operation(writer, number):
    """The records of an operation from its start to its commit: every eighth removes a key that an earlier one put."""
    key = 5 * number % KEYS
    if number % 8 == 7:
        start = (writer, 2, 5 * (number - 4) % KEYS)
    else:
        start = (writer, 1, key, 10**15 * number, key % GROUPS)
    rest = [field for kind in range(3, 9) for field in (writer, kind)]
    return b"".join(map(leb128, [*start, *rest]))


def log(writers):
    """OPERATIONS operations one after another, by so many writers in turn."""
    return b"".join(whole_operation(n % writers, n) for n in range(OPERATIONS))


def output(program, passes, steps):
    return subprocess.run([program], input=leb128(passes) + steps, stdout=subprocess.PIPE, check=True).stdout


def seconds(program, passes, steps):
    begin = time.perf_counter()
    output(program, passes, steps)
    return time.perf_counter() - begin


def pass_time(program, steps):
    """The microseconds of one pass."""
    return 1e6 * (seconds(program, PASSES, steps) - seconds(program, 1, steps)) / (PASSES - 1)


def measure(ours, reference, kind):
    for writers in (1, WRITERS):
        steps = log(writers)
        if output(ours, 2, steps) != output(reference, 2, steps):
            sys.exit(f"writers {writers}: the programs print different answers or rows")
        times = [(pass_time(ours, steps), pass_time(reference, steps)) for _ in range(ROUNDS)]
        our_time, reference_time = (statistics.median(column) for column in zip(*times))
        ratio = statistics.median(a / b for a, b in times)
        print(f"writers {writers}: {our_time:.1f} us a pass, in Rust with {kind} {reference_time:.1f} us, ratio {ratio:.2f}")


def compiled(folder, name, *flags):
    program = str(Path(folder) / name)
    source = str(Path(__file__).with_name("reference.rs"))
    subprocess.run(["rustc", "--edition", "2021", "-O", "--check-cfg", "cfg(small)", *flags, "-o", program, source], check=True)
    return program


def main():
    with tempfile.TemporaryDirectory() as folder:
        plain = compiled(folder, "plain")
        if sys.argv[1:] == ["--store"]:
            (CRATE / "stdin").write_bytes(leb128(2) + log(WRITERS))
            (CRATE / "stdout").write_bytes(output(plain, 2, log(WRITERS)))
        else:
            ours = str(CRATE / "out" / "speed")
            measure(ours, plain, "usize")
            measure(ours, compiled(folder, "small", "--cfg", "small"), "u8")


main()
