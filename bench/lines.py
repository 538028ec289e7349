#!/usr/bin/env python3
"""lines.py FOLDER: measures each line of docs/PERFORMANCE.md, "Speed", by the programs of bench/build.sh FOLDER, and prints it.

Each is run three times, and the least is taken: user seconds of one core, and the most memory that was held. Inputs are written into
FOLDER/in. The machine should do nothing else meanwhile."""
import resource
import subprocess
import sys
from pathlib import Path

TOP = Path(__file__).resolve().parent.parent
FOLDER = Path(sys.argv[1]).resolve()
INPUTS = FOLDER / "in"


def input_file(kind, size, ending):
    """The input of this kind and size, written once."""
    path = INPUTS / f"{kind}-{size}.{ending}"
    if not path.exists():
        with path.open("w") as out:
            subprocess.run([sys.executable, TOP / "bench/inputs.py", kind, str(size)], stdout=out, check=True)
    return path


def user_seconds():
    """Those of all runs so far."""
    return resource.getrusage(resource.RUSAGE_CHILDREN).ru_utime


def run(program, *words):
    """The least user seconds of three runs, and the most memory in MB."""
    seconds, memory = [], []
    for _ in range(3):
        start = user_seconds()
        ran = subprocess.run(["/usr/bin/time", "-f", "%M", program, *map(str, words)], stdout=subprocess.DEVNULL, stderr=subprocess.PIPE, check=True)
        seconds.append(user_seconds() - start)
        memory.append(int(ran.stderr.split()[-1]) / 1024)
    return min(seconds), max(memory)


def measure(*words):
    return run(FOLDER / "measure", *words)


def show(line, text):
    print(f"{line}: {text}", flush=True)


def terms():
    for count in (131_072, 262_144, 524_288, 1_048_576):
        seconds, memory = measure("terms", count)
        show(f"terms, {count} new and again", f"{2 * count / seconds / 1e6:.2f} million a second, {memory:.0f} MB")


def linear():
    for literals, width, times in ((2, 4, 20_000), (4, 4, 8_000), (6, 4, 4_000), (8, 4, 2_000), (10, 4, 1_500), (4, 8, 3_000), (4, 16, 1_000)):
        seconds, memory = measure("linear", literals, width, times)
        show(f"linear, {literals} literals of sums of {width}",
             f"{literals * times / seconds / 1e6:.2f} million literals a second, {seconds / times * 1e6:.1f} us a step, {memory:.0f} MB")


def certificates():
    for size in (16, 32, 64):
        path = input_file("certificate", size, "cert")
        megabytes = path.stat().st_size / 1e6
        for words in (("whole", path), ("pieces", path, 65_536), ("pieces", path, 4_096)):
            seconds, memory = measure(*words)
            show(f"reading {size} MiB, {words[0]} {words[2] if words[2:] else ''}", f"{megabytes / seconds:.0f} MB a second, {memory:.0f} MB held")


def refutation():
    for height, times in ((12_500, 8), (25_000, 4), (50_000, 2)):
        start, _ = measure("refutation", height, 0)
        seconds, memory = measure("refutation", height, times)
        plain, held = run(FOLDER / "check", height, times)
        nothing, _ = run(FOLDER / "check", height, 0)
        ours, theirs = (seconds - start) / times, (plain - nothing) / times
        show(f"refutation of {2 * height + 6} steps", f"{ours:.3f} s, {memory:.0f} MB; in C {theirs:.3f} s, {held:.0f} MB; ratio {ours / theirs:.1f}")


def conditions():
    for kind, sizes in (("copies", (5, 10, 25, 50)), ("function", (200, 400, 800, 1_600))):
        for size in sizes:
            seconds, memory = measure("conditions", input_file(kind, size, "c"))
            show(f"conditions, {kind} {size}", f"{seconds:.3f} s with reading, {memory:.0f} MB")


def program():
    for path, name in ((TOP / "examples/lock.c", "lock"), *((input_file("copies", size, "c"), f"{size} copies") for size in (5, 10, 25, 50))):
        cert = INPUTS / f"{path.stem}.cert"
        seconds, memory = run(FOLDER / "vcc", "verify", path, cert)
        show(f"verify, {name}", f"{seconds:.2f} s, {memory:.0f} MB, {cert.stat().st_size} bytes of certificate")
        seconds, memory = run(FOLDER / "vcc", "check", path, cert)
        show(f"check, {name}", f"{seconds:.3f} s, {memory:.0f} MB")


INPUTS.mkdir(parents=True, exist_ok=True)
subprocess.run(["cc", "-O2", "-o", FOLDER / "check", TOP / "bench/check.c"], check=True)
for part in (terms, linear, certificates, refutation, conditions, program):
    part()
