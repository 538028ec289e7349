"""What .ci/pages and .ci/rows share: rows, each of commands with what they print, and the run of all of them by one program."""
import os, re, shutil, subprocess, sys, tempfile
from concurrent.futures import ThreadPoolExecutor
from pathlib import Path

program = os.path.abspath(sys.argv[1])


class Row:
    """Commands, each the words behind the program's name, and the files that they find in a folder of their own; the lines that they print one after
    the other, each with the status of its command (`..` stands for any lines, a pattern for what it matches); and the files, or their absence, in the
    end."""

    def __init__(self, name, commands, printed, files=(), left=()):
        self.name, self.commands, self.printed, self.files, self.left = name, commands, printed, dict(files), dict(left)

    def fault(self, beside=()):
        """What isn't as stated, if anything, in a folder with copies of these folders beside the files."""
        with tempfile.TemporaryDirectory() as room:
            for folder in beside:
                shutil.copytree(folder, Path(room, folder))
            for name, text in self.files.items():
                Path(room, name).write_bytes(text.encode())
            printed = [line for words in self.commands for line in ran(words, room)]
            if not fits(printed, self.printed):
                return f"{self.name}: {said(self.commands)} prints\n{shown(printed)}and not\n{shown(self.printed)}"
            for name, text in self.left.items():
                path = Path(room, name)
                held = path.read_bytes().decode(errors="replace") if path.exists() else None
                if held != text:
                    return f"{self.name}: behind {said(self.commands)} {name} holds\n{held}\nand not\n{text}"
        return None


def ran(words, folder):
    """The lines that the command prints, each with its status; what is printed otherwise is a line that no row wants. Where the last word is `>PATH`,
    its output goes there."""
    given = [it for it in words if it[:1] != ">"]
    with open(words[-1][1:] if given != words else os.devnull, "wb") as out:
        run = subprocess.run([program, *given], cwd=folder, stdout=out if given != words else subprocess.PIPE, stderr=subprocess.PIPE, timeout=300)
    *lines, rest = (run.stdout or b"").decode(errors="replace").split("\n")
    strange = [f"{rest} (no end of a line)"] * bool(rest) + [f"standard error: {run.stderr}"] * bool(run.stderr)
    return [(run.returncode, line) for line in lines + strange or ["(nothing)"]]


def fits(printed, wanted):
    any_line = [re.compile(".*")] * (len(printed) - len(wanted) + 1)
    pairs = [(status, it) for status, line in wanted for it in (any_line if line == ".." else [line])]
    return len(printed) == len(pairs) and all(
        ended == status and (it.fullmatch(line) if isinstance(it, re.Pattern) else it == line) for (ended, line), (status, it) in zip(printed, pairs))


def lines(status, text):
    """The lines of a text that ends with LF, each with this status."""
    return [(status, line) for line in text.split("\n")[:-1]]


def said(commands):
    return ", ".join(" ".join(["vcc", *words]) for words in commands)


def shown(printed):
    return "".join(f"{status}> {getattr(line, 'pattern', line)}\n" for status, line in printed)


def judge(what, rows, beside=()):
    """Runs all rows, says which aren't as stated, and ends with 1 if there is one."""
    with ThreadPoolExecutor() as pool:
        faults = [it for it in pool.map(lambda row: row.fault(beside), rows) if it]
    for fault in faults:
        print(f"{what}:", fault)
    print(f"{what}: {len(rows) - len(faults)} of {len(rows)} rows print what is stated")
    sys.exit(1 if faults else 0)
