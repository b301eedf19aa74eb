"""Runs the console blocks of the documents; see guide.sh.

    guide.py [PROGRAM ROOM]

Without a program, only the table of statuses is compared with what the blocks show.
"""
import fcntl
import os
import pathlib
import re
import shutil
import signal
import socket
import subprocess
import sys
import tempfile

DOCUMENTS = ("README.md", "docs/OPERATING.md", "consumers/README.md")
KEPT = ("README.md", "consumers", "docs", "examples", "scripts")
SECONDS = 240
MARK = "\x01"


class Step:
    """A command, all that it is to print, and where it stands."""

    def __init__(self, place, command, needs):
        self.place = place
        self.command = command
        self.needs = needs
        self.wanted = []


def steps_of(document):
    """The commands of a document's console blocks, in order."""
    steps, needs = [], None
    for number, line in enumerate(pathlib.Path(document).read_text().splitlines(), 1):
        if needs is None:
            if line == "```console" or line.startswith("```console "):
                needs = line.split()[2:]
        elif line == "```":
            needs = None
        elif line.startswith("$ "):
            steps.append(Step(f"{document}:{number}", line[2:], needs))
        elif line.startswith("> ") or line == ">":
            steps[-1].command += "\n" + line[2:]
        else:
            steps[-1].wanted.append(line)
    return steps


def missing(step, commands):
    """The first tool that a step needs and that isn't there, or command of the program, as cdc-run."""
    return next((tool for tool in step.needs if tool not in commands and shutil.which(tool) is None), None)


def commands_of(program):
    """The commands that a program has, each as cdc-run."""
    told = subprocess.run([program, "--help"], capture_output=True, text=True, timeout=SECONDS).stdout
    return {f"cdc-{name}" for name in re.findall(r"^cdc ([a-z]+) ", told, re.M)}


def script_of(steps):
    """The commands as one script, with a mark and the step's number before what each prints."""
    lines = []
    for number, step in enumerate(steps):
        lines += [f"printf '{MARK}%d\\n' {number}", step.command]
    return "\n".join(lines + [f"printf '{MARK}\\n'", ""])


def run(document, program, room):
    """Runs a document's commands; the number of those that print something else."""
    steps, commands = steps_of(document), commands_of(program)
    for tool, places in by_tool(steps, commands).items():
        print(f"guide: skipped: no {tool}: {' '.join(places)}")
    steps = [step for step in steps if missing(step, commands) is None]
    taken = port_taken(steps)
    if taken:
        print(f"guide: {document} is skipped: port {taken} is taken")
        return 0
    place = room / document.replace("/", "_")
    copy, home = place / "cdc", place / "home"
    for name in KEPT:
        (shutil.copytree if os.path.isdir(name) else shutil.copy)(name, prepared(copy) / name)
    shutil.copy(program, prepared(copy / "crates/cdc_prog/out") / "cdc_prog")
    prepared(home)
    script = place / "script"
    script.write_text(script_of(steps))
    words = {**os.environ, "HOME": str(home), "LC_ALL": "C.UTF-8", "TMPDIR": str(prepared(place / "tmp"))}
    shell = subprocess.Popen(["bash", str(script)], cwd=copy, env=words, stdin=subprocess.DEVNULL, stdout=subprocess.PIPE,
                             stderr=subprocess.STDOUT, start_new_session=True)
    try:
        told = shell.communicate(timeout=SECONDS)[0]
    except subprocess.TimeoutExpired:
        os.killpg(shell.pid, signal.SIGKILL)
        told = shell.communicate()[0]
        print(f"guide: {document} takes more than {SECONDS} seconds")
    finally:
        try:
            os.killpg(shell.pid, signal.SIGKILL)   # what a command left in the background
        except ProcessLookupError:
            pass
    return compared(steps, told.decode(errors="replace"), document)


def prepared(folder):
    """The folder, made where it is missing."""
    folder.mkdir(parents=True, exist_ok=True)
    return folder


def by_tool(steps, commands):
    """The places of steps that can't be run, by the tool that is missing."""
    places = {}
    for step in steps:
        tool = missing(step, commands)
        if tool:
            places.setdefault(tool, []).append(step.place)
    return places


def port_taken(steps):
    """The first port of this machine that a command names and something listens on."""
    for port in sorted({port for step in steps for port in re.findall(r"127\.0\.0\.1:(\d{4,5})", step.command + "\n".join(step.wanted))}):
        with socket.socket() as trial:
            trial.setsockopt(socket.SOL_SOCKET, socket.SO_REUSEADDR, 1)
            try:
                trial.bind(("127.0.0.1", int(port)))
            except OSError:
                return port
    return None


def compared(steps, told, document):
    """Prints where something else was printed than stands below the command."""
    pieces = dict(re.findall(rf"{MARK}(\d+)\n(.*?)(?={MARK})", told, re.S))
    wrong = 0
    for number, step in enumerate(steps):
        wanted = "".join(line + "\n" for line in step.wanted)
        found = pieces.get(str(number))
        if found != wanted:
            wrong += 1
            print(f"guide: {step.place}: $ {step.command}\n  wanted:\n{indented(wanted)}\n  found:\n{indented(found)}")
    if not wrong:
        print(f"guide: {document}: {len(steps)} commands print what stands there")
    return wrong


def indented(text):
    return "    (not run)" if text is None else "\n".join("    " + line for line in text.splitlines())


def unmet_statuses():
    """The rows of OPERATING's table of statuses whose line no shown command prints, but those that say that none can."""
    guide = "docs/OPERATING.md"
    shown = {(line, status) for step in steps_of(guide) for line, status in zip(step.wanted, step.wanted[1:])}
    unmet = []
    for row in re.findall(r"^\| (\d) \| `(cdc: [^`]+)` \|(.*)$", pathlib.Path(guide).read_text(), re.M):
        status, line, rest = row
        pattern = re.sub(r"FAULT|[A-Z]{3,}|\bN\b", lambda word: r".+" if word[0] == "FAULT" else r"\S+", re.escape(line).replace(r"\ ", " "))
        if "no command shows it" not in rest and not any(re.fullmatch(pattern, said) and told == f"status {status}" for said, told in shown):
            unmet.append(f"{status} {line}")
    return unmet


def alone():
    """Waits for another run of the guide on this machine, since the documents name a port; the lock is held to the end."""
    path = os.path.join(tempfile.gettempdir(), "cdc-guide.lock")
    try:
        lock = os.open(path, os.O_RDONLY) if os.path.exists(path) else os.open(path, os.O_RDONLY | os.O_CREAT, 0o644)
        fcntl.flock(lock, fcntl.LOCK_EX)
    except OSError:
        pass


def main(words):
    wrong = 0
    os.environ["PATH"] = os.environ.get("PATH", "") + ":/usr/sbin:/sbin"   # where Debian has servers
    for row in unmet_statuses():
        wrong += 1
        print(f"guide: docs/OPERATING.md: no command shows status {row}")
    if words:
        alone()
        for document in DOCUMENTS:
            wrong += run(document, words[0], pathlib.Path(words[1]))
    return 1 if wrong else 0


if __name__ == "__main__":
    sys.exit(main(sys.argv[1:]))
