"""What tools/examples, tools/tutorial and tools/editors share: sessions, how they are run, how texts are compared.

A session is a text of commands with what each one prints: a line `$ COMMAND` for the shell, the lines that it prints,
and an empty line in front of the next command. Commands are run in a folder of their own, in which `./seuss` is the
program that is tried and `examples` the folder of the examples.

The status of a command has to be the one that the last line of its output stands for (the table in README.md).
"""
import difflib
import os
import shlex
import subprocess
import sys
import tempfile

TOP = os.path.dirname(os.path.dirname(os.path.abspath(__file__)))
EXAMPLES = os.path.join(TOP, "examples")
LIMIT = 600  # seconds for one command; the launcher compiles the program where it isn't proved

STATUSES = {"trapped": 1, "spent": 2, "refused": 3, "usage": 4}


def read(path):
    with open(path, encoding="utf-8") as file:
        return file.read()


def write(path, text):
    with open(path, "w", encoding="utf-8") as file:
        file.write(text)


def arguments(usage):
    """Whether to check only, and the path of the program: the words of a script's command line."""
    words = sys.argv[1:]
    check = "--check" in words
    words = [word for word in words if word != "--check"]
    program = os.path.abspath(words[0]) if words else os.path.join(TOP, "seuss")
    if len(words) > 1 or any(word.startswith("-") for word in words):
        refuse(usage)
    if not os.path.isfile(program) or not os.access(program, os.X_OK):
        refuse(f"{program} is no program")
    return check, program


def refuse(text):
    """Ends the script with 2: its words are wrong, or what it stands on isn't there."""
    print(text, file=sys.stderr)
    sys.exit(2)


class Folder:
    """A folder in which commands are run, with `./seuss` and `examples` in it."""

    def __init__(self, program):
        self.made = tempfile.TemporaryDirectory(prefix="seuss-")
        self.path = self.made.name
        launcher = os.path.join(self.path, "seuss")
        write(launcher, f'#!/bin/sh\nexec {shlex.quote(program)} "$@"\n')
        os.chmod(launcher, 0o755)
        os.symlink(EXAMPLES, os.path.join(self.path, "examples"))

    def __enter__(self):
        return self

    def __exit__(self, *_):
        self.made.cleanup()

    def save(self, name, text):
        write(os.path.join(self.path, name), text)

    def run(self, command):
        """What a command prints, and a word on its status where that isn't the one that its output stands for."""
        try:
            done = subprocess.run(["sh", "-c", command], cwd=self.path, stdin=subprocess.DEVNULL,
                                  capture_output=True, timeout=LIMIT, check=False)
        except subprocess.TimeoutExpired:
            return "", f"no end within {LIMIT} seconds"
        text = done.stdout.decode("utf-8", "replace")
        last = text.splitlines()[-1] if text else ""
        wanted = STATUSES.get(last.split(" ")[0], 0)
        if done.returncode == wanted:
            return text, None
        said = done.stderr.decode("utf-8", "replace").strip()
        return text, f"status {done.returncode} where {wanted} is wanted" + (f": {said}" if said else "")


def commands(text):
    """The commands of a session."""
    return [line[2:] for line in text.splitlines() if line.startswith("$ ")]


def played(text, folder):
    """The session as it is when its commands are run, and what is wrong with their statuses."""
    made, wrong = [], []
    for command in commands(text):
        said, fault = folder.run(command)
        made.append(f"$ {command}\n{said}")
        if fault:
            wrong.append(f"$ {command}: {fault}")
    return "\n".join(made), wrong


def differences(name, wanted, found):
    """The lines in which two texts differ, as a diff."""
    return list(difflib.unified_diff(wanted.splitlines(), found.splitlines(), f"{name}, as it stands",
                                     f"{name}, as it has to be", lineterm=""))


def settle(check, path, wanted, found, wrong):
    """Tells the differences, or writes the text where it isn't only checked; whether all is well."""
    name = os.path.relpath(path, TOP)
    for word in wrong:
        print(f"{name}: {word}")
    if wanted == found:
        return not wrong
    print("\n".join(differences(name, wanted, found)))
    if check:
        return False
    write(path, found)
    return not wrong
