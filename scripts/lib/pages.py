"""Commands and programs of documents, which must print what the documents have."""

import os
import re
import shutil
import subprocess
import tempfile

from . import repository

GUIDE, README = "docs/GUIDE.md", "README.md"
# The pages whose blocks of shell commands are run, and the folders to run them in.
SHELL = {README: "", "crates/asn1_fields/README.md": "crates/asn1_fields"}
# The seconds that a command may take; `rt try` compiles every crate below a program.
SECONDS = {GUIDE: 60, README: 1800}


def text_of(path):
    """Returns the text of a page."""
    return repository.text_of(f"{repository.TOP}/{path}")


def run(command, folder, seconds, **words):
    """Runs a command of bash in a folder. Returns its status and what it printed."""
    told = {"cwd": folder, "stdout": subprocess.PIPE, "stderr": subprocess.STDOUT, "text": True, "errors": "replace"}
    ran = subprocess.run(["bash", "-c", command], timeout=seconds, **told, **words)
    return ran.returncode, ran.stdout


def console(text):
    """Yields the commands of the console blocks of a page, and what each must print: a command follows `$ `, and its output is
    on the lines below."""
    for block in re.findall(r"^```console\n(.*?)^```", text, re.M | re.S):
        yield from re.findall(r"^\$ (.*)\n((?:(?!\$ ).*\n)*)", block, re.M)


def shell(text):
    """Yields the blocks of shell commands of a page, and what each must print: the block without a language that follows it, or
    nothing."""
    for command, _, printed in re.findall(r"^```sh\n(.*?)^```\n(\s*```\n(.*?)^```\n)?", text, re.M | re.S):
        yield command, printed


def program(text):
    """Returns the program of a page, its line of crates.txt, and what it must print."""
    code = re.search(r"^```rust\n(.*?)^```\n", text, re.M | re.S)[1]
    return code, re.search(r"with the line `(mine: .*?)`", text)[1], re.search(r"prints `(\{.*?\})`", text)[1]


def wrong_in_guide(built):
    """Runs the commands of the guide, one after another, in a folder with the modules. Returns the number of commands, and the
    faults as lines."""
    commands, wrong = list(console(text_of(GUIDE))), []
    with tempfile.TemporaryDirectory() as room:
        for name in os.listdir(f"{repository.TOP}/modules"):
            if name.endswith(".asn1"):
                shutil.copy(f"{repository.TOP}/modules/{name}", room)
        os.mkdir(f"{room}/bin")
        os.symlink(built, f"{room}/bin/asn1")
        told = {**os.environ, "PATH": f"{room}/bin:{os.environ['PATH']}"}
        for command, wanted in commands:
            _, printed = run(command, room, SECONDS[GUIDE], env=told)
            if printed.rstrip("\n") != wanted.rstrip("\n"):
                wrong.append(f"{GUIDE}: {command}: {printed!r}, and not {wanted!r}")
    return len(commands), wrong


def wrong_in_shell(top):
    """Runs the shell commands of the pages in `SHELL` in a copy of the repository. Returns the number of blocks, and the faults
    as lines."""
    count, wrong = 0, []
    for path, folder in SHELL.items():
        for command, wanted in shell(text_of(path)):
            status, printed = run(f"set -e -o pipefail\n{command}", f"{top}/{folder}", SECONDS[README])
            if status or not printed.startswith(wanted):
                wrong.append(f"{path}: {command}: status {status}, {printed!r}, and not {wanted!r}")
            count += 1
    return count, wrong


def wrong_program(top):
    """Runs the program of README in a copy of the repository. Returns the number of programs, and the faults as lines."""
    code, line, wanted = program(text_of(README))
    os.makedirs(f"{top}/crates/mine/src")
    with open(f"{top}/crates/mine/src/main.rt", "w", encoding="utf-8") as file:
        file.write(code)
    with open(f"{top}/crates.txt", "a", encoding="utf-8") as file:
        file.write(f"{line}\n")
    status, printed = run("rt try", f"{top}/crates/mine", SECONDS[README])
    is_right = status == 0 and printed.startswith(f"{wanted}\n")
    return 1, [] if is_right else [f"{README}: its program: status {status}, {printed!r}, and not {wanted!r}"]


def wrong_without_proofs(files):
    """Runs the commands and the program of README by `rt try`, in a copy of these files, so that nothing that was built is
    replaced. Returns how many there are, and the faults as lines."""
    with tempfile.TemporaryDirectory() as top:
        for path in files:
            os.makedirs(os.path.dirname(f"{top}/{path}"), exist_ok=True)
            shutil.copy(f"{repository.TOP}/{path}", f"{top}/{path}")
        ran = [wrong_in_shell(top), wrong_program(top)]
    return sum(it for it, _ in ran), [line for _, lines in ran for line in lines]
