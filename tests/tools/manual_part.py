"""Tries tools/manual: the files in share/ are what it makes now, the manual page is right, and both shells complete."""

from __future__ import annotations

import itertools
import re
import shutil
import subprocess
import tempfile
from pathlib import Path

from tally import Tally

HERE = Path(__file__).resolve().parent
TOP = HERE.parents[1]
SHARE = TOP / "share"
PAGE, BASH, ZSH = "man/man1/spmlink.1", "bash-completion/completions/spmlink", "zsh/site-functions/_spmlink"
SECTIONS = ["NAME", "SYNOPSIS", "DESCRIPTION", "COMMANDS", "EXIT STATUS", "FILES", "EXAMPLES", "SEE ALSO"]

FIRST = ["run", "relink", "profile", "compare", "check", "paid", "trace", "mix", "checkmix", "show", "gen", "hex",
         "hexcheck"]
ASKING = ["--help", "-h", "help", "--version", "-V", "version"]
FOLDER = ["a board.toml", "inputs", "prog.elf"]  # what stands in the folder where lines are completed
POWERS = [str(10**power) for power in range(10)]

# What is offered behind a line.
OFFERED: list[tuple[str, list[str]]] = [
    ("spmlink ", FIRST + ASKING + ["unproved"]),
    ("spmlink c", ["check", "checkmix", "compare"]),
    ("spmlink hex", ["hex", "hexcheck"]),
    ("spmlink help ", FIRST),
    ("spmlink help p", ["paid", "profile"]),
    ("spmlink relnik ", []),
    ("spmlink gen ", ["0", *POWERS, "4294967295"]),
    ("spmlink gen 4", ["4294967295"]),
    ("spmlink gen 7 ", [str(number) for number in range(1, 65)]),
    ("spmlink gen 7 6", ["6", "60", "61", "62", "63", "64"]),
    ("spmlink trace f b i c ", POWERS[:6]),
    ("spmlink version ", []),
    ("spmlink u", ["unproved"]),
    ("spmlink help u", []),
    ("spmlink unproved ", FIRST + ASKING),
    ("spmlink unproved c", ["check", "checkmix", "compare"]),
    ("spmlink unproved u", []),
    ("spmlink unproved help p", ["paid", "profile"]),
    ("spmlink unproved gen 7 6", ["6", "60", "61", "62", "63", "64"]),
    ("spmlink unproved trace f b i c ", POWERS[:6]),
    ("spmlink unproved version ", []),
    ("spmlink unproved unproved ", []),
]


def commands() -> list[list[str]]:
    """Each command with its operands, as the launcher's help lists them."""
    script = 'top=$1; . "$top/tools/words.sh"; usage_of_all'
    words = ["bash", "-c", script, "", str(TOP)]
    done = subprocess.run(words, stdin=subprocess.DEVNULL, capture_output=True, text=True, check=True)
    return [line.split(":")[0].split() for line in done.stdout.splitlines() if line.startswith("  ")]


def lines_to_complete(told: list[list[str]]) -> list[tuple[str, list[str]]]:
    """The lines above, and each command with its words one by one: names of files stand behind it, but for numbers."""
    lines = list(OFFERED)
    for launcher, (command, *operands) in itertools.product(["spmlink", "spmlink unproved"], told):
        for place, operand in enumerate(operands):
            if operand not in ("SEED", "KERNELS", "COUNT"):
                lines.append((" ".join([launcher, command, *operands[:place], ""]), FOLDER))
        lines.append((" ".join([launcher, command, *operands, ""]), []))
    return lines


def without(tool: str) -> bool:
    return shutil.which(tool) is None


# ---- what is made

def try_made(tally: Tally) -> None:
    """The files in share/ are those that tools/manual makes now, and no others."""
    with tempfile.TemporaryDirectory() as folder:
        done = subprocess.run([str(TOP / "tools/manual"), folder], stdin=subprocess.DEVNULL)
        tally.note(done.returncode == 0, "tools/manual fails")
        made = {str(path.relative_to(folder)): path.read_bytes() for path in Path(folder).rglob("*") if path.is_file()}
    kept = {str(path.relative_to(SHARE)): path.read_bytes() for path in SHARE.rglob("*") if path.is_file()}
    tally.note(sorted(made) == sorted([PAGE, BASH, ZSH]), f"made {sorted(made)}")
    for name in sorted(made.keys() | kept.keys()):
        tally.note(made.get(name) == kept.get(name), f"share/{name} is not what tools/manual makes: call it")


# ---- the manual page

def printed_page() -> str:
    words = ["groff", "-man", "-Tascii", "-P-c", "-P-b", "-P-u", "-rLL=400n", "-rHY=0", str(SHARE / PAGE)]
    text = subprocess.run(words, stdin=subprocess.DEVNULL, capture_output=True, text=True).stdout
    return re.sub(r"[ \n]+", " ", text)


def faults() -> list[tuple[str, str]]:
    """Each status with each word of its fault lines, as the program has them."""
    source = (TOP / "crates/command_language/src/faults.rt").read_text()
    found = re.findall(r"LineParts::(?:new|named|of_place)\(\s*(\d+),\s*\"([a-z-]+)\"", source)
    return sorted(set(found))


def told_faults(source: str) -> set[tuple[str, str]]:
    """Each status with each word that the manual page tells of. Entries without a status are those of status 5."""
    found = set()
    for tag in re.findall(r"^\.TP\n(.*)$", source, re.MULTILINE):
        bold = re.findall(r"\\fB(.*?)\\fR", tag.replace(r"\-", "-"))
        statuses = re.findall(r"\d+", bold.pop(0)) if bold and bold[0][0].isdigit() else ["5"]
        found |= {(status, words.split()[0]) for status in statuses for words in bold}
    return found


def try_page(tally: Tally) -> None:
    source = (SHARE / PAGE).read_text()
    tally.note(re.findall(r'^\.SH "(.*)"$', source, re.MULTILINE) == SECTIONS, "sections of the manual page")
    if without("groff"):
        tally.skip("groff is not installed: apt-get install groff")
        return
    words = ["groff", "-man", "-ww", "-z", "-Tutf8", str(SHARE / PAGE)]
    warned = subprocess.run(words, stdin=subprocess.DEVNULL, capture_output=True)
    tally.note((warned.returncode, warned.stdout, warned.stderr) == (0, b"", b""), f"groff says {warned.stderr!r}")
    page = printed_page()
    for told in map(" ".join, commands()):
        tally.note(page.count(told) >= 2, f"the manual page does not tell of {told}")
    tally.note({int(status) for status, _ in faults()} == set(range(1, 15)), "statuses 1 to 14")
    for fault in faults():
        tally.note(fault in told_faults(source), f"the manual page does not tell of the fault {fault}")


def try_man(tally: Tally) -> None:
    if without("man"):
        tally.skip("man is not installed: apt-get install man-db")
        return
    words = ["man", "--warnings=w", "-l", str(SHARE / PAGE)]
    shown = subprocess.run(words, stdin=subprocess.DEVNULL, capture_output=True)
    tally.note(shown.returncode == 0 and b"SPMLINK(1)" in shown.stdout and shown.stderr == b"", f"man says {shown.stderr!r}")


def try_examples(tally: Tally, program: str) -> None:
    """The examples of the manual page do what it says."""
    example = re.search(r"^\.EX\n(.*?)^\.EE$", (SHARE / PAGE).read_text(), re.MULTILINE | re.DOTALL)
    assert example is not None
    script = f'spmlink() {{ "{Path(program).resolve()}" "$@"; }}; set -e; {example[1]}'
    with tempfile.TemporaryDirectory() as folder:
        done = subprocess.run(["bash", "-c", script], cwd=folder, stdin=subprocess.DEVNULL, capture_output=True)
    right = done.returncode == 0 and b"static data " in done.stdout and done.stdout.endswith(b"same\nexited 0\n")
    tally.note(right, f"the examples print {done.stdout!r}")


# ---- completions

def made_folder(folder: str) -> None:
    for name in FOLDER:
        path = Path(folder, name)
        path.mkdir() if name == "inputs" else path.touch()


def offered_by_bash(lines: list[str], folder: str) -> list[list[str]]:
    """What bash's function offers behind lines."""
    script = '. "$1"; while IFS= read -r line; do read -ra COMP_WORDS <<<"$line."; COMP_CWORD=$((${#COMP_WORDS[@]} - 1))\n' \
             'COMP_WORDS[COMP_CWORD]=${COMP_WORDS[COMP_CWORD]%.}; _spmlink; printf "%s/" "${COMPREPLY[@]}"; echo; done'
    words = ["bash", "--norc", "-c", script, "", str(SHARE / BASH)]
    done = subprocess.run(words, input="\n".join(lines) + "\n", cwd=folder, capture_output=True, text=True)
    return [line.rstrip("/").split("/") if line.strip("/") else [] for line in done.stdout.splitlines()]


def offered_by_zsh(lines: list[str], folder: str) -> list[list[str]]:
    """What zsh offers behind lines that are typed into it."""
    words = ["zsh", "-f", str(HERE / "complete.zsh"), str(SHARE / ZSH.rpartition("/")[0])]
    try:
        done = subprocess.run(words, input="\n".join(lines) + "\n", cwd=folder, capture_output=True, text=True, timeout=300)
    except subprocess.TimeoutExpired:
        return []
    return [block.split("\n")[1:] for block in done.stdout.split("\n\n")[:-1]]


def try_lines(tally: Tally, shell: str, lines: list[tuple[str, list[str]]], offered: list[list[str]]) -> None:
    tally.note(len(lines) == len(offered), f"{shell} answers {len(offered)} of {len(lines)} lines")
    for (line, wanted), came in zip(lines, offered):
        tally.note(sorted(came) == sorted(wanted), f"{shell} offers {came} behind `{line}`")


def try_completions(tally: Tally) -> None:
    lines = lines_to_complete(commands())
    with tempfile.TemporaryDirectory() as folder:
        made_folder(folder)
        try_lines(tally, "bash", lines, offered_by_bash([line for line, _ in lines], folder))
        if without("zsh"):
            tally.skip("zsh is not installed: apt-get install zsh")
            return
        some = lines[:len(OFFERED)] + lines[len(OFFERED)::6]
        try_lines(tally, "zsh", some, offered_by_zsh([line for line, _ in some], folder))
