"""What tools/differ and tools/page share: files of settings, and the question program asked in one go.

The names of values, which kind reads which and where each starts are taken from docs/help.txt, the words of refusals
from docs/refusals.txt. docs/QUESTIONS.md says the language.
"""
import os
import re
import shlex
import subprocess
import sys
from pathlib import Path

ROOT = Path(__file__).resolve().parent.parent
QUERY = ROOT / "crates/query/out/query"
BUILD = "(cd crates/query && rt run </dev/null)"
DOWNLINK = ("down", "control", "npbch", "sib1")
CHANNELS = {
    "up": "NPUSCH", "ack": "Acknowledgement", "down": "NPDSCH", "control": "NPDCCH", "npbch": "NPBCH", "sib1": "SIB1",
}
ORDERS = {1: "BPSK", 2: "QPSK"}


def stop(why):
    """Ends with status 2 and one line that says what to run or to put right."""
    print(f"tools/{Path(sys.argv[0]).name}: {why}", file=sys.stderr)
    sys.exit(2)


def option(words, name):
    """Takes an option and the word after it out of the words; answers that word, None without the option."""
    if name not in words[:-1]:
        return None
    at = words.index(name)
    word = words[at + 1]
    del words[at : at + 2]
    return word


def program_of(command):
    """The words of the program that is asked: those of the command, the question program without one."""
    if command is None:
        if not (QUERY.is_file() and os.access(QUERY, os.X_OK)):
            stop(f"{QUERY.relative_to(ROOT)} is not there: run {BUILD}")
        return [str(QUERY)]
    words = shlex.split(command)
    if not words or not (Path(words[0]).is_file() and os.access(words[0], os.X_OK)):
        stop(f"{command} is no program: build it, or name another after --query")
    return [str(Path(words[0]).resolve()), *words[1:]]


def help_lines():
    """The lines of docs/help.txt as section, word and what is said of it."""
    section = ""
    for line in (ROOT / "docs/help.txt").read_text().splitlines():
        if line[:1].isupper():
            section = line
        else:
            word, said = line.split(maxsplit=1)
            yield section, word, said


def names_of_kinds():
    """The names that each kind reads, in the order of docs/help.txt."""
    lines = list(help_lines())
    cell = [word for section, word, _ in lines if section == "Values of the cell:"]
    kinds = {}
    for section, word, said in lines:
        if section == "Kinds:":
            read = re.search(r"\bby (the cell)?(?: and )?(.*)$", said)
            kinds[word] = (cell if read[1] else []) + read[2].split()
    return kinds


def starts():
    """Every name of a value with the value it starts at."""
    found = {}
    for section, word, said in help_lines():
        if section.startswith("Values"):
            value = re.search(r"starts (?:at (\S+)|empty)$", said)
            if value or word not in found:
                found[word] = (value[1] or "-") if value else "0"
    return found


def told_of(name):
    """What docs/help.txt says of a value, without where it starts."""
    lines = [said for section, word, said in help_lines() if section.startswith("Values") and word == name]
    return [re.sub(r";? ?starts (at \S+|empty)$", "", said) for said in lines]


def meaning(number):
    """The words of a refusal number."""
    lines = dict(line.split(maxsplit=1) for line in (ROOT / "docs/refusals.txt").read_text().splitlines())
    return lines.get(str(number), "none")


def ask(program, lines):
    """The answers to the lines, each as a list of its lines."""
    text = "".join(f"{line}\n" for line in lines)
    done = subprocess.run(program, input=text, stdout=subprocess.PIPE, text=True)
    if done.returncode != 0:
        stop(f"{program[0]} ended with status {done.returncode}: run {BUILD}")
    answers = []
    for line in done.stdout.splitlines():
        if line.startswith(("no=", "error=")):
            answers.append([])
        answers[-1].append(line)
    return answers


def values(answer):
    """The values of an answer's first line, numbers as numbers."""
    pairs = (word.split("=", 1) for word in answer[0].split())
    return {name: int(value) if value.isdigit() else value for name, value in pairs}


def lines_of(path):
    """The lines of a file that are neither empty nor comments, each with its number and its words."""
    for number, line in numbered(path):
        if line.strip() and not line.startswith("#"):
            yield number, line.split()


def numbered(path):
    """The lines of a file, counted from 1; a mark of the byte order before the first is no part of it."""
    try:
        text = Path(path).read_text(encoding="utf-8-sig")
    except (OSError, UnicodeDecodeError) as error:
        stop(f"{path} cannot be read ({getattr(error, 'strerror', None) or 'no text'}): name a file of settings")
    return enumerate(text.split("\n"), 1)


def pair(path, number, word, known):
    """A word name=value of a file."""
    name, sign, value = word.partition("=")
    if not sign:
        stop(f"{path} line {number}: {word} is no name=value, see docs/QUESTIONS.md")
    if name not in known:
        stop(f"{path} line {number}: {name} is no name of a value, see docs/help.txt")
    return name, value


def plain(value, start):
    """The one way to write a value: a buffer in small hex digits, as its start shows, numbers without leading zeros."""
    return value.lower() if start == "-" else ",".join(str(int(part)) for part in value.split(","))


def check_forms(program, path, words):
    """Stops at the first of the words, each with its line, that the program does not take."""
    lines = [line for _, word in words for line in (f"set {word}", "cell")]
    answers = iter(ask(program, lines))
    for number, word in words:
        if next(answers)[0].startswith("error="):
            stop(f"{path} line {number}: {word} has not the form of its value, see docs/QUESTIONS.md")


def set_line(settings):
    """The line that gives all these values."""
    return "set " + " ".join(f"{name}={value}" for name, value in settings.items())


def place_names(kind):
    """The values that name a place in a transmitted unit, which is a subframe, of up and ack a slot."""
    return ("t", ("slot", "l", "k")) if kind in DOWNLINK else ("slot", ("l", "k"))


# No transmitted subframe or slot has more places.
MOST = 168


def first_unit(kind):
    """The questions whose answers are the places of the first transmitted unit and some after it."""
    return [f"forward {kind} p={p}" for p in range(MOST)]


def layout(kind, answers):
    """The places of the first transmitted unit, in the order of positions. Every further unit of the grant has the
    same: what is eligible or granted depends on the cell and the grant, not on the time."""
    unit, inside = place_names(kind)
    found = [values(answer) for answer in answers]
    return [tuple(at[name] for name in inside) for at in found if at["no"] == 0 and at[unit] == found[0][unit]]


def refusal(answer):
    """In words a refusal, the first values of an answer being these."""
    return f"refused, number {answer['no']}: {meaning(answer['no'])}"


def summary(kind, plan):
    """In words what a plan says."""
    if plan["no"] != 0:
        return refusal(plan)
    units = "subframes" if kind in DOWNLINK else "slots"
    copies = "1 copy" if plan["copies"] == 1 else f"{plan['copies']} copies"
    read = f", {plan['size']} bits, {ORDERS.get(plan['order'], plan['order'])}" if "order" in plan else ""
    return f"{units} {plan['first']} to {plan['last']}, {copies}, {plan['places']} positions{read}"


def frame_of(kind, settings, unit):
    """In words where a subframe or slot is; the frame is counted mod 1024."""
    if kind in DOWNLINK:
        return f"frame {unit // 10 % 1024}, its subframe {unit % 10}"
    begin = unit // 2 if int(settings["spacing"]) else 2 * unit
    return f"begins in frame {begin // 10 % 1024}, its subframe {begin % 10}"
