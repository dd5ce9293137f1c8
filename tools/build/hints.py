"""Says what the program's own line doesn't: which file can't be read or written and why, or why words are no command.

It judges nothing: the program is started whatever it says. Where nothing is amiss that can be seen from outside, it says nothing.
"""

from __future__ import annotations

import difflib
import os
import stat
import sys
from collections.abc import Iterator
from dataclasses import dataclass, field

MOST_TURNS, MOST_DOMAINS, TURNS, MOST_TEXT = 10_000_000, 90_000, 1_000_000, 4_096
HELP = f"""\
nova solo SCENARIO [ORDER]    runs a scenario, in rounds or in the order of turns of ORDER, and writes its report
nova run SCENARIO ORDER       runs it with a thread of the host for each processor, and appends to ORDER the order that came of it
nova check SCENARIO           says whether a scenario has a fault
nova twin NAME                compares a virtual CPU of one run with one of another
nova bench NUMBER             makes NUMBER protection domains, 1 to {MOST_DOMAINS:,}
  --limit N                   the most turns, 1 to {MOST_TURNS:,} ({TURNS:,})
./nova-explore SCENARIO ..    whether any order of turns leads to what is asked for; ./nova-explore --help tells more
./nova-policy SCENARIO ..     which protection domains are isolated from which; ./nova-policy --help tells more
./nova draft WORD..           the same at once, unproved; ./nova draft --help tells more

Status: 0 done, 2 no command, 3 a file isn't read, 4 a fault of the scenario, 5 of the order, 6 a file isn't written, 7 not quiet: the limit or
the end of the order came first, 8 out of memory, 10 a fault of a twin text. docs/FORMATS.md explains the word of each fault, docs/TOOLS.md each
command. What a report says, in sentences: python3 tools/explain REPORT
"""
POLICY_HELP = f"""\
./nova-policy SCENARIO        which protection domains are isolated from which, at the end of a run
  --at TURN                   after turn TURN, 0 to {MOST_TURNS:,} ({TURNS:,}, or the end of the run)
  --until TURN                in the first state up to turn TURN in which they aren't, from --at on (0); else in the last
  --flow TURN                 in place of --at, and of each side whether nothing of the others reaches it, up to --until
  --order ORDER               of the run in the order of turns of ORDER, in place of rounds
  --policy POLICY             with the sides of POLICY; without, the root's domain, 0, is trusted, and the finest sides of the others are told
./nova draft policy WORD..    the same at once, unproved

A line of POLICY is `trusted DOMAIN ..`, `side NAME DOMAIN ..`, `shared SM ..` (semaphores) or `flow FROM TO` (sides named before). Domains and
semaphores are numbers of objects: --policy /dev/null tells all domains.

Status: 0 apart, 1 served, 9 breach, 10 stuck, 11 single. Without an answer: 2 no request, 3 a file isn't read, 4 a fault of the scenario, 5 of the
order, 6 the answer isn't written, 7 a fault of the policy, 8 out of memory. docs/SECURITY.md says what the answers mean, docs/FORMATS.md explains
their lines and the word of each fault. An answer is drawn by: python3 tools/picture sides ANSWER
"""
EXPLORE_HELP = f"""\
./nova-explore SCENARIO QUESTION [WORD ..]   whether any order of turns leads to what is asked for: an order, or that there is none
  --turns N                   the most turns of an order, 1 to {MOST_TURNS:,} ({TURNS:,})
  --states N                  the most states that are expanded, 1 to 100,000,000 (20,000)
./nova draft explore WORD..   the same at once, unproved
python3 tools/explore WORD..  the same in sentences, with names of a program in C; --help tells more

QUESTION, as ends or blocked, is one of those of docs/TOOLS.md, "Every order"; docs/EXPLORING.md says what answers mean, with examples.

Status: 0 of all orders, 1 an order is told, 7 cut, 9 of orders of at most N turns. Without an answer: 2 no request, 3 a file isn't read, 4 a fault of
the scenario, 5 no such console or frame, 6 the answer isn't written, 8 out of memory. docs/FORMATS.md explains the lines.
"""
# The help of each program, by its name behind nova_.
HELPS = {"": HELP, "policy": POLICY_HELP, "explore": EXPLORE_HELP}
# The options of a request, with the word behind each.
POLICY_OPTIONS = {"--at": "TURN", "--until": "TURN", "--flow": "TURN", "--order": "ORDER", "--policy": "POLICY"}
TURN_OPTIONS = ("--at", "--until", "--flow")
# The names of each command, and what the last one is for.
FORMS = {
    "run": ("SCENARIO", "ORDER"),
    "solo": ("SCENARIO",),
    "check": ("SCENARIO",),
    "twin": ("NAME",),
    "bench": ("NUMBER",),
}


@dataclass(slots=True)
class Words:
    """The words of a command: its names, the limits that are given, and what is no option."""

    names: list[str] = field(default_factory=list)
    limits: list[str | None] = field(default_factory=list)
    odd: list[str] = field(default_factory=list)

    @classmethod
    def of(cls, words: list[str]) -> Words:
        """Sorts words. Behind `--` all are names."""
        found, left = cls(), iter(words)
        for word in left:
            if word == "--":
                found.names += left
            elif word == "--limit":
                found.limits.append(next(left, None))
            elif word.startswith("--limit="):
                found.limits.append(word.removeprefix("--limit="))
            elif word.startswith("-") and word != "-":
                found.odd.append(word)
            else:
                found.names.append(word)
        return found


def number_of(text: str) -> int | None:
    """A number of the formats' form: decimal digits, or 0x and hexadecimal digits."""
    digits, base = (text[2:], 16) if text.startswith("0x") else (text, 10)
    try:
        return int(digits, base) if digits.isascii() and digits.isalnum() else None
    except ValueError:
        return None


def out_of(name: str, text: str | None, most: int) -> str | None:
    """Why a text is no number from 1 to the most."""
    if text is None:
        return f"{name} wants a number behind it"
    number = number_of(text)
    if number is None:
        return f"{name}: {text!r} is no number"
    return None if 1 <= number <= most else f"{name}: {number:,} is not from 1 to {most:,}"


def of_names(names: list[str]) -> str | None:
    """Why names are no command."""
    if not names:
        return "no command is named"
    command, given = names[0], names[1:]
    if command not in FORMS:
        like = difflib.get_close_matches(command, FORMS, 1)
        meant = f"; {like[0]} is one" if like else "; run a scenario by: ./nova solo SCENARIO" if command.endswith(".nova") else ""
        return f"{command!r} is no command{meant}"
    wanted = FORMS[command]
    most = 2 if command == "solo" else len(wanted)
    if len(given) < len(wanted):
        why = ", the file to which the order of turns is appended" if wanted[len(given)] == "ORDER" else ""
        return f"{command} wants {wanted[len(given)]}{why}"
    if len(given) > most:
        return f"{command} takes no further word: {given[most]!r}"
    return out_of("bench", given[0], MOST_DOMAINS) if command == "bench" else None


def no_command(words: Words) -> str | None:
    """Why words are no command."""
    if words.odd:
        return f"there is no option {words.odd[0]} (a file with such a name stands behind --)"
    if len(words.limits) > 1:
        return "--limit is given twice"
    for limit in words.limits:
        if why := out_of("--limit", limit, MOST_TURNS):
            return why
    return of_names(words.names)


def unread(file: str) -> str | None:
    """Why a file can't be read. A pipe is left alone."""
    try:
        kind = os.stat(file).st_mode
        if stat.S_ISDIR(kind):
            return f"{file} is a folder"
        if stat.S_ISREG(kind):
            with open(file, "rb"):
                return None
        return None if os.access(file, os.R_OK) else f"{file} can't be read"
    except OSError as error:
        return f"{file}: {error.strerror}"


def other_executable(file: str) -> str | None:
    """Why an executable in a scenario is none for this machine, where its first bytes say so. A pipe is left alone."""
    if not os.path.isfile(file):
        return None
    with open(file, "rb") as opened:
        lines = opened.read().split(b"\n")
    for number, line in enumerate(lines[:-1], 1):
        words = line.split(b"#")[0].split()
        if words[:1] != [b"image"] or words[-1] != b"elf":
            continue
        head = b"".join(lines[number].split(b"#")[0].split())[:40].decode("ascii", "replace").lower()
        if head.startswith("7f454c4602"):
            return f"{file}, line {number + 1}: this executable is of 64 bits; -march=rv32i -mabi=ilp32 makes one of 32"
        if head.startswith("7f454c4601") and len(head) == 40 and head[36:] != "f300":
            return f"{file}, line {number + 1}: this executable is not for RISC-V"
    return None


def turns_of(order: str) -> int:
    """How many turns an order has. What is no line of one counts for nothing."""
    with open(order, "rb") as opened:
        counts = (number_of(line.split()[-1].decode("ascii", "replace")) for line in opened if line.strip())
        return sum(count or 0 for count in counts)


def of_side(words: list[str], limit: int) -> str | None:
    """What is amiss with a line of a text of `twin`: its scenario, order and virtual CPU."""
    if len(words) != 3 or "" in words:
        return "a line is SCENARIO ORDER NUMBER, with one space between"
    scenario, order, _ = words
    if why := unread(scenario) or unread(order):
        return why
    turns = turns_of(order) if os.path.isfile(order) else 0
    return f"{order} has {turns:,} turns, and the limit is {limit:,}; --limit N gives up to {MOST_TURNS:,}" if turns > limit else None


def of_twin(file: str, limit: int) -> str | None:
    """What is amiss with a text of `twin`, as far as it is seen without a run. A pipe is left alone."""
    if not os.path.isfile(file):
        return None
    with open(file, encoding="ascii", errors="replace", newline="\n") as opened:
        *lines, rest = opened.read(MOST_TEXT + 1).split("\n")
    if rest:
        return f"{file}: its last line has no line feed, or it has more than {MOST_TEXT:,} bytes"
    if len(lines) != 2:
        return f"{file} has {len(lines)} line{'' if len(lines) == 1 else 's'}, and a text of twin has 2"
    said = ((number, of_side(line.split(" "), limit)) for number, line in enumerate(lines, 1))
    return next((f"{file}, line {number}: {why}" for number, why in said if why), None)


def unwritten(file: str) -> str | None:
    """Why nothing can be appended to a file."""
    folder = os.path.dirname(file) or "."
    if os.path.isdir(file):
        return f"{file} is a folder"
    if os.path.exists(file):
        return None if os.access(file, os.W_OK) else f"{file} can't be written"
    if not os.path.isdir(folder):
        return f"{file} can't be made: there is no folder {folder}"
    return None if os.access(folder, os.W_OK) else f"{file} can't be made in {folder}"


def hints(given: list[str]) -> list[str]:
    """What is to be said of words."""
    if any(not word.isprintable() and "\udc80" <= max(word) <= "\udcff" for word in given if word):
        return ["a word is not UTF-8"]
    words = Words.of(given)
    why = no_command(words)
    if why is not None:
        return [f"these words are no command: {why}. ./nova --help lists them"]
    command, *files = words.names
    if command == "bench":
        return []
    read = files[:1] if command == "run" else files
    said = [*map(unread, read), *map(unwritten, files[len(read) :])]
    if not any(said) and command in ("run", "solo", "check"):
        said.append(other_executable(files[0]))
    if not any(said) and command == "twin":
        said.append(of_twin(files[0], number_of((words.limits or [""])[0] or "") or TURNS))
    return [line for line in said if line]


@dataclass(slots=True)
class Request:
    """The words of a request to nova_policy: its scenario, its options, and why it is none."""

    names: list[str] = field(default_factory=list)
    options: dict[str, str] = field(default_factory=dict)
    why: str | None = None

    @classmethod
    def of(cls, words: list[str]) -> Request:
        """Sorts words, up to the first that is amiss. Behind `--` all are names."""
        found, left = cls(), iter(words)
        for word in left:
            if word == "--":
                found.names += left
            elif word.startswith("-") and word != "-":
                found.take(word, left)
            else:
                found.names.append(word)
            if found.why:
                return found
        if len(found.names) != 1:
            found.why = f"there is a word too many: {found.names[1]!r}" if found.names else "no scenario is named"
        begin = "--flow" if "--flow" in found.options else "--at"
        first, last = (number_of(found.options.get(option, "")) for option in (begin, "--until"))
        if first is not None and last is not None and last < first:
            found.why = f"--until is before {begin}"
        if {"--flow", "--at"} <= found.options.keys():
            found.why = "--flow stands in place of --at"
        return found

    def take(self, word: str, left: Iterator[str]) -> None:
        """Takes an option, with the word behind it or behind its `=`."""
        option, is_whole, text = word.partition("=")
        value = text if is_whole else next(left, None)
        if option not in POLICY_OPTIONS:
            self.why = f"there is no option {option} (a file with such a name stands behind --)"
        elif option in self.options:
            self.why = f"{option} is given twice"
        elif value is None:
            self.why = f"{option} wants {POLICY_OPTIONS[option]} behind it"
        elif option in TURN_OPTIONS and (turn := number_of(value)) is None:
            self.why = f"{option}: {value!r} is no number"
        elif option in TURN_OPTIONS and turn > MOST_TURNS:
            self.why = f"{option}: {turn:,} is more than {MOST_TURNS:,}"
        else:
            self.options[option] = value


def policy_hints(given: list[str]) -> list[str]:
    """What is to be said of the words of a request to nova_policy."""
    request = Request.of(given)
    if request.why:
        return [f"these words are no request: {request.why}. ./nova-policy --help lists them"]
    files = [*request.names, *(request.options[option] for option in ("--order", "--policy") if option in request.options)]
    return [why for why in map(unread, files) if why]


def main(given: list[str]) -> int:
    """Says what there is to say, a line each."""
    if given[-1:] == ["--help"] and " ".join(given[:-1]) in HELPS:
        print(HELPS[" ".join(given[:-1])], end="")
        return 0
    is_policy = given[:1] == ["policy"]
    for line in policy_hints(given[1:]) if is_policy else hints(given):
        print(f"nova: {line}".encode(errors="replace").decode())
    return 0


if __name__ == "__main__":
    sys.exit(main(sys.argv[1:]))
