"""What a report says of one side."""

from __future__ import annotations

from scenarios import SOURCES

FIRST_OBJECT, FIRST_RANGE = 3 + SOURCES, 2 + 4 + SOURCES
NAMES_A = {"help", "abort", "late"}  # events whose first number is an object's, and those whose second is
NAMES_B = {"sent", "gone"}
KINDS = ["pd", "ec", "pt", "pt", "pt", "ec", "sc", "ec", "pt", "ec", "sc"]  # what the root makes for a side, in order
Part = tuple[list, list]


def made_at(lines: list[list[str]], cpu: int) -> int:
    """The number of the domain that the root makes on a processor."""
    return next(int(line[6]) for line in lines if line[0] == "at" and int(line[2]) == cpu and line[4:6] == ["begin", "2"])


def made_for(domain: int, lines: list[list[str]]) -> range:
    """What the root makes for a side, with a thread on the other side's processor where a leak has it: else another domain has the number of that."""
    contexts = {int(line[1]) for line in lines if line[0] == "ec"}
    return range(domain, domain + (len(KINDS) if domain + 7 in contexts else 7))


def objects_of(domain: int, lines: list[list[str]]) -> set[int]:
    """The objects of the side on processor 1: what the root makes for it, and what semaphores it holds."""
    semaphores = {int(line[1]) for line in lines if line[0] == "sm"}
    held = {int(line[8]) for line in lines if line[0] == "cap" and line[4] == "obj" and int(line[3]) == domain}
    return set(made_for(domain, lines)) | held & semaphores


def makes(event: list[str]) -> bool:
    """Whether an event of a report is one in which an object is made."""
    return event[2] == "answer" and event[3] in "23456" and event[4] == "0" or event[2:4] == ["begin", "2"]


def made_since(lines: list[list[str]], turns: int) -> range:
    """The numbers of the objects that are made after so many turns."""
    places = [int(line[1]) for line in lines if line[0] == "at" and makes(line[2:])]
    return range(FIRST_OBJECT + sum(place <= turns for place in places), FIRST_OBJECT + len(places))


def told(event: list[str], elsewhere: set[str]) -> list[str]:
    """An event but for numbers of ranges, and, of a source that rings elsewhere, but for what it finds there."""
    cpu, context, kind, a, b = event
    if kind == "irq" and a in elsewhere:
        return [cpu, "0", kind, a, "0"]
    return [cpu, context, kind, "0" if kind in ("made", "gone") else a, "0" if kind == "made" else b]


def own_turns(report: str, since: int) -> int:
    """How many turns the side on processor 1 paid for, by what it had and what was made after so many turns."""
    lines = [line.split() for line in report.splitlines()]
    own = objects_of(made_at(lines, 1), lines) | set(made_since(lines, since))
    return sum(int(line[3]) for line in lines if line[0] == "sc" and int(line[1]) in own)


def part(report: str, since: int = 0, creates: bool = False, shared: bool = False) -> Part:
    """The events of processor 1 after so many turns, as they are told, and what there is of the side that is made there: objects by number, ranges by what they give.

    If it creates, all that is made after these turns is its own. Of a shared processor the events are those of its execution contexts.
    """
    lines = [line.split() for line in report.splitlines()]
    domain = made_at(lines, 1)
    more = set(made_since(lines, since)) if creates else set()
    own = objects_of(domain, lines) | more
    elsewhere = {line[1] for line in lines if line[0] == "source" and int(line[3]) not in own}
    events = [told(line[2:7], elsewhere) for line in lines if line[0] == "at" and line[2] == "1" and int(line[1]) > since]
    if shared:
        events = [event for event in events if event[2] != "irq" and int(event[1]) in own]
    rest = []
    for line in lines:
        if line[0] in ("ec", "sc", "sm") and int(line[1]) in own or line[:2] == ["console", "0"] or line[:2] == ["source", "1"] and not shared:
            rest.append(line)
        elif line[0] == "cap" and int(line[3]) in {domain} | more:
            rest.append(["cap"] + line[3:])
    return events, sorted(rest)


def free_part(report: str) -> Part:
    """What a report says of side 0, with its objects and capability ranges numbered anew in their order."""
    lines = [line.split() for line in report.splitlines()]
    whose: dict[int, object] = {n: "root" for n in range(FIRST_OBJECT)}
    ranges: dict[int, int] = {}
    objects: dict[int, int] = {}
    next_object, next_range, events = FIRST_OBJECT, FIRST_RANGE, []

    def object_name(n: int) -> str:
        return f"o{objects[n]}" if n in objects else f'{whose.get(n)}{n if whose.get(n) == "root" else ""}'

    def range_name(n: int) -> str:
        return f"r{ranges[n]}" if n in ranges else f"root{n}" if n < FIRST_RANGE else "other"

    for line in lines:
        if line[0] != "at":
            continue
        cpu, ec, kind, a, b = int(line[2]), int(line[3]), line[4], line[5], line[6]
        side = whose.get(ec)
        if side == "root" and ec != 1 and cpu > 0:  # the root's thread on a side's processor makes that side
            side = cpu - 1
        if makes(line[2:]):
            whose[next_object] = side
            if side == 0:
                objects[next_object] = len(objects)
                ranges[next_range] = len(ranges)
            next_object, next_range = next_object + 1, next_range + 1
        if kind == "made":
            if side == 0:
                ranges[next_range] = len(ranges)
            next_range += 1
        if whose.get(ec) == 0:
            if kind == "made":
                a, b = range_name(int(a)), range_name(int(b))
            elif kind == "gone":
                a, b = range_name(int(a)), object_name(int(b))
            elif kind in NAMES_A:
                a = object_name(int(a))
            elif kind == "sent" or kind == "begin" and a in ("0", "1", "2", "12"):
                b = object_name(int(b))
            events.append((object_name(ec), kind, a, b))
    rest = []
    for line in lines:
        if line[0] in ("ec", "sc", "sm") and int(line[1]) in objects:
            rest.append([line[0], object_name(int(line[1]))] + line[2:])
        elif line[:2] == ["console", "0"]:
            rest.append(line)
        elif line[0] == "cap" and whose.get(int(line[3])) == 0:
            parent = "-" if line[2] == "-" else range_name(int(line[2]))
            target = object_name(int(line[8])) if line[4] == "obj" else line[8]
            rest.append(["cap", range_name(int(line[1])), parent, object_name(int(line[3]))] + line[4:8] + [target])
    return events, rest


def shown(line: list, other: list) -> str:
    """Two lines from shortly before where they differ."""
    texts = [" ".join(map(str, words)) for words in (line, other)]
    at = next((n for n, (first, second) in enumerate(zip(*texts)) if first != second), min(map(len, texts)))
    begin = max(at - 30, 0)
    return " / ".join(("..." if begin else "") + text[begin : at + 20] + ("..." if at + 20 < len(text) else "") for text in texts)


def difference(first: Part, second: Part) -> str | None:
    """The first line in which two parts differ."""
    for lines, others in zip(first, second):
        for line, other in zip(lines, others):
            if line != other:
                return shown(line, other)
        if len(lines) != len(others):
            return f"{len(lines)} lines / {len(others)} lines"
    return None
