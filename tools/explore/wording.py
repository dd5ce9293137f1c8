"""What is asked for, as a clause: `an assertion fails`, `EC 6 dies`."""

from __future__ import annotations

from collections.abc import Sequence

OTHERWISE = "what is asked for comes"


def context(word: str) -> str:
    """An execution context, by its number or its name."""
    return f"EC {word}" if word[:1].isdigit() else word


def quoted(text: str) -> str:
    """A text in quotes, on one line."""
    return '"' + text.encode("unicode_escape").decode().replace('"', '\\"') + '"'


def clause_of(words: Sequence[str]) -> str:
    """What the words of a question ask for, with the names that were given."""
    match list(words):
        case ["asserts"]:
            return "an assertion fails"
        case ["blocked"]:
            return "the run ends and an execution context waits"
        case ["dies"]:
            return "an execution context dies"
        case ["dies", one]:
            return f"{context(one)} dies"
        case ["dies", "but", one]:
            return f"an execution context but {context(one)} dies"
        case ["at", domain, address]:
            return f"domain {domain} is about to execute {address}"
        case ["at", first, here, second, there]:
            return f"domain {first} is about to execute {here} and domain {second} {there}"
        case ["hangs", turns]:
            return f"the run hangs for {turns} turns"
        case ["hangs", turns, one]:
            return f"{context(one)} hangs for {turns} turns"
        case ["stores", variable]:
            return f"a turn stores to {variable}"
        case ["stores", frame, first, last]:
            return f"a turn stores to the bytes {first} to {last} of frame {frame}"
        case ["stuck", one]:
            return f"the run ends and {context(one)} isn't dead"
        case ["text", console, text]:
            return f"console {console} shows {quoted(text)} first"
        case ["console", console, digits]:
            return f"console {console} shows the bytes {digits} first"
        case ["word", place, value]:
            return f"{place} is {value}"
        case ["word", frame, offset, value]:
            return f"the word at {offset} of frame {frame} is {value}"
        case _:
            return OTHERWISE
