"""Writes the sides of a state as a graph for Graphviz: what `sides_picture` draws."""

from __future__ import annotations

from collections.abc import Iterator

from sides import TRUSTED, Told
from sides_lines import Edge, Stream, Way, edges_of, side_text, sides_of, streams_of
from sides_picture import notes_of, verdict

RED = "color=red, fontcolor=red, penwidth=2"
STYLES = {Way.FLOWS: "penwidth=2", Way.BREAKS: RED, Way.READS: "dir=none"}


def quoted(text: str) -> str:
    """A text of DOT."""
    return '"' + text.replace("\\", "\\\\").replace('"', '\\"') + '"'


def cluster(rank: int, name: str, domains: list[int]) -> str:
    """A side with its domains."""
    style = "; style=filled; fillcolor=gray95" if name == TRUSTED else ""
    boxes = "; ".join(f"d{domain} [label={quoted(f'domain {domain}')}]" for domain in domains)
    return f"  subgraph cluster_{rank} {{ label={quoted(side_text(name))}{style}; {boxes} }}"


def edge_line(edge: Edge) -> str:
    """The ties of a domain to another."""
    style = "" if edge.strict else ", style=dashed"
    return f"  d{edge.source} -> d{edge.target} [label={quoted(edge.text)}{style}{f', {RED}' if edge.broken else ''}]"


def stream_line(stream: Stream, ranks: dict[str, int]) -> str:
    """The memory of two sides, between two of their domains, and cut at the sides' borders."""
    source, target = stream.common[0].tie.source.domain, stream.common[0].tie.target.domain
    ends = f"ltail=cluster_{ranks[stream.source]}, lhead=cluster_{ranks[stream.target]}"
    text = "\n".join((stream.text, *stream.texts))
    return f"  d{source} -> d{target} [label={quoted(text)}, {ends}, {STYLES[stream.way]}]"


def shared_lines(told: Told, sides: dict[str, list[int]], ranks: dict[str, int]) -> Iterator[str]:
    """Each semaphore that sides share, and who does."""
    for shared in told.shared:
        yield f"  s{shared.semaphore} [label={quoted(f'semaphore {shared.semaphore}')}, shape=ellipse]"
        for name, may in shared.sharers:
            if sides.get(name):
                yield f"  s{shared.semaphore} -> d{sides[name][0]} [label={quoted(may)}, lhead=cluster_{ranks[name]}, dir=none, style=dotted]"


def dot(title: str, told: Told, named: dict[int, str]) -> str:
    """The sides of an answer. `named` has the side of each domain that a policy names."""
    sides = sides_of(told, named)
    ranks = {name: rank for rank, name in enumerate(sides)}
    edges, streams = edges_of(told), streams_of(told, sides)
    label = "\n".join([f"{title}: {verdict(told)}", *(text for text, _ in notes_of(told, edges, streams))])
    lines = ["digraph sides {", f"  label={quoted(label)}", "  compound=true", "  node [shape=box]"]
    lines += [cluster(ranks[name], name, domains) for name, domains in sides.items()]
    lines += map(edge_line, edges)
    lines += [stream_line(stream, ranks) for stream in streams]
    return "\n".join([*lines, *shared_lines(told, sides, ranks), "}", ""])
