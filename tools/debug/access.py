"""What a turn loads or stores, as the program tells it."""

from __future__ import annotations

from dataclasses import dataclass


@dataclass(frozen=True, slots=True)
class Access:
    """Bytes from an address on that are loaded, or the number that is stored there. They are in a frame, from an offset on; or in the message
    words of a thread, where there is no frame."""

    address: int
    width: int
    frame: int | None
    offset: int
    value: int | None = None

    @property
    def stores(self) -> bool:
        """Whether they are stored."""
        return self.value is not None

    def __str__(self) -> str:
        """A store as text: the address, and the number in hexadecimal digits."""
        return "" if self.value is None else f"[{self.address:#x}]={self.value:0{2 * self.width}x}"


def access_of(line: str) -> Access | None:
    """What is told of a turn, by the program's line; none where the turn loads and stores nothing."""
    words = line.split()
    if words[1] == "-":
        return None
    address, width, frame, offset, *value = words[2:]
    return Access(int(address), int(width), None if frame == "-" else int(frame), int(offset), int(value[0]) if value else None)
