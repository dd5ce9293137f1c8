"""Answers gdb's packets: a protection domain is an inferior, and an execution context a thread."""

from __future__ import annotations

from collections.abc import Callable
from typing import TextIO

from backend import BackEnd, Context, Refused
from going import Breakpoint, Going, Stop
from naming import Names
from packets import Closed, Line

REGISTERS = 33
# A register that isn't there, and where an execution context is that isn't made yet: gdb goes on only if it knows where the selected
# thread is, and steps off a breakpoint first if one is there. So it is an address that no instruction has.
UNKNOWN, NOWHERE = "x" * 8, "f" * 8
WATCHES = {"2": "watch", "3": "rwatch", "4": "awatch"}
HELP = """turn        the present turn, and how many the run has
event       what the last turn came to
contexts | delegations [PD] | semaphores | console [N]
goto N      go to turn N; then `maintenance flush register-cache`
until N     stop at turn N too, forwards and backwards
stop KIND.. stop after turns with these events (raise sent died begin answer made gone ..), backwards before them
unstop      forget until and stop
"""
NAMES = "zero ra sp gp tp t0 t1 t2 fp s1 a0 a1 a2 a3 a4 a5 a6 a7 s2 s3 s4 s5 s6 s7 s8 s9 s10 s11 t3 t4 t5 t6".split()
TYPES = {"sp": "data_ptr", "ra": "code_ptr", "fp": "data_ptr"}
# Without `osabi` gdb steps by breakpoints of its own.
DESCRIPTION = (
    '<?xml version="1.0"?><!DOCTYPE target SYSTEM "gdb-target.dtd"><target version="1.0"><architecture>riscv:rv32</architecture>'
    '<osabi>none</osabi><feature name="org.gnu.gdb.riscv.cpu">'
    + "".join(f'<reg name="{name}" bitsize="32" type="{TYPES.get(name, "int")}" regnum="{n}"/>' for n, name in enumerate(NAMES))
    + '<reg name="pc" bitsize="32" type="code_ptr" regnum="32"/></feature></target>'
)
READ_ONLY = "E.registers and memory are only read: with another value it would be another run"
SIGNALS = {"interrupt": 2, "birth": 0}


class Target:
    """A run, as gdb sees it."""

    def __init__(self, line: Line, back: BackEnd, one: bool, names: Names = Names()) -> None:
        self._line = line
        self._back = back
        self._one = one
        self._names = names
        self._going = Going(back, line.interrupted)
        self._multi = False
        # Those that were there at some turn: gdb doesn't take back the last thread of an inferior.
        self._ever: dict[int, Context] = {}
        self._general = 1
        self._resumed = 1
        self._alone = False
        self._last_stop = ""
        self._domains = {context.domain for context in self._look().values()}
        # A breakpoint of one inferior is in all domains, in those too that are made later.
        self._later = self._at_end() if one else set()

    def _at_end(self) -> set[int]:
        """The domains of the execution contexts that are there at the end of the run; one is left where one was."""
        here = self._back.turn
        self._back.go(self._back.end)
        domains = {context.domain for context in self._back.contexts().values()}
        self._back.go(here)
        return domains

    # Threads

    def _look(self) -> dict[int, Context]:
        """The execution contexts of the present state."""
        contexts = self._back.contexts()
        self._ever.update(contexts)
        return contexts

    def _process(self, context: Context) -> int:
        return 1 if self._one else context.domain + 1

    def _name(self, number: int) -> str:
        process = self._process(self._ever[number])
        return f"p{process:x}.{number:x}" if self._multi else f"{number:x}"

    def _number(self, text: str) -> int:
        """The execution context that a thread's name means; of a whole process the first."""
        process, thread = "", text
        if text.startswith("p"):
            process, _, thread = text[1:].partition(".")
        if thread not in ("", "-1", "0"):
            return int(thread, 16)
        for number, context in self._look().items():
            if process in ("", "-1", "0") or int(process, 16) == self._process(context):
                return number
        return 1

    def _state(self, number: int) -> str:
        context = self._look().get(number)
        if context is None:
            return "not made yet"
        words = [f"cpu {context.cpu}, {context.state}"]
        if context.awaited is not None:
            words.append(f"at {context.awaited}" if context.state == "blocked" else f"to {context.awaited}")
        if context.caller is not None:
            words.append(f"serves {context.caller}")
        return " ".join(words)

    # Going on

    def _born(self, stop: Stop, before: int) -> Stop:
        """A domain's first execution context makes a stop of its own, so that gdb learns of its inferior before it needs it. Of what is
        made later gdb isn't told yet."""
        contexts = self._back.contexts()
        born = [n for n, c in contexts.items() if c.domain not in self._domains]
        if not born or not self._multi or self._one:
            return stop
        number = min(born, key=lambda n: self._going.first_turn(n, before))
        self._back.go(self._going.first_turn(number, before))
        self._domains.add(contexts[number].domain)
        return Stop(number, "birth")

    def _reply(self, stop: Stop, back: bool) -> str:
        contexts = self._look()
        said = ""
        if stop.why == "end":
            said = f"replaylog:{'begin' if back else 'end'};"
        elif stop.why == "break":
            said = "swbreak:;"
        elif stop.address or stop.why in WATCHES.values():
            said = f"{stop.why}:{stop.address:x};"
        thread = next((n for n in (stop.context, self._resumed, self._general) if n in contexts), 1)
        self._general = self._resumed = thread
        signal = SIGNALS.get(stop.why, 5)
        self._last_stop = f"T{signal:02x}{said}thread:{self._name(thread)};core:{contexts[thread].cpu:x};"
        return self._last_stop

    def _resume(self, back: bool, stepped: bool) -> str:
        going, number, before = self._going, self._resumed or self._general, self._back.turn
        if stepped:
            stop = going.step_back(number, self._alone) if back else going.step(number, self._alone)
        else:
            stop = going.backwards() if back else going.forwards()
        return self._reply(stop if back else self._born(stop, before), back)

    # Packets

    def _answer(self, packet: str) -> str:
        for start, act in self.ACTS:
            if packet.startswith(start):
                return act(self, packet[len(start) :])
        return ""

    def _supported(self, said: str) -> str:
        self._multi = "multiprocess+" in said
        return (
            "PacketSize=4000;QStartNoAckMode+;qXfer:features:read+;qXfer:threads:read+;vContSupported+;swbreak+;hwbreak+;"
            "ReverseStep+;ReverseContinue+" + (";multiprocess+" if self._multi else "")
        )

    def _without_signs(self, _said: str) -> str:
        self._line.send("OK")
        self._line.acknowledges = False
        return "\0"

    def _part(self, whole: str, said: str) -> str:
        start, length = (int(n, 16) for n in said.split(":")[-1].split(","))
        return ("m" if start + length < len(whole) else "l") + whole[start : start + length]

    def _threads(self, said: str) -> str:
        self._look()
        rows = [
            f'<thread id="{self._name(n)}" core="{c.cpu}" name="{self._names.of(n, "ec")} {c.kind}">{self._state(n)}</thread>' for n, c in self._ever.items()
        ]
        return self._part('<?xml version="1.0"?><threads>' + "".join(rows) + "</threads>", said)

    def _select(self, said: str) -> str:
        number = self._number(said[1:])
        if number not in self._ever:
            return "E01"
        if said[0] == "g":
            self._general = number
        else:
            self._alone = not said[1:].endswith(("-1", "0"))
            self._resumed = number if self._alone else 0
        return "OK"

    def _registers(self, _said: str) -> str:
        context = self._look().get(self._general)
        if context is None:
            return UNKNOWN * (REGISTERS - 1) + NOWHERE
        return "".join(value.to_bytes(4, "little").hex() for value in context.registers)

    def _register(self, said: str) -> str:
        number, context = int(said, 16), self._look().get(self._general)
        if number >= REGISTERS:
            return "E01"
        if context is None:
            return NOWHERE if number == REGISTERS - 1 else UNKNOWN
        return context.registers[number].to_bytes(4, "little").hex()

    def _read(self, said: str) -> str:
        address, length = (int(n, 16) for n in said.split(","))
        context = self._look().get(self._general)
        found = self._back.read(context, address, length) if context else b""
        return found.hex() or "E14"

    def _point(self, said: str, add: bool) -> str:
        kind, address, size = said.split(";")[0].split(",")
        self._look()
        context = self._ever[self._general]
        if kind in ("0", "1"):
            every = {c.domain for c in self._ever.values()} | self._later
            domains = every if self._one or not self._multi else {context.domain}
            points = [Breakpoint(domain, int(address, 16)) for domain in domains]
        elif add:
            points = [self._going.watch(context, int(address, 16), int(size, 16), WATCHES[kind])]
        else:
            wanted = (int(address, 16), WATCHES[kind])
            points = [p for p in self._going.points if not isinstance(p, Breakpoint) and (p.address, p.kind) == wanted]
        for point in points:
            if add and point not in self._going.points:
                self._going.points.append(point)
            if not add and point in self._going.points:
                self._going.points.remove(point)
        return "OK"

    def _go_on(self, said: str) -> str:
        actions = said.split(";")
        self._alone = len(actions) == 1 and actions[0][0] in "sS"
        for action in actions:
            what, _, thread = action.partition(":")
            if thread:
                self._resumed = self._number(thread)
            if what[0] in "sScC":
                return self._resume(False, what[0] in "sS")
        return self._last_stop

    def _command(self, said: str) -> str:
        words = bytes.fromhex(said).decode().split() or ["help"]
        try:
            answer = self._monitor(words[0], words[1:])
        except (Refused, ValueError, IndexError) as why:
            answer = f"{why}\n{HELP}"
        return (answer.rstrip("\n") + "\n").encode().hex()

    def _monitor(self, verb: str, rest: list[str]) -> str:
        going, back = self._going, self._back
        match verb:
            case "turn":
                return f"turn {back.turn} of {back.end}"
            case "event":
                return "none yet" if not back.turn else back.ask(f"events {back.turn - 1} {back.turn}")[0]
            case "contexts":
                return "\n".join(self._names.line(f"ec {n} {c.kind} in {c.domain}: {self._state(n)}") for n, c in self._look().items())
            case "delegations":
                return "\n".join(line for line in back.delegations() if not rest or line.split()[3] == rest[0])
            case "semaphores":
                return "\n".join(map(self._names.line, back.semaphores())) or "none"
            case "console":
                return self._console(int(rest[0]) if rest else 0)
            case "goto":
                back.go(int(rest[0]))
                self._look()
                return f"turn {back.turn} of {back.end}\nnow: maintenance flush register-cache"
            case "until":
                going.until = int(rest[0])
            case "stop":
                going.kinds.update(rest)
            case "unstop":
                going.until = None
                going.kinds.clear()
            case _:
                return HELP
        return "ok"

    def _console(self, number: int) -> str:
        for line in self._back.ask("consoles"):
            _, console, shown = line.split()
            if int(console) == number:
                return "" if shown == "-" else bytes.fromhex(shown).decode("latin-1")
        raise Refused(f"there is no console {number}")

    def _end(self, _said: str) -> str:
        raise Closed

    ACTS: tuple[tuple[str, Callable[[Target, str], str]], ...] = (
        ("qSupported", _supported),
        ("QStartNoAckMode", _without_signs),
        ("qXfer:features:read:target.xml:", lambda self, said: self._part(DESCRIPTION, said)),
        ("qXfer:threads:read:", _threads),
        ("qRcmd,", _command),
        ("qAttached", lambda self, said: "1"),
        ("qC", lambda self, said: f"QC{self._name(self._general)}"),
        ("qfThreadInfo", lambda self, said: "m" + ",".join(map(self._name, self._look()))),
        ("qsThreadInfo", lambda self, said: "l"),
        ("?", lambda self, said: self._last_stop or self._reply(Stop(self._general), False)),
        ("H", _select),
        ("T", lambda self, said: "OK" if self._number(said) in self._ever else "E01"),
        ("g", _registers),
        ("p", _register),
        ("G", lambda self, said: READ_ONLY),
        ("P", lambda self, said: READ_ONLY),
        ("m", _read),
        ("M", lambda self, said: READ_ONLY),
        ("X", lambda self, said: READ_ONLY),
        ("Z", lambda self, said: self._point(said, True)),
        ("z", lambda self, said: self._point(said, False)),
        ("vCont?", lambda self, said: "vCont;c;C;s;S"),
        ("vCont;", _go_on),
        # Other inferiors stay; with its last gdb goes.
        ("vKill", lambda self, said: "OK"),
        ("c", lambda self, said: self._resume(False, False)),
        ("s", lambda self, said: self._resume(False, True)),
        ("bc", lambda self, said: self._resume(True, False)),
        ("bs", lambda self, said: self._resume(True, True)),
        ("D", lambda self, said: "OK"),
        ("k", _end),
    )

    def serve(self, log: TextIO | None) -> None:
        """Answers packets until gdb has gone."""
        while True:
            packet = self._line.packet()
            try:
                said = self._answer(packet)
            except Refused as why:
                said = f"E.{why}"
            except (ValueError, KeyError, IndexError):
                said = "E01"
            if log:
                print(f"> {packet}\n< {said}", file=log, flush=True)
            if said != "\0":
                self._line.send(said)
