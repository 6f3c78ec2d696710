"""The answers of the module's calls, in the words of docs/vectors.txt."""

from __future__ import annotations

import ctypes
import itertools
import struct
import zlib
from collections.abc import Callable, Iterable
from typing import TypeVar

from dimkhoros import (
    EXPONENT,
    Base,
    Entries,
    Forms,
    Header,
    Instance,
    Ledger,
    OrProver,
    OrRound,
    Pair,
    Patterns,
    Prover,
    Refusal,
    Reuse,
    Round,
    RoundFile,
    RoundWriter,
    Team,
    Values,
    Verdict,
    Verifier,
    Watch,
    _structs,
    game,
    mark,
    reason,
)

from .pages import page_a
from .vectors import Inputs, NoCall, numbers_of

# A session of one kind, a struct of lists, and what a call answers.
Session = TypeVar("Session", Prover, Verifier, OrProver)
Lists = TypeVar("Lists", _structs.Ledger, _structs.Entries)
Answer = TypeVar("Answer")

# A call by which a team joins what its players bring.
Joined = Callable[[Team, list[list[int]]], tuple[int, ...]]

PROVER_STATES = ["new", "committed", "answered", "dropped"]
VERIFIER_STATES = ["waiting", "holding", "asked", "judged"]

# What a session holds, in the order in which it is stored: names with the number of places, and its phases.
SESSIONS = {
    Prover: (b"PRV", [("nonce", 8), ("commitment", 8)], PROVER_STATES),
    Verifier: (b"VRF", [("commitment", 8), ("challenge", 1)], VERIFIER_STATES),
    OrProver: (
        b"ORP",
        [("nonce", 8), ("response", 8), ("commitment0", 8), ("commitment1", 8), ("challenge", 1), ("side", 1)],
        PROVER_STATES,
    ),
}

# The versions of the stored form that are not 1.
VERSIONS: dict[type, int] = {Prover: 2}

# What Peggy's session remembers: how many names there are, and how many commitments a list has. A state has 18 numbers.
NAMES, LISTED, STATE = 8, 64, 18

# The order in which a line names what a session of the OR proof holds.
OR_ORDER = ["side", "nonce", "challenge", "response", "commitment0", "commitment1"]


def listed(values: Iterable[int]) -> str:
    """A list of numbers."""
    return ",".join(map(str, values))


def written(made: bytes, buffer: bytes) -> str:
    """What stands in a buffer of these bytes once a file was written to its start. The module lends no buffer."""
    if len(made) > len(buffer):
        raise NoCall("the buffer is too short, and no caller of the module lends one")
    return f"length={len(made)} buffer={(made + buffer[len(made):]).hex()}"


def found_session(kind: type[Session], inputs: Inputs) -> Session:
    """The session that a line describes."""
    mark_of, fields, phases = SESSIONS[kind]
    values = []
    for name, count in fields:
        some = inputs.list(name)
        values += some + [0] * (count - len(some))
    phase = inputs.text("phase")
    if phase not in phases or (kind is OrProver and values[-1] > 1):
        raise NoCall("the module makes no session of a phase or a side that is none")
    values += [phases.index(phase)]
    if kind is Prover:
        values += found_memory(inputs)
    version, length = VERSIONS.get(kind, 1), 11 + 4 * len(values)
    before = struct.pack(f">3sHH{len(values)}I", mark_of, version, length, *values)
    reader = "from_stored" if kind is Verifier else "from_stored_with_nonce"
    read: Callable[[bytes], Session] = getattr(kind, reader)
    return read(before + struct.pack(">I", zlib.crc32(before)))


def padded(values: list[int], count: int = 8) -> list[int]:
    """The values with zeros behind them, so many in all."""
    return values + [0] * (count - len(values))


def found_states(inputs: Inputs) -> list[list[int]]:
    """The states that the session of a line has saved, by name."""
    states = [[0] * STATE for _ in range(NAMES)]
    for piece in inputs.text("saved").split("/") if inputs.has("saved") else []:
        name, phase, nonce, commitment, *flag = piece.split(":")
        number = PROVER_STATES.index(phase) if phase in PROVER_STATES else int(phase)
        state = padded(numbers_of(nonce)) + padded(numbers_of(commitment)) + [number, *map(int, flag or ["1"])]
        states[int(name)] = state
    return states


def found_memory(inputs: Inputs) -> list[int]:
    """What the session of a line remembers, as it is stored: the states by name, the list and its count."""
    states, listed = found_states(inputs), []
    for piece in inputs.text("listed").split("/") if inputs.has("listed") else []:
        values, _, times = piece.partition("*")
        listed += [padded(numbers_of(values))] * int(times or 1)
    count = inputs.number("count") if inputs.has("count") else len(listed)
    if count > LISTED or any(state[16] > 3 or state[17] > 1 for state in states):
        raise NoCall("the module makes no session of a saved phase, a flag or a count that is none")
    entries = listed + [[0] * 8] * (LISTED - len(listed))
    return [*itertools.chain(*states, *entries), count]


def shown_states(values: list[int]) -> list[str]:
    """The states of a memory that are not zeros, each under its name."""
    shown = []
    for name in range(NAMES):
        state = values[STATE * name : STATE * (name + 1)]
        phase, flag = PROVER_STATES[state[16]], "" if state[17] == 1 else f":{state[17]}"
        if any(state):
            shown.append(f"{name}:{phase}:{shortest(state[:8])}:{shortest(state[8:16])}{flag}")
    return [f"saved={'/'.join(shown)}"] if shown else []


def shown_list(values: list[int]) -> list[str]:
    """The commitments of a list that are counted, and those behind them up to the last that is not zeros. Equal ones
    that follow each other are one with their number. The count follows if it is another number."""
    entries, count = [values[8 * place : 8 * place + 8] for place in range(LISTED)], values[-1]
    last = max([count] + [place + 1 for place, entry in enumerate(entries) if any(entry)])
    runs = [(text, len(list(run))) for text, run in itertools.groupby(map(shortest, entries[:last]))]
    words = ["listed=" + "/".join(text if times == 1 else f"{text}*{times}" for text, times in runs)]
    return (words if last else []) + ([f"count={count}"] if count != last else [])


def shown_session(session: Prover | Verifier | OrProver) -> str:
    """What a session holds, as a line has it. Lists are shown up to the last number that is not 0."""
    _, fields, phases = SESSIONS[type(session)]
    stored = session.to_stored()
    values = list(struct.unpack(f">{(len(stored) - 11) // 4}I", stored[7:-4]))
    shown, rest = {}, values
    for name, count in fields:
        places, rest = rest[:count], rest[count:]
        shown[name] = shortest(places)
    order = OR_ORDER if isinstance(session, OrProver) else shown
    words = [f"phase={phases[rest[0]]}"] + [f"{name}={shown[name]}" for name in order]
    if isinstance(session, Prover):
        words += shown_states(rest[1:]) + shown_list(rest[1 + NAMES * STATE :])
    return " ".join(words)


def stepped(session: Prover | Verifier | OrProver, call: Callable[[], Answer]) -> Answer:
    """What a call on a session answers. One that is refused leaves the session as it was, and usable."""
    before = session.to_stored()
    try:
        return call()
    except Refusal:
        if session.to_stored() != before:
            raise AssertionError("a refused call changed the session") from None
        raise


def shortest(places: Iterable[int]) -> str:
    """A list of numbers without the zeros at its end, but for the first number."""
    values = list(places)
    last = max([1] + [place + 1 for place, value in enumerate(values) if value])
    return listed(values[:last])


def found_watch(sheet: bytes, inputs: Inputs) -> _structs.Watch:
    """The watch that a line describes: it holds this sheet and its length where the line does not say otherwise."""
    held = _structs.Watch(count=inputs.number("count"))
    held.length = inputs.number("length") if inputs.has("length") else len(sheet)
    kept = inputs.bytes("held") if inputs.has("held") else sheet
    held.sheet[: len(kept)] = list(kept)
    for place, (t, c, r) in enumerate(inputs.rounds("rounds")):
        held.rounds[place].challenge = c
        held.rounds[place].commitment[: len(t)] = t
        held.rounds[place].response[: len(r)] = r
    return held


def shown_memory(held: _structs.Watch) -> str:
    """How many rounds a watch counts, and its rounds up to the last that is not zeros. Equal ones that follow each
    other are one with their number."""
    shown = [f"{shortest(found.commitment)}:{found.challenge}:{shortest(found.response)}" for found in held.rounds]
    while shown and shown[-1] == "0:0:0":
        shown.pop()
    runs = [(text, len(list(run))) for text, run in itertools.groupby(shown)]
    rounds = "/".join(text if count == 1 else f"{text}*{count}" for text, count in runs)
    return f"count={held.count} rounds={rounds or '-'}"


def shown_bytes(held: _structs.Watch) -> str:
    """The bytes that a watch holds, up to the last that is not 0 and at least as many as its length says."""
    kept = bytes(held.sheet)
    shown = kept[: max(len(kept.rstrip(b"\0")), held.length)]
    return f"held={shown.hex() or '-'}"


def found_base(inputs: Inputs) -> Base:
    """What the lines of a ledger share."""
    return Base(*(inputs.number(name) for name in ["g", "h", "m", "l", "K"]))


def found_lists(inputs: Inputs, name: str, held: Lists) -> Lists:
    """Fills a struct of lists, which go on with zeros, and its count, which a line leaves out if it is as many as there
    are."""
    found, fields = inputs.repeated(name), getattr(held, name)
    for place, values in enumerate(found):
        ctypes.memmove(ctypes.byref(fields[place]), (ctypes.c_uint32 * len(values))(*values), 4 * len(values))
    held.count = inputs.number("count") if inputs.has("count") else len(found)
    return held


def shown_lines(held: _structs.Ledger) -> str:
    """The lines of a ledger that are counted, and those behind them up to the last that is not zeros. Equal ones that
    follow each other are one with their number. The count follows if it is another number."""
    size = ctypes.sizeof(held.lines[0]) // 4
    lists = [list((ctypes.c_uint32 * size).from_buffer_copy(line)) for line in held.lines]
    last = max([min(held.count, len(lists))] + [place + 1 for place, values in enumerate(lists) if any(values)])
    runs = [(text, len(list(run))) for text, run in itertools.groupby(map(shortest, lists[:last]))]
    lines = "/".join(text if times == 1 else f"{text}*{times}" for text, times in runs)
    return f"lines={lines or '-'}" + (f" count={held.count}" if held.count != last else "")


def or_round(inputs: Inputs, behind: str) -> OrRound:
    """The round of the OR proof whose names end so."""
    t0, t1 = inputs.list("t0" + behind), inputs.list("t1" + behind)
    c, c0 = inputs.number("c" + behind), inputs.number("c0" + behind)
    return OrRound(t0, t1, c, c0, inputs.list("r0" + behind), inputs.list("r1" + behind))


class Answers:
    """The answers to the calls of lines for which these bytes are given, a method for each call."""

    def __init__(self, given: dict[str, bytes], expected: str) -> None:
        """The bytes that are given, and the answer that is expected, for what the module refuses earlier than the
        call."""
        self.given, self.expected = given, expected

    @property
    def sheet(self) -> Instance:
        """The sheet."""
        return Instance.load(self.given["sheet"])

    @property
    def file(self) -> RoundFile:
        """The round file."""
        return RoundFile.open(self.sheet, self.given["file"])

    @property
    def pair(self) -> Pair:
        """Both sheets. Each number is asked of both before the next."""
        refused, sheets = [], []
        for name in ["sheet", "second_sheet"]:
            try:
                sheets.append(Instance.load(self.given[name]))
            except Refusal as refusal:
                refused.append(refusal.number)
        if refused:
            raise Refusal(min(refused))
        return Pair(*sheets)

    def load(self, inputs: Inputs) -> str:
        """The sheet's fields and its statement."""
        header = self.sheet.header
        fields = [header.kind, header.modulus, header.order, header.challenges, header.rows, header.columns]
        words = [f"{name}={value}" for name, value in zip(["kind", "m", "l", "K", "s", "n"], fields)]
        return " ".join([*words, f"z={listed(self.sheet.values.statement)}"])

    def entries(self, inputs: Inputs) -> str:
        """The table, which the module does not have of a root sheet."""
        header = self.sheet.header
        zeros = [[0] * header.columns] * header.rows
        table = self.sheet.values.entries if header.kind == EXPONENT else zeros
        return f"entries={'/'.join(map(listed, table))}"

    def encode(self, inputs: Inputs) -> str:
        """The sheet of values."""
        header = Header(*(inputs.number(name) for name in ["kind", "m", "l", "K", "s", "n"]))
        values = Values(header, inputs.rows("entries"), inputs.list("z"))
        return written(Instance.encode(values).bytes, inputs.bytes("buffer"))

    def patterns(self, inputs: Inputs) -> str:
        """The shipped pattern file."""
        return written(Patterns.shipped().bytes, inputs.bytes("buffer"))

    def from_pattern(self, inputs: Inputs) -> str:
        """The sheet of a pattern."""
        patterns = Patterns.load(self.given["pattern_file"])
        fields = {"modulus": "m", "order": "l", "challenges": "K"}
        fixed = {field: inputs.number(name) for field, name in fields.items()}
        values, z = inputs.list("values"), inputs.list("z")
        made = Instance.from_pattern(patterns, inputs.number("pattern"), **fixed, values=values, statement=z)
        return written(made.bytes, inputs.bytes("buffer"))

    def linear(self, inputs: Inputs) -> str:
        """The sheet of linear forms."""
        coefficients = itertools.chain.from_iterable(inputs.rows("coefficients"))
        forms = Forms(inputs.number("s"), inputs.number("n"), tuple(coefficients))
        fields = {"modulus": "m", "order": "l", "challenges": "K"}
        fixed = {field: inputs.number(name) for field, name in fields.items()}
        generators, z = inputs.list("generators"), inputs.list("z")
        made = Instance.from_forms(forms, **fixed, generators=generators, statement=z)
        return written(made.bytes, inputs.bytes("buffer"))

    def count(self, inputs: Inputs) -> str:
        """How many rounds the file has."""
        return f"count={len(self.file)}"

    def check(self, inputs: Inputs) -> str:
        """Whether a round can be read."""
        self.file.part(inputs.number("round"))
        return "0"

    def part(self, inputs: Inputs) -> str:
        """Where a round stands. The part is empty where the round is refused."""
        try:
            part = self.file.part(inputs.number("round"))
        except Refusal:
            part = slice(0, 0)
        return f"offset={part.start} length={part.stop - part.start}"

    def read(self, inputs: Inputs) -> str:
        """The values of a round."""
        found = self.file.read(inputs.number("round"))
        return f"t={listed(found.commitment)} c={found.challenge} r={listed(found.response)}"

    def same_commitment(self, inputs: Inputs) -> str:
        """Whether two rounds have the same commitment."""
        return f"same={int(self.file.same_commitment(inputs.number('i'), inputs.number('j')))}"

    def empty(self, inputs: Inputs) -> str:
        """A file of no rounds, which is the same for every sheet."""
        made = RoundWriter.start(page_a(), inputs.number("version"))
        return written(made.file.bytes, inputs.bytes("buffer"))

    def append(self, inputs: Inputs) -> str:
        """A round more in a file."""
        buffer, used, sheet = inputs.bytes("buffer"), inputs.number("used"), self.sheet
        if used > len(buffer):
            raise NoCall("more bytes are in use than the buffer has, and no caller of the module lends one")
        writer = RoundWriter.resume(sheet, buffer[:used])
        writer.append(self.round(inputs, ""))
        return written(writer.file.bytes, buffer)

    def convert(self, inputs: Inputs) -> str:
        """The file in its other version."""
        return written(self.file.convert().bytes, inputs.bytes("buffer"))

    @staticmethod
    def round(inputs: Inputs, behind: str) -> Round:
        """The round whose names end so."""
        return Round(inputs.list("t" + behind), inputs.number("c" + behind), inputs.list("r" + behind))

    def judge(self, inputs: Inputs) -> str:
        """A verdict."""
        return self.verdict(self.sheet.judge(self.round(inputs, "")))

    @staticmethod
    def verdict(verdict: Verdict) -> str:
        """A verdict in words."""
        return " ".join(["accepted" if verdict else "rejected", *map(str, verdict.rows)])

    def simulate(self, inputs: Inputs) -> str:
        """A simulated commitment."""
        return f"t={listed(self.sheet.simulate(inputs.number('c'), inputs.list('r')))}"

    def extract(self, inputs: Inputs) -> str:
        """An extracted witness."""
        return f"x={listed(self.sheet.extract(self.round(inputs, ''), self.round(inputs, '2')))}"

    def or_judge(self, inputs: Inputs) -> str:
        """A verdict on a round of the OR proof."""
        verdict = self.pair.judge(or_round(inputs, ""))
        rows = [f"rows{side}={listed(rows) or '-'}" for side, rows in enumerate([verdict.rows0, verdict.rows1])]
        return "accepted" if verdict else " ".join(["rejected", *rows])

    def or_extract(self, inputs: Inputs) -> str:
        """An extracted witness of one of two sheets."""
        found = self.pair.extract(or_round(inputs, ""), or_round(inputs, "_2"))
        return f"side={int(found.side)} x={listed(found.values)}"

    def team_commitment(self, inputs: Inputs) -> str:
        """The players' commitments joined."""
        return f"t={listed(self.team(inputs, 't', Team.join_commitments))}"

    def team_response(self, inputs: Inputs) -> str:
        """The players' responses joined."""
        return f"r={listed(self.team(inputs, 'r', Team.join_responses))}"

    def team(self, inputs: Inputs, name: str, join: Joined) -> tuple[int, ...]:
        """What one of the two calls joins. Players beyond those of the line bring what the first one does."""
        players, images, brought = inputs.number("players"), inputs.rows("images"), inputs.rows(name)
        if self.expected == "refused 27" and players > 300:
            raise NoCall("so many players are not listed")
        try:
            sheet = self.sheet
            team = Team(sheet, (images + images[:1] * players)[:players])
        except Refusal as refusal:
            self.refused_early(refusal.number)
            raise
        return join(team, brought[:players])

    def refused_early(self, number: int) -> None:
        """The module refuses a sheet before it looks at a team, and a team before it looks at what that brings."""
        later = {10: ["refused 27"], 11: ["refused 27"], 28: ["refused 14", "refused 16"]}
        if self.expected in later.get(number, []):
            raise NoCall("the sheet or the team is refused before the call is made")

    def watch_open(self, inputs: Inputs) -> str:
        """A watch that is opened."""
        held = Watch.open(self.sheet)._held
        return f"{shown_memory(held)} length={held.length} {shown_bytes(held)}"

    def watch_round(self, inputs: Inputs) -> str:
        """What a watch says of a round, and the watch without what it holds of the sheet. A call that is refused leaves
        the watch as it was."""
        sheet = self.sheet
        watch = Watch._of(sheet, found_watch(sheet.bytes, inputs))
        before = bytes(watch._held)
        try:
            heard = watch.hear(self.round(inputs, ""))
        except Refusal:
            if bytes(watch._held) != before:
                raise AssertionError("a refused call changed the watch") from None
            raise
        held, none = watch._held, Reuse(0, (0,) * sheet.header.columns)
        reuse = heard.reuse or none
        words = [self.verdict(heard.verdict), f"back={reuse.back} x={listed(reuse.witness)}", shown_memory(held)]
        words += [f"length={held.length}"] if held.length != len(sheet.bytes) else []
        words += [shown_bytes(held)] if bytes(held.sheet) != sheet.bytes.ljust(308, b"\0") else []
        return " ".join(words)

    def ledger_check(self, inputs: Inputs) -> str:
        """What a ledger is found to be."""
        found = Ledger._of(found_base(inputs), found_lists(inputs, "lines", _structs.Ledger())).check()
        return "accepted" if found else f"rejected {found.line}"

    def ledger_write(self, inputs: Inputs) -> str:
        """A ledger that is made."""
        base, entries = found_base(inputs), Entries()
        found_lists(inputs, "entries", entries._held)
        return shown_lines(Ledger.write(base, entries)._held)

    def mark(self, inputs: Inputs) -> str:
        """The marker's text."""
        return mark(self.given["sheet"], self.given["file"], inputs.bytes("level")).replace("\n", "\\n")

    def reason(self, inputs: Inputs) -> str:
        """The reason's line."""
        return reason(self.given["sheet"], self.given["file"]).replace("\n", "\\n")

    def game(self, inputs: Inputs) -> str:
        """The game's text."""
        return game(self.given["sheet"], self.given["file"]).replace("\n", "\\n")

    def prover_new(self, inputs: Inputs) -> str:
        """A new session of Peggy's."""
        return shown_session(Prover())

    def prover_commit(self, inputs: Inputs) -> str:
        """A commitment."""
        peggy, k, sheet = found_session(Prover, inputs), inputs.list("k"), self.sheet
        after, t = stepped(peggy, lambda: peggy.commit(sheet, k))
        return f"t={listed(t)} {shown_session(after)}"

    def prover_respond(self, inputs: Inputs) -> str:
        """A response."""
        peggy, c, x, sheet = found_session(Prover, inputs), inputs.number("c"), inputs.list("x"), self.sheet
        after, r = stepped(peggy, lambda: peggy.respond(sheet, c, x))
        return f"r={listed(r)} {shown_session(after)}"

    def prover_drop(self, inputs: Inputs) -> str:
        """A session that is given up."""
        peggy = found_session(Prover, inputs)
        return shown_session(stepped(peggy, peggy.drop))

    def prover_save(self, inputs: Inputs) -> str:
        """A session that is saved under a name."""
        peggy, name = found_session(Prover, inputs), inputs.number("name")
        return shown_session(stepped(peggy, lambda: peggy.save(name)))

    def prover_return(self, inputs: Inputs) -> str:
        """A session that returns to what was saved under a name."""
        peggy, name = found_session(Prover, inputs), inputs.number("name")
        return shown_session(stepped(peggy, lambda: peggy.return_to(name)))

    def verifier_new(self, inputs: Inputs) -> str:
        """A new session of Vic's."""
        return shown_session(Verifier())

    def verifier_commitment(self, inputs: Inputs) -> str:
        """A commitment that is brought."""
        vic, t, sheet = found_session(Verifier, inputs), inputs.list("t"), self.sheet
        return shown_session(stepped(vic, lambda: vic.take_commitment(sheet, t)))

    def verifier_challenge(self, inputs: Inputs) -> str:
        """A challenge that is brought."""
        vic, c, sheet = found_session(Verifier, inputs), inputs.number("c"), self.sheet
        return shown_session(stepped(vic, lambda: vic.take_challenge(sheet, c)))

    def verifier_response(self, inputs: Inputs) -> str:
        """A response that is brought."""
        vic, r, sheet = found_session(Verifier, inputs), inputs.list("r"), self.sheet
        after, verdict = stepped(vic, lambda: vic.take_response(sheet, r))
        return f"{self.verdict(verdict)} {shown_session(after)}"

    def or_prover_new(self, inputs: Inputs) -> str:
        """A new session of Peggy's of the OR proof."""
        return shown_session(OrProver())

    def or_prover_commit(self, inputs: Inputs) -> str:
        """Both commitments."""
        peggy, pair, known = found_session(OrProver, inputs), self.pair, inputs.number("known")
        if known > 1:
            raise NoCall("the module takes no side but 0 and 1")
        k, d, r = inputs.list("k"), inputs.number("d"), inputs.list("r")
        after, (t0, t1) = stepped(peggy, lambda: peggy.commit(pair, known, k, d, r))
        return f"t0={listed(t0)} t1={listed(t1)} {shown_session(after)}"

    def or_prover_respond(self, inputs: Inputs) -> str:
        """A round of the OR proof, of which the line has all but the commitments and c."""
        peggy, pair, c, x = found_session(OrProver, inputs), self.pair, inputs.number("c"), inputs.list("x")
        after, made = stepped(peggy, lambda: peggy.respond(pair, c, x))
        if (made.commitment0, made.commitment1) != after.commitments or made.challenge != c:
            raise AssertionError("the round has not the session's commitments and the challenge")
        r0, r1 = listed(made.response0), listed(made.response1)
        return f"c0={made.challenge0} r0={r0} r1={r1} {shown_session(after)}"

    def or_prover_drop(self, inputs: Inputs) -> str:
        """A session of the OR proof that is given up."""
        peggy = found_session(OrProver, inputs)
        return shown_session(stepped(peggy, peggy.drop))
