"""Which places of a program make an object in a loop in a region that is older than the loop, and why: what tools/regions
--warn prints.

A region ends as a whole. So the objects of such a place stay until the region ends, however many turns the loop has. That
is what is wanted where a structure is built that is used later, and a leak where each turn is done with its objects.

An object is made by an instruction, or by a function that is called or started and makes it in a region that it is given.
The region is older than the loop if there is a way from the instruction back to itself on which the region is not created
anew. The reason is a shortest chain of instructions that put the object, or what the function returns, into one region
with a variable that is live where these ways begin.
"""

import collections
import dataclasses

import code_names
import code_producer
import code_text
from code_producer import RESULT
from code_text import GLOBAL, callee_of

MAKERS = {"new": None, "slice": "slice", "chan": "channel"}


@dataclasses.dataclass(frozen=True)
class Warning:
    """A place in a loop. `what` is made there, in the region of `older`; `chain` says why, each step with its function
    and its place; `members` are the variables of the region that have names; `origins` are where it is created."""

    function: str
    place: int
    what: str
    older: str
    chain: tuple
    members: tuple
    origins: tuple


@dataclasses.dataclass(frozen=True)
class Origin:
    """Where a region is created, and whether that is in a loop, or in a function that a loop calls. Without a place it is
    that of the package variables, which is never removed."""

    function: str | None
    place: int | None
    in_loop: bool = False
    is_called_by_loop: bool = False


def reached(start, steps, avoided):
    """What can be reached from a number by at least one step, without those that are avoided. `steps` has, for each
    number, those that follow it."""
    seen, left = set(), list(steps[start])
    while left:
        one = left.pop()
        if one not in seen and one not in avoided:
            seen.add(one)
            left += steps[one]
    return seen


class Flow:
    """Which instructions of a function follow each other."""

    def __init__(self, f):
        self.after = [[to for to, _ in code_text.edges(op, at) if to < len(f.body)] for at, op in enumerate(f.body)]
        self.before = [[] for _ in f.body]
        for at, following in enumerate(self.after):
            for to in following:
                self.before[to].append(at)

    def loop(self, at, avoided=()):
        """The instructions on the ways from one back to itself that avoid some others. Empty if none exists."""
        return reached(at, self.after, avoided) & reached(at, self.before, avoided) if at not in avoided else set()

    def entries(self, loop):
        """The instructions of a loop at which it begins."""
        return [at for at in loop if at == 0 or any(one not in loop for one in self.before[at])]


class Program:
    """A code with its source."""

    def __init__(self, code, source):
        self.code, self.source = code, source
        self.names = {f.name: code_names.names_of(f, head, source.text) for f, head in zip(code.functions, source.heads)}
        self.live = {f.name: code_text.live_variables(f) for f in code.functions}
        self.flow = {f.name: Flow(f) for f in code.functions}
        self.summaries = {
            f.name: [*(v.cls for v in f.variables[: f.count]), f.result.cls if f.result else None] for f in code.functions
        }
        # For each function and class the number of an instruction that makes an object there, directly if there is one.
        self.makes = {}
        # Each call and each start: the function that has it, its number there, and its instruction.
        self.calls = [(f, at, op) for f in code.functions for at, op in enumerate(f.body) if "f" in op.parts]
        self.called, self.callers = collections.defaultdict(list), collections.defaultdict(list)
        for f, _, op in self.calls:
            self.called[f.name].append(op.parts["f"][0])
            self.callers[op.parts["f"][0]].append((f, op))
        self.find_makers()
        self.called_by_loops = self.find_called_by_loops()

    # ---- what makes objects

    def made_at(self, f, op):
        """The classes in which an instruction makes an object, or lets a function make one, each with that function's
        class."""
        if op.word in MAKERS:
            return {f.variables[op.parts["d"]].cls: None}
        if "R" not in op.parts:
            return {}
        callee = callee_of(self.code, op)
        passed = dict(zip(code_text.region_parameters(callee), op.parts["R"]))
        passed[GLOBAL] = GLOBAL
        return {actual: formal for formal, actual in passed.items() if (callee.name, formal) in self.makes}

    def find_makers(self):
        for is_direct in (True, False):
            before = None
            while before != len(self.makes):
                before = len(self.makes)
                for f in self.code.functions:
                    for at, op in enumerate(f.body):
                        if (op.word in MAKERS) == is_direct:
                            for cls in self.made_at(f, op):
                                self.makes.setdefault((f.name, cls), at)

    # ---- words

    def described(self, f, member, seen=()):
        """A variable, the result or the package variables in words."""
        if member in (RESULT, GLOBAL):
            return {RESULT: "the result", GLOBAL: "the package variables"}[member]
        if member in self.names[f.name]:
            return f"`{self.names[f.name][member]}`"
        op = next((op for op in f.body if member in code_text.writes(op)), None)
        if op is None or member in seen:
            return "a value"
        from_a = lambda: self.described(f, op.parts["a"], (*seen, member))
        match op.word:
            case "new":
                return f"the new {op.parts['S']}"
            case "slice" | "chan":
                return f"the new {MAKERS[op.word]}"
            case "call":
                return f"the result of {op.parts['f'][0]}"
            case "load":
                return f"a field of {from_a()}"
            case "at":
                return f"an element of {from_a()}"
            case "recv":
                return f"what is received from {from_a()}"
            case "get":
                return f"`{op.parts['g']}`"
            case "copy":
                return from_a()
        return "nil"

    def step(self, f, op, one, other):
        """The explanation of how an instruction joins two members, or None if their words already say it."""
        part = lambda name: self.described(f, op.parts[name])
        match op.word:
            case "copy":
                return f"{part('d')} becomes {part('a')}"
            case "load" | "at" | "recv":
                has_name = op.parts["d"] in self.names[f.name]
                return f"{part('d')} is read from {part('a')}" if has_name else None
            case "store" | "put":
                return f"{part('b')} is stored in {part('a')}"
            case "send":
                return f"{part('b')} is sent to {part('a')}"
            case "set":
                return f"{part('a')} is assigned to the package variable `{op.parts['g']}`"
            case "get":
                return None
            case "return":
                return f"{part('value')} is returned"
        started = " starts and" if op.word == "go" else ""
        return f"{op.parts['f'][0]}{started} connects {self.described(f, one)} and {self.described(f, other)}"

    # ---- chains

    def joins(self, f):
        """The pairs of members that each instruction of a function joins."""
        is_member = lambda m: m in (RESULT, GLOBAL) or m is not None and code_text.is_pointer_like(f.variables[m].type)
        for op in f.body:
            for one, other in code_producer.joins(op, self.summaries):
                if one != other and is_member(one) and is_member(other):
                    yield op, one, other

    def chain(self, f, starts, ends):
        """A shortest chain of joins from some members to others: its steps, and the member in which it ends. None if
        there is none."""
        beside = collections.defaultdict(list)
        for op, one, other in self.joins(f):
            beside[one].append((op, other))
            beside[other].append((op, one))
        came, left = {start: None for start in starts}, collections.deque(starts)
        while left:
            one = left.popleft()
            if one in ends:
                return self.steps(f, came, one), one
            for op, other in beside[one]:
                if other not in came:
                    came[other] = op, one
                    left.append(other)
        return None

    def steps(self, f, came, end):
        found = []
        while came[end]:
            op, before = came[end]
            said = self.step(f, op, before, end)
            found += [(f.name, op.place, said)] if said else []
            end = before
        return tuple(dict.fromkeys(reversed(found)))

    def made_in_callee(self, op, formal):
        """The steps by which a called function makes an object in the region of its class `formal`, and how the object is
        called there."""
        callee = callee_of(self.code, op)
        seen = set()
        chain, what = (), "an object"
        while (callee.name, formal) not in seen:
            seen.add((callee.name, formal))
            at = self.makes[callee.name, formal]
            maker = callee.body[at]
            if maker.word in MAKERS:
                what = self.described(callee, maker.parts["d"])
                chain = ((callee.name, maker.place, f"{what} is made"), *self.link(callee, [maker.parts["d"]], formal), *chain)
                break
            inner = self.made_at(callee, maker)[formal]
            chain = ((callee.name, maker.place, f"{maker.parts['f'][0]} is called"), *chain)
            callee, formal = callee_of(self.code, maker), inner
        return chain, what

    def link(self, f, starts, formal):
        """The steps from some members of a function to what its caller sees of a class."""
        ends = {n for n in range(f.count) if f.variables[n].cls == formal}
        ends |= {RESULT} if f.result and f.result.cls == formal else set()
        found = self.chain(f, starts, ends or {GLOBAL})
        return found[0] if found else ()

    # ---- origins

    def find_called_by_loops(self):
        """The names of the functions that a loop calls or starts, and of those that these call or start."""
        found, left = set(), [op.parts["f"][0] for f, at, op in self.calls if self.flow[f.name].loop(at)]
        while left:
            name = left.pop()
            if name not in found:
                found.add(name)
                left += self.called[name]
        return found

    def origins(self, f, cls):
        """Where the regions of a class of a function are created: there, or in the functions that pass them."""
        found, seen, left = set(), set(), [(f, cls)]
        while left:
            f, cls = left.pop()
            if (f.name, cls) in seen:
                continue
            seen.add((f.name, cls))
            if cls == GLOBAL:
                found.add(Origin(None, None))
                continue
            flow, is_called = self.flow[f.name], f.name in self.called_by_loops
            creators = [(at, op) for at, op in enumerate(f.body) if cls in op.creates]
            found |= {Origin(f.name, op.place, bool(flow.loop(at)), is_called) for at, op in creators}
            formals = code_text.region_parameters(f)
            if cls in formals:
                left += [(g, op.parts["R"][formals.index(cls)]) for g, op in self.callers[f.name]]
        return found

    # ---- warnings

    def older_members(self, f, loop, cls):
        """The members of a class that are live where a loop begins; the package variables and the result if it is theirs."""
        if cls == GLOBAL:
            return {GLOBAL}
        live = set().union(*(self.live[f.name][at] for at in self.flow[f.name].entries(loop)))
        found = {v for v in live if f.variables[v].cls == cls}
        return found or ({RESULT} if f.result and f.result.cls == cls else set())

    def starts(self, f, op, formal):
        """The members of the function that represent what an instruction makes."""
        if op.word in MAKERS:
            return [op.parts["d"]]
        callee = callee_of(self.code, op)
        if formal == GLOBAL:
            return [GLOBAL]
        actuals = [op.parts["to"]] if op.parts.get("to") is not None and callee.result.cls == formal else []
        return actuals + [v for n, v in enumerate(op.parts["f"][1]) if callee.variables[n].cls == formal]

    def warning(self, f, at, loop, cls, formal):
        op = f.body[at]
        if op.word in MAKERS:
            chain, what = (), f"makes {self.described(f, op.parts['d']).replace('the', 'a', 1)}"
        else:
            chain, made = self.made_in_callee(op, formal)
            verb = "calls" if op.word == "call" else "starts"
            what = f"{verb} {op.parts['f'][0]}, which makes {made.replace('the', 'a', 1)}"
        ends = self.older_members(f, loop, cls)
        starts = self.starts(f, op, formal)
        # What is made now is no older than itself.
        found = self.chain(f, starts, ends - {op.parts.get("d", op.parts.get("to"))}) or self.chain(f, starts, ends)
        older = self.described(f, found[1]) if found else "another variable"
        chain += found[0] if found else ()
        members = sorted({f"`{name}`" for v, name in self.names[f.name].items() if f.variables[v].cls == cls})
        origins = sorted(self.origins(f, cls), key=lambda origin: (origin.place or -1, origin.function or ""))
        return Warning(f.name, op.place, what, older, chain, tuple(members), tuple(origins))

    def warnings(self):
        """All warnings: first those of regions that are not created in each turn of another loop, in the order of the
        text."""
        found = []
        for f in self.code.functions:
            for at, op in enumerate(f.body):
                for cls, formal in self.made_at(f, op).items():
                    creators = {n for n, one in enumerate(f.body) if cls in one.creates}
                    loop = self.flow[f.name].loop(at, creators)
                    if loop:
                        found.append(self.warning(f, at, loop, cls, formal))
        is_renewed = lambda warning: all(origin.in_loop or origin.is_called_by_loop for origin in warning.origins)
        return sorted(dict.fromkeys(found), key=lambda warning: (is_renewed(warning), warning.place))


# ---- what is printed


def listed(words):
    *most, last = words
    return f"{', '.join(most)} and {last}" if most else last


def origin_shown(origin, source):
    if origin.place is None:
        return "The region is that of the package variables, which is never removed."
    turn = ", in each turn of a loop" if origin.in_loop else ", which a loop calls" if origin.is_called_by_loop else ""
    return f"The region is created at {source.line(origin.place)}:{source.column(origin.place)} in {origin.function}{turn}."


def lines(program, file, name=None):
    """The lines that are printed of a program, or of its function with this name."""
    source = program.source
    place = lambda at: f"{source.line(at)}:{source.column(at)}"
    for warning in program.warnings():
        if name not in (None, warning.function):
            continue
        where = f"in the older region of {warning.older}"
        yield f"{file}:{place(warning.place)}: {warning.function}: a loop {warning.what} {where}"
        for function, at, said in warning.chain:
            yield f"    {place(at)}: {function}: {said}"
        if len(warning.members) > 1:
            yield f"    So {listed(warning.members)} and all that they lead to are in one region."
        yield from (f"    {origin_shown(origin, source)}" for origin in warning.origins[:3])
