"""The static library, called from Python through the declarations of include/tunaprow.h: for the scripts beside this one.

`cc` makes a shared library of it and of the heap beside the header. A `Library` answers jobs as the program does, by status and
text, and tables in memory by their status and what they leave, of which `told_of` has the words of tools/answers.py.
"""
import ctypes, os, subprocess

INCLUDE = os.path.join(os.path.dirname(os.path.abspath(__file__)), "..", "include")
SHORT, ROOM, MORE, FILL = 7, 65536, 2, 0xA5
VERDICTS = ("holds", "refuted", "lucky-batch", "lucky-round")
NUMBER = ctypes.c_uint32


class Terms(ctypes.Structure):
    _fields_ = [("variables", ctypes.c_size_t), ("bits", ctypes.c_size_t), ("batching", NUMBER),
                ("suffix", ctypes.c_bool), ("coefficients", ctypes.c_bool), ("hash", ctypes.c_bool)]


class Round(ctypes.Structure):
    _fields_ = [("first", NUMBER), ("leading", NUMBER)]


class Found(ctypes.Structure):
    _fields_ = [("verdict", NUMBER), ("round", ctypes.c_size_t), ("vanishing", ctypes.c_uint64), ("coefficients", ctypes.c_size_t)]


class Figures(ctypes.Structure):
    _fields_ = [("claim", NUMBER), ("residual", NUMBER), ("eval", NUMBER), ("weight", NUMBER), ("found", Found)]


class Overwritten(Exception):
    """What a call wrote that it shall not write."""


# ---- memory

def numbers(items):
    return (NUMBER * len(items))(*items)


def rounds_in(items):
    return (Round * len(items))(*(Round(*it) for it in items))


def filled(kind):
    """Memory of some kind with the same byte in all its places."""
    memory = kind()
    ctypes.memset(ctypes.addressof(memory), FILL, ctypes.sizeof(memory))
    return memory


def is_filled(memory, start=0):
    """No byte of it was written from this one on."""
    return bytes(memory)[start:] == bytes([FILL]) * (ctypes.sizeof(memory) - start)


class Left:
    """What a call may write: the figures, and lists by their names, each with room for so many items."""

    def __init__(self, rooms):
        kinds = {name: Round if name == "rounds" else NUMBER for name in rooms}
        self.figures, self.lists = filled(Figures), {name: filled(kinds[name] * room) for name, room in rooms.items()}

    def wants_untouched(self):
        if not all(map(is_filled, [self.figures, *self.lists.values()])):
            raise Overwritten("a refusal that writes")

    def numbers(self):
        """The figures, one after another."""
        found = self.figures.found
        return [getattr(self.figures, name) for name, _ in Figures._fields_[:-1]] + [getattr(found, name) for name, _ in Found._fields_]

    def front(self, name, count):
        """So many items of a list, or as many as there is room for. What stands after them is as it was."""
        memory = self.lists[name]
        count = min(count, len(memory))
        if not is_filled(memory, count * ctypes.sizeof(memory._type_)):
            raise Overwritten(f"{name} after the first {count}")
        return [[it.first, it.leading] if name == "rounds" else it for it in memory[:count]]


# ---- calls

class Library:
    def __init__(self, archive, folder):
        shared, heap = os.path.join(folder, "tunaprow.so"), os.path.join(INCLUDE, "tunaprow_heap.c")
        subprocess.run([os.environ.get("CC", "cc"), "-O1", "-shared", "-fPIC", "-I", INCLUDE, "-o", shared, heap,
                        "-Wl,--whole-archive", archive, "-Wl,--no-whole-archive"], check=True)
        self.calls = ctypes.CDLL(shared)
        for name in ("reply", "check_65537", "build_65537"):
            getattr(self.calls, f"tunaprow_{name}").restype = ctypes.c_uint8

    def reply(self, word, job, room=ROOM):
        """The status and the text of a reply, as the program's."""
        out, written, needed = ctypes.create_string_buffer(room), ctypes.c_size_t(), ctypes.c_size_t()
        sized = lambda them, length: (them, ctypes.c_size_t(length))
        status = self.calls.tunaprow_reply(*sized(word.encode(), len(word)), *sized(job, len(job)), *sized(out, room), ctypes.byref(written), ctypes.byref(needed))
        return self.reply(word, job, needed.value) if status == SHORT else (status, out.raw[:written.value])

    def table(self, case, rooms):
        """The status of a table in memory, and what is left of it. The case has the members of the header's terms, the lists `table`, `points`,
        `values` and `draws`, and `proof`: rounds and witnesses, or none for a build."""
        left, proof = Left(rooms), case["proof"]
        terms = Terms(**{name: case[name] for name, _ in Terms._fields_})
        given = [numbers(case[name]) for name in ("table", "points", "values", "draws")]
        given += [rounds_in(proof["rounds"]), numbers(proof["witnesses"])] if proof else [left.lists["rounds"], left.lists["witnesses"]]
        call = self.calls.tunaprow_check_65537 if proof else self.calls.tunaprow_build_65537
        sized = lambda lists: [word for it in lists for word in (it, ctypes.c_size_t(len(it)))]
        status = call(ctypes.byref(terms), *sized(given), ctypes.byref(left.figures), *sized([left.lists["challenges"], left.lists["polynomial"]]))
        return status, left


def enough(case):
    """Room for all that a case may leave, and more."""
    rounds = min(case["variables"], len(case["table"]).bit_length()) + MORE
    return {"rounds": rounds, "witnesses": rounds, "challenges": rounds, "polynomial": max(len(case["values"]), 3) + MORE}


def counts_of(case, found):
    """How many items a report of a case leaves in each list, however much room there is."""
    count, is_build = case["variables"], not case["proof"]
    return {"rounds": count if is_build else 0, "witnesses": count if is_build and case["bits"] else 0, "challenges": count,
            "polynomial": found.coefficients}


def told_of(case, left):
    """What the report of a case tells that has left this, where there was room enough."""
    figures = left.figures
    fronts = {name: left.front(name, count) for name, count in counts_of(case, figures.found).items()}
    shown = case["proof"] or fronts
    rounds = [{"round": i, "values": values, "challenge": challenge} for i, (values, challenge) in enumerate(zip(shown["rounds"], fronts["challenges"]))]
    for it, witness in zip(rounds, shown["witnesses"]):
        it["witness"] = witness
    told = {"outcome": "report", "rounds": rounds} | {name: getattr(figures, name) for name in ("claim", "residual", "eval", "weight")}
    return told | found_of(figures.found, fronts["polynomial"])


def found_of(found, poly):
    """The verdict, with what certifies it."""
    verdict = VERDICTS[found.verdict]
    if not verdict.startswith("lucky"):
        if (found.round, found.vanishing, found.coefficients) != (0, 0, 0):
            raise Overwritten("a certificate of a verdict that has none")
        return {"verdict": verdict}
    named = {"round": found.round} if verdict == "lucky-round" else {}
    return {"verdict": verdict, "lucky": named | {"vanishing": found.vanishing, "poly": poly}}
