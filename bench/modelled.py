"""A command that is held against a model of what it has to write: for the scripts beside this one.

Random jobs with odd values in some of them are answered by the program and by the model, ready jobs by the model alone; and
a job of some size is measured, beside other programs or beside plain loops.
"""
import argparse, collections, glob, json, os, random, shlex, subprocess, sys, tempfile

sys.path.insert(0, os.path.join(os.path.dirname(os.path.abspath(__file__)), "..", "tools"))
import answers, forms, proof_of, scan
from matrices import times
from measured import beside, compare, wants

TOP = os.path.join(os.path.dirname(os.path.abspath(__file__)), "..")
ODD = [None, True, False, -1, 1.5, 1.0, 16, 257, 65537, 66049, 1 << 64, "hash", "build", "16", "257x2", "", [], {}, [[]], [[1], [1, 2]], [1], [[0]],
       {"check": None}, {"check": {}}, {"build": 1, "check": {"rounds": [], "witnesses": []}}, {"draws": [], "witnesses": []}]


# ---- random values

def element(rng, size):
    return rng.choice([0, 1, size - 1]) if rng.random() < 0.15 else rng.randrange(size)


def vanishing(rng, field, x, count):
    """A list of so many elements, two or more, that is not zero and vanishes at x as coefficients."""
    length = rng.randint(1, count - 1)
    other = [rng.randrange(field.size) if rng.random() < 0.5 else 0 for _ in range(length - 1)] + [rng.randrange(1, field.size)]
    return times(field, [field.sub(0, x), 1], other) + [0] * (count - length - 1)


def any_error(rng, field, count):
    return [rng.randrange(field.size) if rng.random() < 0.5 else 0 for _ in range(count)]


def places(value, way=()):
    """The paths of all values in a job."""
    inside = value.items() if isinstance(value, dict) else enumerate(value) if isinstance(value, list) else ()
    for key, it in inside:
        yield way + (key,)
        yield from places(it, way + (key,))


def mutated(rng, job):
    """The job with one value missing, or another one in its place."""
    job = json.loads(json.dumps(job))
    ways = list(places(job))
    *way, last = rng.choice([it for it in ways if len(it) == 1] if rng.random() < 0.3 else ways)
    owner = job
    for it in way:
        owner = owner[it]
    if rng.random() < 0.25:
        del owner[last]
    else:
        owner[last] = rng.choice(ODD)
    return job


def kind_of(answer):
    """What an answer is, without its numbers."""
    words = answer[1].split("\n")[-2].split()
    return " ".join(it for it in (words[:words.index("vanishing")] if "vanishing" in words else words) if not it.isdigit())


# ---- a command and its model

class Modelled:
    """A command by its word, with what answers a job that is of its form, and what makes a random one."""

    def __init__(self, word, answer, random_job):
        self.word, self.answer, self.random_job = word, answer, random_job

    def wanted(self, text):
        """The status and the text that some bytes have to be answered by."""
        try:
            found = forms.misfit(scan.read(text), self.word)
        except scan.Fault:
            return 3, "refused bad-json\n"
        return (3, f"refused bad-job {found[0]}\n") if found else self.answer(json.loads(text))

    def compared(self, program, count, seed):
        """Holds the program against the model on random jobs."""
        rng, kinds = random.Random(seed), collections.Counter()
        for _ in range(count):
            job = self.random_job(rng)
            text = json.dumps(mutated(rng, job) if rng.random() < 0.12 else job).encode()
            wanted = self.wanted(text)
            told = subprocess.run(shlex.split(program) + [self.word], input=text, stdout=subprocess.PIPE)
            if (told.returncode, told.stdout.decode()) != wanted:
                sys.exit(f"the answers differ, with seed {seed}: {text.decode()}\n"
                         f"status {wanted[0]}\n{wanted[1]}status {told.returncode}\n{told.stdout.decode()}")
            kinds[kind_of(wanted)] += 1
        print("\n".join(f"{number:7} {kind}" for kind, number in kinds.most_common()))
        print(f"{count} jobs with seed {seed}, none answered otherwise")

    def files(self):
        """Its ready jobs."""
        return sorted(glob.glob(os.path.join(TOP, "jobs", f"{self.word}*.json")))

    def ready(self):
        """Holds the texts of the ready jobs against the model."""
        files = self.files()
        for file in files:
            name = file.removesuffix(".json")
            status = int(open(name + ".status").read()) if os.path.exists(name + ".status") else 0
            if self.wanted(open(file, "rb").read()) != (status, open(name + ".stdout").read()):
                sys.exit(f"another answer by the model: {file}")
        print(f"{len(files)} ready jobs, all answered so by the model")

    def checked(self, program, job):
        """The job with the proof that a program builds of it."""
        told = subprocess.run(shlex.split(program) + [self.word], input=json.dumps(job).encode(), stdout=subprocess.PIPE)
        if told.returncode != 0:
            sys.exit("the first program builds no proof")
        return job | {"mode": proof_of.proof_of(job, answers.read(told.stdout.decode()))}

    def main(self, doc, sizes, measured_job):
        """Does what the words of a command line say. The sizes of a job that is measured have names and values; of these
        `measured_job` makes a build, and what it is called."""
        arguments = argparse.ArgumentParser(description=doc, formatter_class=argparse.RawDescriptionHelpFormatter)
        for name, size in sizes.items():
            arguments.add_argument(f"--{name}", type=int, default=size)
        arguments.add_argument("--check", action="store_true")
        arguments.add_argument("--repeats", type=int, default=9)
        arguments.add_argument("--beside-rust", action="store_true")
        arguments.add_argument("--compare", type=int, metavar="COUNT")
        arguments.add_argument("--seed", type=int, default=1)
        arguments.add_argument("--ready", action="store_true")
        arguments.add_argument("programs", nargs="*")
        given = arguments.parse_args()
        if given.ready:
            return self.ready()
        if not given.programs:
            arguments.error("a program is wanted")
        wants(given.programs)
        if given.compare is not None:
            return self.compared(given.programs[0], given.compare, given.seed)
        name, job = measured_job(*(getattr(given, name) for name in sizes))
        self.measured(given, name, job)

    def measured(self, given, name, job):
        """Shows what a job takes of that name: beside plain loops, or by each program, as a build or a check."""
        with tempfile.TemporaryDirectory() as folder:
            path = os.path.join(folder, "job.json")
            with open(path, "w") as f:
                json.dump(self.checked(given.programs[0], job) if given.check and not given.beside_rust else job, f, separators=(",", ":"))
            print(f"{name}, {os.path.getsize(path)} bytes, {given.repeats} repeats, load {os.getloadavg()[0]:.2f}")
            if given.beside_rust:
                beside(given.programs[0], self.word, os.path.join(TOP, "bench", f"{self.word}.rs"), job, given.repeats, folder)
            else:
                compare(given.programs, self.word, path, given.repeats, folder)
