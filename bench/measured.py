"""Runs of programs, measured: for the scripts beside this one."""
import json, os, shlex, shutil, statistics, subprocess, sys, tempfile, time

# The program `time` starts the other one from a small process. Without it the peak is at least this script's own size.
TIME = shutil.which("time")


def run(command, path, out):
    """Runs the command with the file at `path` as input, and its output to `out`: wall and processor time in seconds,
    the peak of memory in MB, and the status."""
    with tempfile.NamedTemporaryFile() as peak:
        if TIME:
            command = [TIME, "--quiet", "--format", "%M", "--output", peak.name] + command
        streams = [(os.POSIX_SPAWN_OPEN, 0, path, os.O_RDONLY, 0),
                   (os.POSIX_SPAWN_OPEN, 1, out, os.O_WRONLY | os.O_CREAT | os.O_TRUNC, 0o600)]
        start = time.monotonic()
        pid = os.posix_spawnp(command[0], command, os.environ, file_actions=streams)
        _, status, usage = os.wait4(pid, 0)
        wall = time.monotonic() - start
        kilobytes = int(peak.read()) if TIME else usage.ru_maxrss
    return wall, usage.ru_utime + usage.ru_stime, kilobytes / 1024, os.waitstatus_to_exitcode(status)


def wants(programs):
    """Ends where one of the command lines names no program."""
    for program in programs:
        if not program or shutil.which(shlex.split(program)[0]) is None:
            sys.exit(f"no such program: {program}")


def compare(programs, word, path, repeats, folder):
    """Runs the command lines with the word after each, one after the other in each repeat, on the file at `path`, and
    shows the medians of wall time, processor time and peak memory, with their ratio to the last program's. Ends where
    status or output differ."""
    samples = [[] for _ in programs]
    answers = set()
    for _ in range(repeats):
        for i, program in enumerate(programs):
            out = os.path.join(folder, f"out-{i}")
            sample = run(shlex.split(program) + [word], path, out)
            samples[i].append(sample)
            with open(out, "rb") as f:
                answers.add((sample[3], f.read()))
    medians = [[statistics.median(s[k] for s in taken) for k in range(3)] for taken in samples]
    print(f"{'program':40}{'wall ms':>10}{'cpu ms':>10}{'peak MB':>10}")
    for program, m in zip(programs, medians):
        ratios = "  ".join(f"{a / b:.2f}" for a, b in zip(m, medians[-1]))
        print(f"{program[-39:]:40}{m[0] * 1e3:>10.1f}{m[1] * 1e3:>10.1f}{m[2]:>10.1f}   x {ratios}")
    for status, text in answers:
        last = text.splitlines()[-1].decode() if text else "nothing written"
        print(f"status {status}, {last if len(last) < 100 else last[:96] + ' ...'}")
    if len(answers) != 1:
        sys.exit("the programs' answers differ")


# ---- beside plain loops

def instructions(command, path, folder):
    """The instructions that a command takes on the file at `path`, by valgrind, or none where valgrind is not there; and its text."""
    counted = os.path.join(folder, "counted")
    watched = ["valgrind", "--tool=callgrind", f"--callgrind-out-file={counted}"] if shutil.which("valgrind") else []
    with open(path, "rb") as job:
        ran = subprocess.run(watched + command, stdin=job, stdout=subprocess.PIPE, stderr=subprocess.DEVNULL)
    if not watched:
        return None, ran.stdout
    with open(counted) as f:
        return int(next(line.split()[1] for line in f if line.startswith(("summary:", "totals:")))), ran.stdout


def beside(program, word, source, job, repeats, folder):
    """Shows what a program takes beside plain loops in Rust that do the same work, compiled here: by instructions, or processor time.

    The work is a whole run less a run on the same job at a difficulty that is refused. Ends where the texts differ.
    """
    loops = os.path.join(folder, "loops")
    subprocess.run(["rustc", "-O", "-o", loops, source], check=True)
    paths = [os.path.join(folder, name) for name in ("whole.json", "read.json")]
    for path, it in zip(paths, (job, job | {"bits": 17})):
        with open(path, "w") as f:
            json.dump(it, f, separators=(",", ":"))
    figures, texts = [], []
    for command in (shlex.split(program) + [word], [loops]):
        counts = [instructions(command, path, folder) for path in paths]
        texts.append([text for _, text in counts])
        if counts[0][0] is None:
            out = os.path.join(folder, "out")
            counts = [(statistics.median(run(command, path, out)[1] for _ in range(repeats)) * 1e3, None) for path in paths]
            unit = "ms of processor time"
        else:
            counts, unit = [(number / 1e6, None) for number, _ in counts], "million instructions"
        figures.append([counts[0][0], counts[0][0] - counts[1][0]])
    print(f"{'':12}{'whole run':>12}{'its work':>12}   {unit}")
    for name, them in zip(("program", "plain loops"), figures):
        print(f"{name:12}{them[0]:12.2f}{them[1]:12.2f}")
    print(f"{'ratio':12}" + "".join(f"{a / b:12.2f}" for a, b in zip(*figures)))
    if texts[0] != texts[1] or not all(texts[0]):
        sys.exit("the texts differ, or are none")
