"""The crates that crates.txt names, and works that are done side by side: what the tools share."""
import contextlib
import glob
import os
import re
import shutil
import signal
import subprocess
import sys
import threading
from concurrent.futures import FIRST_COMPLETED, ThreadPoolExecutor, wait

# (what is printed may have more letters than a machine is set up for)
sys.stdout.reconfigure(errors="replace")
ROOT = os.path.dirname(os.path.dirname(os.path.abspath(__file__)))
# where limits are told of the group that this runs in
GROUP = "/sys/fs/cgroup"
# where copies are made: out of the sight of `rt ci`, and mostly on the disk of the repository
ROOMS = f"{ROOT}/.git/rooms" if os.path.isdir(f"{ROOT}/.git") else f"{ROOT}/out/rooms"


class Crate:
    """A line of crates.txt, with the libraries that it names, of the repository and of the toolchain."""

    def __init__(self, line):
        head, _, uses = line.partition(":")
        self.name, self.line, self.names = head.split()[0], line, uses.split()
        self.home, self.uses, self.of_kit = f"{ROOT}/crates/{self.name}", [], []

    def below(self):
        """The crates that it stands on, lowest first."""
        return list(dict.fromkeys(low for it in self.uses for low in [*it.below(), it]))

    def is_program(self):
        return os.path.isfile(f"{self.home}/src/main.rt")

    def tests(self):
        """How many tests it holds."""
        return sum(len(re.findall(r"^ *#\[test\]", text_of(it), re.M)) for it in self.code())

    def code(self):
        return sorted(glob.glob(f"{self.home}/src/**/*.rt", recursive=True))

    def size(self):
        """The bytes of its code."""
        return sum(map(os.path.getsize, self.code()))

    def pages(self):
        """The files and folders of the repository that its program reads too, as if they lay in its data/: its file pages/data names them. What it is given
        and prints for them stands in pages/args and pages/stdout, behind what its own args and stdout have."""
        named = f"{self.home}/pages/data"
        return text_of(named).split() if os.path.isfile(named) else []

    def lay_pages(self, home):
        """Lays them into a copy of the crate, for a run that sees nothing else of the repository."""
        for it in self.pages():
            source, to = f"{ROOT}/{it}", f"{home}/data/{it}"
            os.makedirs(os.path.dirname(to), exist_ok=True)
            (shutil.copytree if os.path.isdir(source) else shutil.copy)(source, to)
        for it in ("args", "stdout") if self.pages() else ():
            with open(f"{home}/{it}", "a", encoding="utf-8") as file:
                file.write(text_of(f"{self.home}/pages/{it}"))


def text_of(file):
    with open(file, encoding="utf-8", errors="replace") as it:
        return it.read()


def all_crates():
    """Each crate by its name, lowest first."""
    lines = [it for it in text_of(f"{ROOT}/crates.txt").splitlines(True) if it.strip() and not it.startswith("#")]
    known = {it.name: it for it in map(Crate, lines)}
    for it in known.values():
        it.uses, it.of_kit = [known[name] for name in it.names if name in known], [name for name in it.names if name not in known]
    return {low.name: low for it in known.values() for low in [*it.below(), it]}


def kit():
    """The folder of the toolchain."""
    return os.path.dirname(subprocess.run(["rt", "doc"], stdin=subprocess.DEVNULL, stdout=subprocess.PIPE, text=True, check=True).stdout.strip())


def linked(source, to):
    """Makes a tree of links to the files of another, or a copy where files can't be linked."""
    subprocess.run(["sh", "-c", 'cp -al "$0" "$1" 2> /dev/null || { rm -rf "$1"; cp -a "$0" "$1"; }', source, to], check=True)


def limit(name):
    """The numbers of a limit of the group, as a container is one; none where it has none."""
    found = text_of(f"{GROUP}/{name}").split() if os.path.isfile(f"{GROUP}/{name}") else []
    return list(map(int, found)) if found and found[0].isdigit() else []


def processors():
    """How many processors there are to use."""
    found, quota = len(os.sched_getaffinity(0)), limit("cpu.max")
    return max(1, min(found, quota[0] // quota[1])) if quota else found


def jobs_of(words):
    """How many works go side by side, by `--jobs N` or as there are processors, and the other words of a call."""
    if words[:1] == ["--jobs"] and words[1:2] and words[1].isdigit():
        return max(1, int(words[1])), words[2:]
    return processors(), words


def free_memory():
    """Bytes that what is begun now can have: those of the machine, or of the group that this runs in where that has a limit."""
    free = 1024 * int(re.search(r"MemAvailable: +(\d+)", text_of("/proc/meminfo"))[1])
    if most := limit("memory.max"):
        free = min(free, most[0] - int(re.search(r"^anon (\d+)", text_of(f"{GROUP}/memory.stat"), re.M)[1]))
    return free


def room_for(hands, memory):
    """Whether a work may begin beside those that run, by how many go side by side, and by what each takes of memory at most, in bytes."""
    free = free_memory()
    return lambda _, running: len(running) < hands and min(free_memory(), free - memory * len(running)) > memory


# ---- commands that end when this program ends

STARTED, LOCK, ENDED = set(), threading.Lock(), threading.Event()


def begun(words, **how):
    """Begins a command, with nothing to read unless `how` says what."""
    with LOCK:
        if ENDED.is_set():
            raise InterruptedError("this program ends")
        part = subprocess.Popen(words, **{"stdin": subprocess.DEVNULL, **how})
        STARTED.add(part.pid)
        return part


def ended(part):
    """Waits for a command that was begun, and answers its status, as the shell tells it, and its seconds of processor."""
    _, status, used = os.wait4(part.pid, 0)
    with LOCK:
        STARTED.remove(part.pid)
    part.returncode = 128 + os.WTERMSIG(status) if os.WIFSIGNALED(status) else os.WEXITSTATUS(status)
    return part.returncode, used.ru_utime + used.ru_stime


def ran(words, **how):
    """Runs a command, and answers the same."""
    return ended(begun(words, **how))


def end_by_signals():
    """Has a signal that ends this program end what it began too, and put back what it moved."""
    for it in (signal.SIGINT, signal.SIGTERM, signal.SIGHUP):
        signal.signal(it, lambda number, _: sys.exit(128 + number))


def end_started():
    """Ends what runs, and has nothing begin any more."""
    ENDED.set()
    with LOCK:
        for it in STARTED:
            with contextlib.suppress(ProcessLookupError):
                (os.killpg if os.getpgid(it) == it else os.kill)(it, signal.SIGTERM)


def side_by_side(works, may_begin, do, told, after=lambda _: ()):
    """Does works in their order, each once those that it comes `after` went well, and as soon as `may_begin(work, running)` or nothing runs. What `do(work)`
    answers is `told(work, answer)`, which says whether that is well. It answers the works that were not begun, since they come after one that failed."""
    left, running, well = list(works), {}, set()
    pool = ThreadPoolExecutor(max(1, len(left)))
    try:
        while left or running:
            for it in list(left):
                if well.issuperset(after(it)) and (may_begin(it, list(running.values())) or not running):
                    left.remove(it)
                    running[pool.submit(do, it)] = it
            if not running:
                break
            for future in wait(running, return_when=FIRST_COMPLETED).done:
                it = running.pop(future)
                if told(it, future.result()):
                    well.add(it)
    finally:
        end_started()
        pool.shutdown()
    return left
