"""Proves the crates that a program stands on, side by side, each in a root of its own. `proved` calls it.

`rt` locks the folder of a crate and of all below it, so that two of them in one tree run one after another. Here each crate is
proved below out/work/NAME/, with copies of the sources at or below it, and links to what was built of those below. `rt` knows
what it built by names and contents, so what was built there counts in the repository too, where it goes afterwards.
"""
import collections
import contextlib
import ctypes
import errno
import fcntl
import hashlib
import os
import re
import shutil
import signal
import subprocess
import sys
import time

PARTS = ("src", "specs", "proofs")
# The memory that a process is taken to need.
MEMORY = 3_000_000_000
# How often it is looked whether a process has ended, in seconds.
PAUSE = 0.2
# What a process is ended with for want of memory, as `rt` tells and as the system does.
KILLED = (-signal.SIGKILL, 256 - signal.SIGKILL)
# The words by which `rt` and what it starts tell that a disk is full.
FULL = re.compile(rb"No space left|os error 28|StorageFull|Disk quota exceeded")
# Where little more than this is left of a disk, a failure is taken to come from that.
LEAST_SPACE = 16_000_000
LIBC = ctypes.CDLL(None)
PR_SET_PDEATHSIG = 1
ENDING = (signal.SIGINT, signal.SIGTERM, signal.SIGHUP)


class Failure(Exception):
    """What is told in one line, behind which the call ends."""


def remove(path):
    """Removes a file, a link or a folder, where it is there."""
    if os.path.islink(path) or os.path.isfile(path):
        os.remove(path)
    elif os.path.lexists(path):
        shutil.rmtree(path)


def text_of(path):
    """The text of a file, or nothing where it can't be read."""
    try:
        with open(path, encoding="utf-8", errors="replace") as file:
            return file.read()
    except OSError:
        return ""


def write(path, text):
    """Writes a file whole: it has its new text, or its old one."""
    os.makedirs(os.path.dirname(path), exist_ok=True)
    with open(f"{path}.new", "w", encoding="utf-8") as file:
        file.write(text)
    os.replace(f"{path}.new", path)


def sum_of(path):
    """The hash of a file's bytes, or nothing where it can't be read."""
    try:
        with open(path, "rb") as file:
            return hashlib.sha256(file.read()).hexdigest()
    except OSError:
        return ""


def files_below(folder):
    """The files below a folder, with their paths from there, in order."""
    for at, folders, names in os.walk(folder):
        folders.sort()
        for name in sorted(names):
            yield os.path.relpath(f"{at}/{name}", folder), f"{at}/{name}"


def toolchain():
    """Which `rt` this is, in a line: its kit's name, and a hash of that with its programs' names, sizes and times."""
    found = shutil.which("rt")
    if found is None:
        raise Failure("the command `rt` of the Rattle toolchain is not on the PATH")
    programs = os.path.dirname(os.path.realpath(found))
    kit = text_of(f"{os.path.dirname(programs)}/KIT-ID").strip()
    if not kit:
        kit = subprocess.run([found, "version"], capture_output=True, text=True).stdout.strip()
    total = hashlib.sha256(kit.encode())
    for entry in sorted(os.scandir(programs), key=lambda entry: entry.name):
        if entry.is_file():
            status = entry.stat()
            total.update(f"{entry.name} {status.st_size} {status.st_mtime_ns}\n".encode())
    return f"{' '.join(kit.split())} {total.hexdigest()[:16]}"


def link_or_copy(source, target):
    """Makes a second name of a file, or a copy where the file system has none."""
    try:
        os.link(source, target, follow_symlinks=False)
    except OSError:
        shutil.copy2(source, target, follow_symlinks=False)


class Crates:
    """A program's crate and those that it stands on, as crates.txt names them, each behind those that it uses."""

    def __init__(self, root, program, kit):
        self.root, self.kit, self.uses, self.order = root, kit, {}, []
        self.lines, self.prints = self.read_lines(), {}
        if program not in self.lines:
            raise Failure(f"crates.txt has no crate {program}")
        self.visit(program, ())

    def read_lines(self):
        """The lines of crates.txt by their crates' names, without comments."""
        try:
            with open(f"{self.root}/crates.txt", encoding="utf-8") as file:
                rows = [" ".join(row.partition("#")[0].split()) for row in file]
        except (OSError, ValueError) as error:
            raise Failure(f"crates.txt can't be read: {getattr(error, 'strerror', error)}") from None
        return {re.split("[ :]", row)[0]: row for row in rows if row}

    def visit(self, name, above):
        """Puts a crate into the order, behind those that it uses."""
        if name in above:
            raise Failure(f"crates.txt: {name} stands on itself")
        if name in self.uses:
            return
        words = re.split("[ ,]+", self.lines[name].partition(":")[2])
        used = [word for word in words if word in self.lines]
        for each in used:
            self.visit(each, (*above, name))
        if not os.path.isdir(f"{self.folder(name)}/src"):
            raise Failure(f"crates/{name} has no folder src")
        self.uses[name] = used
        self.order.append(name)

    def folder(self, name):
        """Where a crate lies."""
        return f"{self.root}/crates/{name}"

    def library(self, name):
        """Where what was built of a crate lies."""
        return f"{self.folder(name)}/out/rlib"

    def below(self, name):
        """The crates that a crate stands on, in order."""
        found = set(self.uses[name])
        for each in reversed(self.order):
            if each in found:
                found.update(self.uses[each])
        return [each for each in self.order if each in found]

    def fingerprint(self, name):
        """A hash of all that a crate is built from: names and contents of its own files and of those below, and the toolchain."""
        if name not in self.prints:
            total = hashlib.sha256(f"{self.kit}\n{self.lines[name]}\n".encode())
            for part in PARTS:
                for inside, path in files_below(f"{self.folder(name)}/{part}"):
                    total.update(f"{part}/{inside} {sum_of(path)}\n".encode("utf-8", "surrogateescape"))
            for each in self.uses[name]:
                total.update(self.fingerprint(each).encode())
            self.prints[name] = total.hexdigest()
        return self.prints[name]

    def listing(self, name):
        """A hash of what was built of a crate, by names, sizes and times, or nothing where it wasn't built."""
        if not text_of(f"{self.library(name)}/stamp"):
            return ""
        total = hashlib.sha256()
        for inside, path in files_below(self.library(name)):
            status = os.lstat(path)
            total.update(f"{inside} {status.st_size} {status.st_mtime_ns}\n".encode())
        return total.hexdigest()

    def stamp(self, name):
        """What out/stamps/NAME has where the crate is proved and built: from what, as what, and by which toolchain."""
        return f"{self.fingerprint(name)} {self.listing(name)}\n{self.kit}\n"

    def is_proved(self, name):
        """Whether a crate was proved as it stands, and what was built of it is there."""
        kept = text_of(f"{self.root}/out/stamps/{name}")
        # Its first line is compared before anything of what was built is read.
        return kept.startswith(f"{self.fingerprint(name)} ") and bool(self.listing(name)) and kept == self.stamp(name)

    def copy_sources(self, name, place):
        """Makes a root with copies of the sources at or below a crate."""
        names = [*self.below(name), name]
        for each in names:
            for part in PARTS:
                if os.path.isdir(f"{self.folder(each)}/{part}"):
                    shutil.copytree(f"{self.folder(each)}/{part}", f"{place}/crates/{each}/{part}", symlinks=True)
        if os.path.isfile(f"{self.root}/HANDLES"):
            shutil.copy(f"{self.root}/HANDLES", f"{place}/HANDLES")
        write(f"{place}/crates.txt", "".join(f"{self.lines[each]}\n" for each in names))


def weights(root, crates):
    """What each crate's proof is taken to cost, in processor seconds: by tools/weights, else by its lines."""
    rows = [row.split() for row in text_of(f"{root}/tools/weights").splitlines() if not row.startswith("#")]
    known = {row[0]: int(row[1]) for row in rows if len(row) == 2 and row[1].isdigit()}
    for name in crates.order:
        if name not in known:
            files = [path for part in PARTS for _, path in files_below(f"{crates.folder(name)}/{part}")]
            known[name] = sum(text_of(path).count("\n") for path in files) // 12 + 20
    return {name: max(known[name], 1) for name in crates.order}


def processes_at_once():
    """How many processes may run side by side: one for each processor, where there is memory for them."""
    found = re.search(r"MemAvailable: +(\d+)", text_of("/proc/meminfo"))
    free = 1024 * int(found[1]) if found else MEMORY
    limit, held = text_of("/sys/fs/cgroup/memory.max").strip(), text_of("/sys/fs/cgroup/memory.current").strip()
    if limit.isdigit() and held.isdigit():
        free = min(free, int(limit) - int(held))
    return max(1, min(len(os.sched_getaffinity(0)), free // MEMORY))


def plan(wanted, below, weight, width, begun=None):
    """The seconds that the wanted crates take, `width` at a time, and of them the longest chain's first. The begun ones run."""
    running = dict(begun or {})
    chain = chains(wanted, below, weight)
    waiting, clock = [name for name in wanted if name not in running], 0.0
    while waiting or running:
        left = {*waiting, *running}
        ready = [name for name in waiting if not left.intersection(below[name])]
        for name in sorted(ready, key=chain.get, reverse=True)[: max(width - len(running), 0)]:
            running[name] = clock + weight[name]
            waiting.remove(name)
        name = min(running, key=running.get)
        clock = running.pop(name)
    return clock


def chains(wanted, below, weight):
    """Of each wanted crate the weight of the longest chain from it upwards, itself among it. They stand in order."""
    above = dict.fromkeys(wanted, 0)
    for name in reversed(wanted):
        above[name] += weight[name]
        for each in below[name]:
            if each in above:
                above[each] = max(above[each], above[name])
    return above


def in_minutes(seconds):
    """A time in words."""
    minutes = max(round(seconds / 60), 1)
    return f"{minutes} minute{'s' * (minutes > 1)}"


def die_with_parent():
    """In a process that starts: it is told to end when this script ends, however that ends. `rt` then ends what it started."""
    LIBC.prctl(PR_SET_PDEATHSIG, signal.SIGTERM)


def has_locked(descriptor):
    """Takes a lock that others see, and says whether it could. Some file systems have none."""
    try:
        fcntl.flock(descriptor, fcntl.LOCK_EX | fcntl.LOCK_NB)
    except BlockingIOError:
        return False
    except OSError:
        pass
    return True


@contextlib.contextmanager
def undisturbed():
    """Lets signals that end this script wait."""
    signal.pthread_sigmask(signal.SIG_BLOCK, ENDING)
    try:
        yield
    finally:
        signal.pthread_sigmask(signal.SIG_UNBLOCK, ENDING)


@contextlib.contextmanager
def alone(root, tell):
    """Keeps other calls from proving in the same repository."""
    os.makedirs(f"{root}/out", exist_ok=True)
    with open(f"{root}/out/lock", "w", encoding="utf-8") as file:
        if not has_locked(file.fileno()):
            tell("another call is proving: waiting for it")
            fcntl.flock(file, fcntl.LOCK_EX)
        yield


# A crate that is being proved: its process and root, the lock on its folder, whether it had work of earlier runs, and from when.
Job = collections.namedtuple("Job", "name place process lock had_kept slots started")


class Prover:
    """Proves the crates of a program that aren't proved, and builds the program."""

    def __init__(self, crates, tell):
        self.crates, self.tell, self.root = crates, tell, crates.root
        self.program = crates.order[-1]
        self.weight = weights(self.root, crates)
        self.below = {name: crates.below(name) for name in crates.order}
        self.width = processes_at_once()
        # The program itself is always linked.
        self.waiting = [name for name in crates.order[:-1] if not crates.is_proved(name)] + [self.program]
        self.running, self.held_up, self.spent, self.planned = {}, set(), 0.0, 0.0
        # The environment without the words that change what `rt` builds.
        self.environment = {key: value for key, value in os.environ.items() if not key.startswith("RT_")}

    def prove(self):
        """Proves and builds all that is missing."""
        try:
            self.clear()
            self.announce()
            while self.waiting or self.running:
                self.start_ready()
                if not self.end_ended():
                    time.sleep(PAUSE)
        finally:
            with undisturbed():
                self.give_up()

    def announce(self):
        """Says what is about to be done, and about how long it takes."""
        kits = {text_of(f"{self.root}/out/stamps/{name}").partition("\n")[2].strip() for name in self.waiting}
        if kits - {"", self.crates.kit}:
            self.tell(f"the toolchain is not that of the last build: proving everything again, by {self.crates.kit}")
        below, total = self.below, sum(self.weight[name] for name in self.waiting)
        chain = max(chains(self.waiting, below, self.weight).values())
        self.tell(
            f"proving {len(self.waiting)} of {len(below)} crates, {self.width} at a time: about"
            f" {in_minutes(plan(self.waiting, below, self.weight, self.width))} ({in_minutes(total)} of one processor, with"
            f" {in_minutes(chain)} one after another); ./{self.program} --unproved .. runs it unproved meanwhile"
        )

    def start_ready(self):
        """Starts crates whose uses are proved, the longest chain first, while there are processors."""
        left = {*self.waiting, *self.running}
        ready = [name for name in self.waiting if not left.intersection(self.below[name])]
        chain = chains(self.waiting, self.below, self.weight)
        for number, name in enumerate(sorted(ready, key=chain.get, reverse=True)):
            free = self.width - sum(job.slots for job in self.running.values())
            if free < 1:
                return
            # Processors that no other crate could use work on this one.
            self.start(name, max(1, free // (len(ready) - number)))

    def start(self, name, slots):
        """Starts a crate in a root of its own, unless another rt works in its folder."""
        lock = os.open(self.crates.folder(name), os.O_RDONLY)
        if not has_locked(lock):
            os.close(lock)
            if name not in self.held_up:
                self.held_up.add(name)
                self.tell(f"another rt works in crates/{name}: waiting for it")
            return
        place = f"{self.root}/out/work/{name}"
        # It is known from here on, so that what it has taken goes back whatever happens.
        self.running[name] = Job(name, place, None, lock, False, slots, time.monotonic())
        self.waiting.remove(name)
        remove(place)
        self.crates.copy_sources(name, place)
        for each in self.below[name]:
            if os.path.isdir(self.crates.library(each)):
                shutil.copytree(self.crates.library(each), f"{place}/crates/{each}/out/rlib", copy_function=link_or_copy)
        had_kept = self.take_kept(name, place)
        verb = ["run", "--jobs", str(slots), "--", "--version"] if name == self.program else ["lib", "--jobs", str(slots)]
        how = {"stdin": subprocess.DEVNULL, "stderr": subprocess.STDOUT, "env": self.environment}
        with open(f"{place}/log", "wb") as log:
            process = subprocess.Popen(["rt", *verb], cwd=f"{place}/crates/{name}", stdout=log, preexec_fn=die_with_parent, **how)
        self.running[name] = self.running[name]._replace(process=process, had_kept=had_kept)

    def take_kept(self, name, place):
        """Moves what earlier runs kept of a crate into its root, but not what they built, and says whether there was any."""
        kept, stamp = f"{self.crates.folder(name)}/out", f"{self.root}/out/stamps/{name}"
        by = text_of(stamp).partition("\n")[2].strip()
        remove(stamp)
        if os.path.islink(kept) or not os.path.isdir(kept) or by not in ("", self.crates.kit):
            remove(kept)
            return False
        taken = f"{place}/crates/{name}/out"
        os.rename(kept, taken)
        for each in ("rlib", name, f"{name}.stamp"):
            remove(f"{taken}/{each}")
        return bool(os.listdir(taken))

    def end_ended(self):
        """Does what is due where a process has ended, and says whether one had."""
        if not any(job.process for job in self.running.values()):
            return False
        pid, status, usage = os.wait4(-1, os.WNOHANG)
        for job in [job for job in self.running.values() if job.process.pid == pid]:
            code = os.WEXITSTATUS(status) if os.WIFEXITED(status) else -os.WTERMSIG(status)
            job.process.returncode = code
            if code == 0:
                self.keep(job, usage)
            else:
                self.try_again(job, code)
        return pid != 0

    def keep(self, job, usage):
        """Keeps what a process built that ended well."""
        name, built = job.name, Crates(job.place, job.name, self.crates.kit)
        is_built = os.path.isfile(f"{built.folder(name)}/out/{name}") if name == self.program else built.listing(name)
        if not is_built or built.fingerprint(name) != self.crates.fingerprint(name):
            raise Failure("the sources changed while they were proved; call again")
        if name == self.program:
            self.keep_program(built)
        self.take_home(job)
        write(f"{self.root}/out/stamps/{name}", self.crates.stamp(name))
        if not job.had_kept:
            write(f"{self.root}/out/times/{name}", f"{usage.ru_utime + usage.ru_stime:.0f}\n")
            self.spent += time.monotonic() - job.started
            self.planned += self.weight[name]
        if name != self.program:
            self.tell_progress(name)

    def keep_program(self, built):
        """Keeps the program, and what it was built from, where `proved` looks for them."""
        name, kept = self.program, f"{self.root}/out/{self.program}"
        os.makedirs(kept, exist_ok=True)
        remove(f"{kept}/stamp")
        shutil.copy2(f"{built.folder(name)}/out/{name}", f"{kept}/{name}.new")
        os.replace(f"{kept}/{name}.new", f"{kept}/{name}")
        write(f"{kept}/stamp", f"{built.fingerprint(name)}\n{sum_of(f'{kept}/{name}')}\n")

    def try_again(self, job, code):
        """Has a crate that failed proved once more, where that may help, and else tells why it failed."""
        with open(f"{job.place}/log", "rb") as file:
            log = file.read()
        if FULL.search(log) or shutil.disk_usage(self.root).free < LEAST_SPACE:
            raise OSError(errno.ENOSPC, os.strerror(errno.ENOSPC), f"{self.root}/out")
        if code in KILLED and len(self.running) > 1:
            self.width = max(1, len(self.running) - 1)
            self.tell(f"{job.name} was ended, most likely for want of memory: again, with {self.width} at a time from now on")
        elif job.had_kept:
            self.tell(f"{job.name} could not be proved over what earlier runs kept: again, from nothing")
            remove(f"{job.place}/crates/{job.name}/out")
        else:
            sys.stderr.buffer.write(log)
            verb = "run" if job.name == self.program else "lib"
            raise Failure(f"{job.name} could not be proved and built; above is what `rt {verb}` said in crates/{job.name}")
        self.take_home(job)
        self.waiting = [name for name in self.crates.order if name in (*self.waiting, job.name)]

    def take_home(self, job):
        """Moves what a crate's process kept and built into the crate's folder, and removes its root."""
        made, home = f"{job.place}/crates/{job.name}/out", f"{self.crates.folder(job.name)}/out"
        if os.path.lexists(made):
            remove(home)
            os.rename(made, home)
        shutil.rmtree(job.place, ignore_errors=True)
        os.close(job.lock)
        del self.running[job.name]

    def give_up(self):
        """Ends what still runs, and takes home what it kept."""
        for job in self.running.values():
            if job.process and job.process.returncode is None:
                job.process.terminate()
        for job in [*self.running.values()]:
            if job.process and job.process.returncode is None:
                job.process.wait()
            with contextlib.suppress(OSError):
                self.take_home(job)
        shutil.rmtree(f"{self.root}/out/work", ignore_errors=True)

    def clear(self):
        """Removes what a call left that was ended without warning, but first takes home what it kept."""
        work = f"{self.root}/out/work"
        for name in self.crates.order:
            made, home = f"{work}/{name}/crates/{name}/out", f"{self.crates.folder(name)}/out"
            if os.path.isdir(made) and not os.path.lexists(home):
                os.rename(made, home)
        remove(work)

    def tell_progress(self, name):
        """Says how far it is."""
        now, left = time.monotonic(), [*self.running, *self.waiting]
        total, missing = sum(self.weight.values()), sum(self.weight[each] for each in left)
        pace = min(max(self.spent / self.planned, 0.1), 10) if self.planned else 1
        begun = {each: max(pace * self.weight[each] - now + job.started, 5) for each, job in self.running.items()}
        weight = {each: pace * self.weight[each] for each in self.weight}
        wanted = [each for each in self.crates.order if each in left]
        seconds = plan(wanted, self.below, weight, self.width, begun)
        percent = 100 * (total - missing) // total
        self.tell(f"{percent} % proved ({name}); {len(self.running)} running; about {in_minutes(seconds)} left")
