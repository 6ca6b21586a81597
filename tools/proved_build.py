"""`./fslpp --build`: proves each crate that the program stands on, side by side where they don't need one another,
and builds the proved program. What an earlier build proved is kept by `rt`, so a build goes on where it was stopped.
"""
import os
import signal
import subprocess
import time

import crate_files
import first_use

# Bytes that a proof takes at least, and what each line of a crate adds to that, by the ending of its file.
LEAST, LINE = 1_000_000_000, {".rt": 1_000_000, ".antt": 200_000}
# The share of the free memory that proofs may take.
SHARE = 0.85
# The most jobs that a proof gets, where no other proof waits for a processor.
JOBS = 4


def lines_of(name):
    """How many lines the files of a crate have, by their ending."""
    lines = dict.fromkeys(LINE, 0)
    for it in crate_files.source_files(name):
        lines[it.suffix] = lines.get(it.suffix, 0) + it.read_bytes().count(b"\n")
    return lines


def memory_for(lines, jobs):
    """The bytes that a proof of a crate with these lines takes."""
    return (LEAST + sum(LINE[it] * lines[it] for it in LINE)) * (0.4 + 0.6 * jobs)


def free_memory():
    """The free memory in bytes."""
    with open("/proc/meminfo") as rows:
        for row in rows:
            if row.startswith("MemAvailable:"):
                return int(row.split()[1]) * 1024
    return 0


def longest_chains(order, stands_on, lines):
    """For each crate the lines of the longest chain of crates that ends at the program and begins with it."""
    chains = {}
    for name in reversed(order):
        above = [it for it in order if name in stands_on[it]]
        chains[name] = sum(lines[name].values()) + max((chains[it] for it in above), default=0)
    return chains


def clock(seconds):
    """Minutes and seconds."""
    return "%d:%02d" % divmod(int(seconds), 60)


class Proof:
    """A crate that is being proved, with the file of its log."""

    def __init__(self, name, jobs, needs):
        self.name, self.jobs, self.needs = name, jobs, needs
        folder = crate_files.TOP / "crates" / name
        (folder / "out").mkdir(exist_ok=True)
        self.log = folder / "out" / "build.log"
        words = ["rt", "lib", "--jobs", str(jobs)]
        if name == "fslpp":
            # the run answers on the file stdin that lies in its folder
            words = ["rt", "run", "--jobs", str(jobs), "--", "check", "stdin"]
        with open(self.log, "wb") as said:
            how = {"stdin": subprocess.DEVNULL, "stdout": said, "stderr": said, "start_new_session": True}
            self.process = subprocess.Popen(words, cwd=folder, **how)

    def stop(self):
        """Ends the proof and all that it started."""
        if self.process.poll() is None:
            os.killpg(self.process.pid, signal.SIGTERM)
            self.process.wait()


class Build:
    """The crates that are left to prove, those that are being proved, and those that are proved."""

    def __init__(self):
        self.stands_on = crate_files.listed()
        self.left = crate_files.closure("fslpp", self.stands_on)
        self.lines = {it: lines_of(it) for it in self.left}
        self.chains = longest_chains(self.left, self.stands_on, self.lines)
        self.left.sort(key=lambda it: -self.chains[it])
        self.count, self.running, self.proved = len(self.left), [], set()
        self.memory = SHARE * free_memory()
        self.began = time.monotonic()

    def ready(self):
        """The crates whose libraries are proved, those with the longest chain above them first."""
        return [it for it in self.left if self.proved.issuperset(self.stands_on[it])]

    def start(self):
        """Starts proofs on idle processors, as many as memory holds, and one at least."""
        ready = self.ready()
        for at, name in enumerate(ready):
            idle = len(os.sched_getaffinity(0)) - sum(it.jobs for it in self.running)
            memory = self.memory - sum(it.needs for it in self.running)
            jobs = max(1, min(JOBS, idle // (len(ready) - at)))
            while jobs > 1 and memory_for(self.lines[name], jobs) > memory:
                jobs -= 1
            needs = memory_for(self.lines[name], jobs)
            if self.running and (idle < 1 or needs > memory):
                return
            self.left.remove(name)
            self.running.append(Proof(name, jobs, needs))

    def ended(self):
        """Notes the proofs that have ended, with a line each; gives one that failed, if there is one."""
        for proof in [it for it in self.running if it.process.poll() is not None]:
            self.running.remove(proof)
            if proof.process.returncode:
                return proof
            self.proved.add(proof.name)
            so_far = (len(self.proved), self.count, proof.name, clock(time.monotonic() - self.began))
            first_use.say("%d of %d crates proved: %s (%s)" % so_far)
        return None

    def stop(self):
        """Ends all proofs that run."""
        for proof in self.running:
            proof.stop()

    def run(self):
        """Proves all crates; gives a proof that failed, if there is one."""
        while self.left or self.running:
            self.start()
            time.sleep(0.2)
            failed = self.ended()
            if failed:
                return failed
        return None


def build():
    """Builds the proved program and gives the status of that."""
    program = first_use.Program("fslpp")
    sources = crate_files.sum_of_sources("fslpp")
    if program.is_of(sources):
        first_use.say("the proved program of these sources is there")
        return 0
    first_use.need_kit()
    first_use.say("building the proved program; a build that is stopped goes on where it was when it is called again")
    signal.signal(signal.SIGTERM, signal.default_int_handler)
    made = Build()
    try:
        failed = made.run()
    except KeyboardInterrupt:
        first_use.stop("stopped; call ./fslpp --build again to go on", first_use.STOPPED)
    finally:
        made.stop()
    if failed:
        first_use.stop("%s is not proved; the log is %s" % (failed.name, failed.log), first_use.BUILD_FAILED)
    if crate_files.sum_of_sources("fslpp") != sources:
        first_use.stop("the sources have changed meanwhile; call ./fslpp --build again", first_use.BUILD_FAILED)
    program.write_stamp(sources)
    first_use.say("built in %s: %s" % (clock(time.monotonic() - made.began), program.path))
    return 0
