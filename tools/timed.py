"""Runs a command, and notes the processor seconds that it took: tools/timed.py TABLE COMMAND..

The status and the output are the command's. To the table it adds a line for the whole command, and one for each crate and kind of
work of the prover below it: `proof`, `tests`, `wrong bodies`. These are looked up once a second, so that of each process up to a
second is missed."""
import os, re, resource, signal, subprocess, sys, threading

TICKS = os.sysconf("SC_CLK_TCK")


def processes():
    """Of each process its number, its parent's, and the processor seconds that it took so far."""
    for number in filter(str.isdigit, os.listdir("/proc")):
        try:
            with open(f"/proc/{number}/stat") as file:
                fields = file.read().rpartition(")")[2].split()
        except OSError:
            continue  # it has ended
        yield int(number), int(fields[1]), (int(fields[11]) + int(fields[12])) / TICKS


def below(root, parents):
    """The processes that the root began, and those that they began."""
    found = {root}
    while more := {it for it, parent in parents.items() if parent in found} - found:
        found |= more
    return found


def work_of(process):
    """The crate and the kind of work that a process of the prover is at, or None."""
    try:
        with open(f"/proc/{process}/cmdline") as file:
            words = file.read().split("\0")
    except OSError:
        return None
    if not words[0].endswith("/rattle") or words[1:2] not in (["build"], ["check"]) or "--crate-name" not in words[:-1]:
        return None
    is_proof = words[1] == "build" or any("/rt-proved-" in word for word in words)
    kind = "tests" if "--test" in words else "proof" if is_proof else "wrong bodies"
    return words[words.index("--crate-name") + 1], kind


class Look:
    """What was seen of the processes below one."""

    def __init__(self, root):
        self.root, self.work, self.seconds = root, {}, {}

    def look(self):
        seen = {number: (parent, taken) for number, parent, taken in processes()}
        for process in below(self.root, {it: parent for it, (parent, _) in seen.items()}):
            if process not in self.work:
                self.work[process] = work_of(process)
            if self.work[process] and process in seen:
                self.seconds[process] = seen[process][1]

    def sums(self):
        sums = {}
        for process, taken in self.seconds.items():
            sums[self.work[process]] = sums.get(self.work[process], 0) + taken
        return sums


def main():
    table, *command = sys.argv[1:]
    ran = subprocess.Popen(command)
    for number in (signal.SIGINT, signal.SIGTERM):
        signal.signal(number, lambda *_: ran.terminate())
    look, done = Look(ran.pid), threading.Event()

    def watch():
        while not done.wait(1):
            look.look()

    watcher = threading.Thread(target=watch)
    watcher.start()
    status = ran.wait()
    done.set()
    watcher.join()
    used = resource.getrusage(resource.RUSAGE_CHILDREN)
    name = " ".join(re.sub(r".*/", "", word) for word in command[:2])
    os.makedirs(os.path.dirname(table) or ".", exist_ok=True)
    with open(table, "a") as file:
        file.write(f"{name}\tall\t{used.ru_utime + used.ru_stime:.0f}\n")
        file.writelines(f"{crate}\t{kind}\t{taken:.0f}\n" for (crate, kind), taken in sorted(look.sums().items()))
    return status if status >= 0 else 128 - status


if __name__ == "__main__":
    sys.exit(main())
