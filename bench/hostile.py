"""Runs the program over files that were changed at random, and looks for what must never be.

    hostile.py PROGRAM EXAMPLES CASES SEED FIRST

bench/hostile.sh starts it, and says there what it looks for. A case is determined by the seed and its number alone.
"""
import collections, concurrent.futures, os, pathlib, random, re, shutil, subprocess, sys, tempfile

SIZE = 4_194_304  # bytes of a store
SECONDS = 20  # after which a run counts as one that doesn't end
STATUSES = range(12)  # docs/FORMATS.md has them
REFUSED = {1, 2, 4, 5}  # the statuses without a page
UNOPENED = {7, 8}  # those of a store that isn't opened, or fails
LINE = re.compile(rb"(opened|issued|kept|blown|served|accepted|queued|absorbed|pass|ordered|ended|moves) [ -~]+|settled|down")
PRINTABLE = re.compile(rb"[\n -~]*")
NUMBERS = [b"0", b"1", b"00", b"-1", b"64", b"1001", b"2147483647", b"2147483648", b"4294967295", b"4294967296",
           b"1000000000000000", b"9223372036854775807", b"18446744073709551616"]
SCRIPTS = [("cluster.json", name) for name in (
    "crash-points.txt", "expired-master.txt", "job.txt", "kill-and-crash.txt", "kept-containers.txt", "lost-node.txt", "retries.txt",
    "rolling-restart.txt", "script.txt")] + [("rights.json", "rights.txt"), ("two-queues.json", "two-queues.txt")]


# CHANGES


def changed_bytes(rng, text):
    """A text with one byte changed, or a part of it taken away, put in once more, or put in anew."""
    if not text:
        return bytes([rng.randrange(256)])
    at = rng.randrange(len(text))
    end = min(len(text), at + rng.choice([1, 1, 2, 4, 16, 200]))
    return rng.choice([
        lambda: text[:at] + bytes([text[at] ^ 1 << rng.randrange(8)]) + text[at + 1 :],
        lambda: text[:at] + bytes([rng.choice([0, 1, 10, 13, 32, 34, 44, 58, 127, 255, rng.randrange(256)])]) + text[at + 1 :],
        lambda: text[:at] + text[end:],
        lambda: text[:end] + text[at:end] + text[end:],
        lambda: text[:at] + rng.randbytes(end - at) + text[at:],
        lambda: text[:at],
    ])()


def changed_number(rng, text):
    """A text with one number changed to one at the end of a range."""
    found = list(re.finditer(rb"\d+", text))
    if not found:
        return changed_bytes(rng, text)
    one = rng.choice(found)
    near = b"%d" % max(0, int(one[0]) + rng.choice([-1, 1]))
    return text[: one.start()] + rng.choice([near, *NUMBERS]) + text[one.end() :]


def changed_lines(rng, text, other):
    """A text with a line taken away, doubled, moved, lost on its way, or put in from another one."""
    lines = text.splitlines(keepends=True) or [b"\n"]
    at, to = rng.randrange(len(lines)), rng.randrange(len(lines))
    line = lines[at]
    change = rng.randrange(5)
    if change == 0:
        del lines[at]
    elif change == 1:
        lines.insert(to, line)
    elif change == 2:
        lines.insert(to, lines.pop(at))
    elif change == 3:
        lines[at] = b"lose " + line
    else:
        lines.insert(to, rng.choice(other.splitlines(keepends=True) or [b"settle\n"]))
    return b"".join(lines)


def changed_text(rng, text, other):
    """A text after one to four changes; numbers and lines more often than bytes, so that many are still read."""
    for _ in range(rng.choice([1, 1, 1, 2, 4])):
        change = rng.randrange(5)
        if change < 2:
            text = changed_number(rng, text)
        elif change < 4:
            text = changed_lines(rng, text, other)
        else:
            text = changed_bytes(rng, text)
    return text


def records_of(head):
    """The records with which a store begins."""
    records, at = [], 0
    while head[at : at + 1] == b"\1":
        end = at + 5 + int.from_bytes(head[at + 1 : at + 5], "big")
        records.append(head[at:end])
        at = end
    return records


def changed_store(rng, head, other):
    """The first bytes of a store after one to four changes: of bytes in their places, or of whole records."""
    for _ in range(rng.choice([1, 1, 1, 2, 4])):
        if rng.randrange(3) == 0:
            records = records_of(head) or [b""]
            at, to = rng.randrange(len(records)), rng.randrange(len(records))
            change = rng.randrange(4)
            if change == 0:
                del records[at]
            elif change == 1:
                records.insert(to, records[at])
            elif change == 2:
                records[at], records[to] = records[to], records[at]
            else:
                records.insert(to, rng.choice(records_of(other) or [b""]))
            head = b"".join(records)
        else:
            at = rng.randrange(len(head) + 8)
            head = head.ljust(at + 1, b"\0")
            byte = rng.choice([head[at] ^ 1 << rng.randrange(8), rng.randrange(256), (head[at] + 1) % 256])
            head = head[:at] + bytes([byte]) + head[at + 1 :]
    return head


# A CASE


class Wrong(Exception):
    """What was seen that must never be."""


class Case:
    """A case in a folder of its own, and the statuses of its runs."""

    def __init__(self, program, folder):
        self.program, self.folder, self.statuses = program, folder, []

    def write(self, name, content):
        (self.folder / name).write_bytes(content)

    def write_store(self, head, size=SIZE):
        with open(self.folder / "rm.store", "wb") as file:
            file.write(head)
            file.truncate(size)

    def store(self):
        """The bytes of the store, and None where there is none."""
        path = self.folder / "rm.store"
        return path.read_bytes() if path.exists() else None

    def run(self, *words):
        """Runs the program by these words, and gives its status and its page."""
        said = " ".join(words)
        try:
            ran = subprocess.run([self.program, *words], cwd=self.folder, stdin=subprocess.DEVNULL, capture_output=True, timeout=SECONDS)
        except subprocess.TimeoutExpired:
            raise Wrong(f"{said}: no end in {SECONDS} seconds") from None
        status, page = ran.returncode, ran.stdout
        self.statuses.append((words[0], status))
        if status < 0:
            raise Wrong(f"{said}: signal {-status}")
        if status not in STATUSES:
            raise Wrong(f"{said}: status {status}")
        if not PRINTABLE.fullmatch(ran.stderr) or (status != 0 and not ran.stderr):
            raise Wrong(f"{said}: status {status}, and on standard error {ran.stderr[:200]!r}")
        if status in REFUSED and page:
            raise Wrong(f"{said}: status {status}, and a page that begins {page[:100]!r}")
        lines = page.split(b"\n")
        if lines.pop() != b"" or not all(LINE.fullmatch(line) for line in lines):
            raise Wrong(f"{said}: status {status}, and a page that is no list of lines: {page[-200:]!r}")
        return status, lines

    def listed(self):
        """What the store lists, which a call before left so; it has to be opened."""
        status, lines = self.run("store", "--file")
        if status != 0:
            raise Wrong(f"the store isn't opened any more: status {status}")
        return lines

    def run_over_store(self, *words):
        """Runs the program over the store: where it isn't opened it stays as it is, else it is opened again, and lists what it did and what is kept."""
        before = self.store()
        old = []
        if before is not None:
            status, old = self.run("store", "--file")
            if status != 0:
                if status not in UNOPENED:
                    raise Wrong(f"a listing with status {status}")
                again, _ = self.run(*words, "--file")
                # (a file may be refused before the store is opened, and a script may have no life)
                if again not in UNOPENED | REFUSED | {0, 6}:
                    raise Wrong(f"status {again} over a store that isn't opened")
                if self.store() != before:
                    raise Wrong("a store that isn't opened was changed")
                return
        status, page = self.run(*words, "--file")
        if status in UNOPENED:
            raise Wrong(f"status {status} over a store that is opened")
        new = self.listed()
        if new[: len(old)] != old:
            raise Wrong("the store doesn't list what it listed before")
        left = iter(new[len(old) :])
        for line in page:
            if line.startswith(b"kept ") and line not in left:
                raise Wrong(f"the store doesn't list {line!r}")
        return


def of_files(case, rng, kind, bases):
    """A changed cluster file, script or schedule, over memory, a new file or one with a store."""
    base, other = rng.choice(bases), rng.choice(bases)
    cluster, script, schedule = base.cluster, base.script, base.moves
    if kind == "cluster":
        cluster = changed_text(rng, cluster, other.cluster)
    elif kind == "schedule":
        schedule = changed_bytes(rng, schedule) if rng.randrange(2) else changed_bytes(rng, changed_bytes(rng, schedule))
    else:
        script = changed_text(rng, script, other.script)
    case.write("cluster", cluster)
    case.write("script", script)
    case.write("schedule", schedule)
    words = {"schedule": ("replay", "cluster", "script", "schedule"), "threads": ("threads", "cluster", "script")}
    words = words.get(kind, ("plain", "cluster", "script"))
    if rng.randrange(4) == 0:
        words += ("--moves",)
    place = rng.randrange(3)
    if place == 0:
        case.run(*words)
        return
    if place == 1:
        case.write_store(other.store)
    case.run_over_store(*words)
    # Nobody changed the store since: a script that is intact goes on over it.
    case.write("next", other.script)
    case.write("settings", other.cluster)
    case.run_over_store("plain", "settings", "next")


def of_store(case, rng, bases):
    """A changed store, and an intact script over it, once more, and by workers."""
    base, other = rng.choice(bases), rng.choice(bases)
    head = changed_store(rng, base.store, other.store)
    size = SIZE if rng.randrange(40) else rng.choice([0, 1, 19, len(head), SIZE - 1, SIZE + 1])
    case.write_store(head, size)
    for name in (base, other):
        case.write("cluster", name.cluster)
        case.write("script", name.script)
        case.run_over_store("plain", "cluster", "script")
    if rng.randrange(10) == 0:
        case.run_over_store("threads", "cluster", "script")


KINDS = ["cluster"] * 3 + ["script"] * 6 + ["schedule"] * 3 + ["store"] * 7 + ["threads"]


def tried(program, bases, seed, number, stays):
    """Tries a case; what was wrong in it, if anything, its kind and its statuses."""
    rng = random.Random(f"{seed}/{number}")
    kind = rng.choice(KINDS)
    folder = pathlib.Path(tempfile.mkdtemp(prefix=f"hostile.{number}."))
    case = Case(program, folder)
    try:
        if kind == "store":
            of_store(case, rng, bases)
        else:
            of_files(case, rng, kind, bases)
        wrong = None
    except Wrong as seen:
        wrong = f"{seen}{f', in {folder}' if stays else ''}"
    if not stays or wrong is None:
        shutil.rmtree(folder)
    return number, kind, wrong, case.statuses


# WHAT CASES BEGIN WITH


Base = collections.namedtuple("Base", "cluster script moves store")


def base_of(program, examples, cluster, script):
    """The files of an example, the moves of its run, and the records of the store that the run left."""
    with tempfile.TemporaryDirectory() as folder:
        words = [program, "plain", str(examples / cluster), str(examples / script), "--moves", "--file"]
        ran = subprocess.run(words, cwd=folder, stdin=subprocess.DEVNULL, capture_output=True, timeout=SECONDS)
        if ran.returncode != 0:
            sys.exit(f"{script} has status {ran.returncode}: {ran.stderr.decode()}")
        moves = ran.stdout.splitlines()[-1].removeprefix(b"moves ")
        store = b"".join(records_of(pathlib.Path(folder, "rm.store").read_bytes()))
    return Base((examples / cluster).read_bytes(), (examples / script).read_bytes(), moves, store)


def main():
    program, examples = sys.argv[1], pathlib.Path(sys.argv[2])
    cases, seed, first = map(int, sys.argv[3:6])
    if os.access("/dev/shm", os.W_OK):
        tempfile.tempdir = "/dev/shm"
    bases = [base_of(program, examples, *names) for names in SCRIPTS]
    failed, statuses = 0, collections.Counter()
    with concurrent.futures.ThreadPoolExecutor(os.cpu_count()) as pool:
        tries = (pool.submit(tried, program, bases, seed, number, cases == 1) for number in range(first, first + cases))
        for done in concurrent.futures.as_completed(list(tries)):
            number, kind, wrong, came = done.result()
            statuses.update(came)
            if wrong is not None:
                failed += 1
                print(f"FAILED case {number} of seed {seed}, {kind}: {wrong}", flush=True)
    modes = sorted({mode for mode, _ in statuses})
    print(f"| status | {' | '.join(modes)} |\n|{'---|' * (len(modes) + 1)}")
    for status in sorted({status for _, status in statuses}):
        print(f"| {status} | {' | '.join(str(statuses[mode, status]) for mode in modes)} |")
    print(f"{cases - failed} passed, {failed} failed")
    sys.exit(0 if failed == 0 else 1)


main()
