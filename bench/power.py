"""Makes images of what a loss of power may leave of a store, and looks at what the program lists of each.

    power.py PROGRAM FOLDER IMAGES SEED

bench/power.sh starts it, and says there what it does. FOLDER has the empty store that the run began over, the record of its calls,
and its page.
"""
import concurrent.futures, os, pathlib, random, re, subprocess, sys

SECTOR = 512
HALF = 2_097_152
APP = re.compile(r"application_(\d+_\d+)|appattempt_(\d+_\d+)_")


def calls_of(record):
    """The calls of a record: the place and the bytes of a write, or None for a sync."""
    calls, at = [], 0
    while at < len(record):
        if record[at : at + 1] == b"S":
            calls.append(None)
            at += 1
        else:
            place, many = (int.from_bytes(record[at + 1 + 8 * i : at + 9 + 8 * i], "little") for i in (0, 1))
            calls.append((place, record[at + 17 : at + 17 + many]))
            at += 17 + many
    return calls


def acknowledged(calls):
    """How many appends had ended before each call, and whether the call is amid a change of area."""
    ended, amid, counts, changes = 0, False, [], []
    opened = False  # the last write opened the gate of an appended record
    for call in calls:
        counts.append(ended)
        changes.append(amid)
        if call is None:
            if opened:
                ended += 1
                amid = False
            opened = False
        elif call[0] in (0, HALF) or call[0] in (1, HALF + 1) and len(call[1]) == 13:
            amid, opened = True, False
        else:
            opened = call[1] == b"\1"
    return counts, changes


def app_of(line):
    found = APP.search(line)
    return found and (found[1] or found[2])


def left_of(lines):
    """What is left of a list of operations: all but the epochs before the last one, the removals, and what they take away."""
    left, removed, epoch = [], set(), False
    for line in reversed(lines):
        if line.startswith("kept epoch"):
            if epoch:
                continue
            epoch = True
        elif line.startswith("kept remove"):
            removed.add(app_of(line))
            continue
        elif app_of(line) in removed:
            continue
        left.append(line)
    left.reverse()
    return left


def image_of(rng, writes):
    """What may stand of unsynced writes, as places with the bytes there."""
    kind = rng.randrange(3)
    sectors = {}
    for place, data in writes:
        end = place + len(data)
        for sector in range(place // SECTOR, (end - 1) // SECTOR + 1):
            first, last = max(place, sector * SECTOR), min(end, (sector + 1) * SECTOR)
            sectors.setdefault(sector, []).append((first, data[first - place : last - place]))
    image = []
    for parts in sectors.values():
        for first, part in parts[: rng.randint(0, len(parts))]:
            if kind == 1:
                part = part[: rng.randint(0, len(part))]
            elif kind == 2 and rng.randrange(2):
                part = rng.choice([rng.randbytes(len(part)), b"\1" * len(part), bytes(len(part))])
            image.append((first, part))
    return image


def try_images(work):
    """Tries the images before these calls, in a folder of its own; the ones that lost something."""
    program, folder, number, seed, calls, counts, kept, chosen = work
    own = folder / f"part{number}"
    own.mkdir()
    durable = bytearray((folder / "empty.store").read_bytes())
    (own / "rm.store").write_bytes(durable)
    lost, at, pending = [], 0, []
    with open(own / "rm.store", "r+b", buffering=0) as file:
        for index, call in chosen:
            while at < call:
                if calls[at] is None:
                    for place, data in pending:
                        durable[place : place + len(data)] = data
                        file.seek(place)
                        file.write(data)
                    pending = []
                else:
                    pending.append(calls[at])
                at += 1
            rng = random.Random(f"{seed} {index}")
            image = image_of(rng, pending)
            for place, data in image:
                file.seek(place)
                file.write(data)
            run = subprocess.run([program, "store", "--file"], cwd=own, capture_output=True, text=True)
            if run.returncode != 0:
                lost.append(f"call {call}: status {run.returncode}: {run.stderr.strip()[:200]}")
            else:
                found = left_of(run.stdout.splitlines())
                before = kept[: counts[call]]
                if found != left_of(before) and found != left_of(kept[: counts[call] + 1]):
                    lost.append(f"call {call}: {len(found)} operations are left, of {counts[call]} that were acknowledged")
            for place, data in image:
                file.seek(place)
                file.write(durable[place : place + len(data)])
    return lost


def main():
    program, folder, images, seed = sys.argv[1], pathlib.Path(sys.argv[2]), int(sys.argv[3]), int(sys.argv[4])
    calls = calls_of((folder / "record").read_bytes())
    counts, changes = acknowledged(calls)
    kept = [line for line in (folder / "page").read_text().splitlines() if line.startswith("kept ")]
    ended = counts[-1] + 1 if calls and calls[-1] is None else counts[-1]
    if ended != len(kept):
        sys.exit(f"the record has {ended} appends, and the page {len(kept)}")
    generations = [call for call in calls if call and call[0] in (1, HALF + 1) and len(call[1]) == 13]
    amid = [at for at, is_amid in enumerate(changes) if is_amid]
    rng = random.Random(seed)
    places = sorted([rng.choice(amid) for _ in range(images // 2)] + [rng.randrange(len(calls)) for _ in range(images - images // 2)])
    chosen = list(enumerate(places))
    print(f"{len(kept)} operations were kept, by {len(calls)} writes and syncs; the area was changed {len(generations)} times")
    parts = os.cpu_count() or 1
    work = [(program, folder, part, seed, calls, counts, kept, chosen[len(chosen) * part // parts : len(chosen) * (part + 1) // parts]) for part in range(parts)]
    with concurrent.futures.ProcessPoolExecutor(parts) as pool:
        lost = [one for part in pool.map(try_images, work) for one in part]
    for one in lost[:20]:
        print(one)
    print(f"{len(chosen)} images, {len(lost)} lost")
    sys.exit(1 if lost else 0)


main()
