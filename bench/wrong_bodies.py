"""Tries the wrong bodies in crates/NAME/must-fail of the checkout that it is started in: the prover has to refuse each.

    wrong_bodies.py NAME..

It changes sources while it runs, so that bench/wrong-bodies.sh starts it in a clone, one for each crate. A proof knows of another function its
contract alone. So wrong bodies of different functions are tried together, in one check of the crate: one is refused where the
check tells of its own function what isn't proved of it. One of which the check tells nothing is tried once more, alone, by
`rt must-fail`. For each crate a line tells how many were refused together, and how many alone; the last line is
`N refused, M proved`, where what could not be tried counts as proved and is told above.
"""
import os, re, shutil, subprocess, sys

FUNCTION = re.compile(r"\s*(?:pub(?:\([a-z]+\))? )?(?:final )?(?:const )?fn (\w+)")
PLACE = re.compile(r"(?:note: |error: )?(?:\./)?((?:src|proofs)/\S+?):(\d+):\d+:")
# How many are tried together at most: of more, the answers become long.
MOST = 8


def read(path):
    with open(path, encoding="utf-8") as file:
        return file.read()


def write(path, text):
    """Writes a new file in the place of the one before, which may have a second name in another checkout."""
    with open(f"{path}.new", "w", encoding="utf-8") as file:
        file.write(text)
    os.replace(f"{path}.new", path)


def pairs_of(edit):
    """The changes of a wrong body: file, old text, new text."""
    path, old, pairs = "", None, []
    for line in read(edit).split("\n"):
        if line.startswith("file: "):
            path = line[len("file: ") :].strip()
        elif line.startswith("old: "):
            old = line[len("old: ") :]
        elif line.startswith("new:") and old is not None:
            pairs.append((path, old, line[len("new:") :].removeprefix(" ")))
            old = None
    return pairs


def function_at(lines, number):
    """The name of the function that a line belongs to, and None outside of all; what stands right above one belongs to it."""
    while number <= len(lines) and re.match(r"\s*(#\[|//)", lines[number - 1]):
        number += 1
    for line in reversed(lines[:number]):
        found = FUNCTION.match(line)
        if found:
            return found[1]
        if re.match(r"(pub )?(struct|enum|const|use|impl|trait)\b|\}$", line):
            return None
    return None


def function_told(crate, path, number):
    """The file and the name of the function that a place in a source or in a proof of a function belongs to."""
    if path.startswith("src/"):
        if not os.path.isfile(f"crates/{crate}/{path}"):
            return path, None
        return path, function_at(read(f"crates/{crate}/{path}").split("\n"), number)
    folders = path.split("/")[1:-1]
    for end in range(len(folders) - 1, 0, -1):
        source = "src/" + "/".join(folders[:end]) + ".rt"
        if os.path.isfile(f"crates/{crate}/{source}"):
            return source, folders[-1]
    return path, None


def functions_of(crate, pairs):
    """The functions that a wrong body changes, or None where it can't be said."""
    found = set()
    for path, old, _ in pairs:
        if not path.startswith("src/") or not os.path.isfile(f"crates/{crate}/{path}"):
            return None
        text = read(f"crates/{crate}/{path}")
        if text.count(old) != 1:
            return None
        name = function_at(text.split("\n"), text[: text.index(old)].count("\n") + 1)
        if name is None:
            return None
        found.add((path, name))
    return found


def together(crate, edits):
    """Groups of wrong bodies that change different functions."""
    groups = []
    for edit in edits:
        functions = functions_of(crate, pairs_of(edit))
        if functions is None:
            continue
        for group in groups:
            if len(group) < MOST and not any(functions & others for others in group.values()):
                group[edit] = functions
                break
        else:
            groups.append({edit: functions})
    return groups


def checked(crate, group):
    """Checks the crate with these wrong bodies, and returns the functions of which something isn't proved."""
    before = {}
    try:
        for edit in group:
            for path, old, new in pairs_of(edit):
                text = read(f"crates/{crate}/{path}")
                before.setdefault(path, text)
                write(f"crates/{crate}/{path}", text.replace(old, new))
        ran = subprocess.run(["rt", "check", "--jobs", "1"], cwd=f"crates/{crate}", capture_output=True, text=True, errors="replace")
        said = ran.stdout + ran.stderr
        if not re.search(r"^logic=not-proved", said, re.M):
            return set()
        places = (PLACE.match(line) for line in said.split("\n"))
        return {function_told(crate, place[1], int(place[2])) for place in places if place}
    finally:
        for path, text in before.items():
            write(f"crates/{crate}/{path}", text)


def tried(crate):
    """Tries the wrong bodies of a crate, and returns how many there are and how many were refused."""
    folder = f"crates/{crate}/must-fail"
    edits = sorted(f"{folder}/{name}" for name in os.listdir(folder) if name.endswith(".edit"))
    refused = set()
    for group in together(crate, edits):
        told = checked(crate, group)
        refused |= {edit for edit, functions in group.items() if functions & told}
    alone = [edit for edit in edits if edit not in refused]
    last = 0
    if alone:
        shutil.move(folder, f"crates/{crate}/all-bodies")
        os.mkdir(folder)
        for edit in alone:
            shutil.copy(edit.replace("must-fail", "all-bodies"), folder)
        ran = subprocess.run(["rt", "must-fail", crate], capture_output=True, text=True, errors="replace")
        lines = [line for line in (ran.stdout + ran.stderr).split("\n") if f"must-fail {crate}/" in line]
        last = sum("refused, as it must be" in line for line in lines)
        print("\n".join(line for line in lines if "refused, as it must be" not in line), flush=True)
        shutil.rmtree(folder)
        shutil.move(f"crates/{crate}/all-bodies", folder)
    print(f"{crate}: {len(refused)} refused together, {last} alone, of {len(edits)}", flush=True)
    return len(edits), len(refused) + last


counts = [tried(crate) for crate in sys.argv[1:]]
total, refused = (sum(count[place] for count in counts) for place in (0, 1))
print(f"{refused} refused, {total - refused} proved")
sys.exit(0 if refused == total else 1)
