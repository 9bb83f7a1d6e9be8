"""The crates of this repository, of its bench and of its tests, as crates.txt, bench/crates/crates and tests/crates/crates list them."""
import os
import re
import shutil
from pathlib import Path

TOP = Path(__file__).resolve().parents[1]
CRATES = TOP / "crates"
# Sources stand here as texts, as src/lib.rt.txt.
BENCH = TOP / "bench/crates"
TESTS = TOP / "tests/crates"
COSTS = TOP / "tools/costs"
# Where copies of crates are made: on the disk of their libraries, which are linked and not copied, and where no source is
# looked for.
ROOMS = CRATES / "dnp/out/side"
KIT = Path(shutil.which("rt") or "/").resolve().parents[1]
# Of the toolchain's programs those are copied, and not linked, that look for others beside themselves: scripts, which are small.
SMALL = 1 << 20


def listing(path):
    """Each line that lists a crate, by the crate's name."""
    lines = path.read_text(encoding="utf-8").split("\n")
    return {re.split(r"[ :]", line)[0]: line for line in lines if ":" in line and not line.startswith("#")}


def lines():
    return {**listing(TOP / "crates.txt"), **listing(BENCH / "crates"), **listing(TESTS / "crates")}


def uses():
    """What each crate stands on, libraries of the toolchain too, by its name."""
    return {name: line.partition(":")[2].split() for name, line in lines().items()}


def below(crate, stands_on):
    """The crates that it stands on, lowest first."""
    found = []
    for name in (it for it in stands_on[crate] if it in stands_on):
        found += [it for it in [*below(name, stands_on), name] if it not in found]
    return found


def costs():
    """The processor seconds that each crate's proof and builds take, by tools/costs."""
    rows = [line.split() for line in COSTS.read_text(encoding="utf-8").splitlines() if line and not line.startswith("#")]
    return {name: int(proof) + int(builds) for name, proof, builds, _ in rows}


def side_by_side():
    """How many checks go at a time: one for each core that this process may use, with 3 GiB of memory for each."""
    free = next(line for line in Path("/proc/meminfo").read_text().split("\n") if line.startswith("MemAvailable:"))
    return max(1, min(len(os.sched_getaffinity(0)), int(free.split()[1]) // 3145728))


def library_in(folders, name):
    """The library of a crate in the first of these folders that has it, or None."""
    found = (folder / name / f"out/rlib/{name}.rlib" for folder in folders)
    return next((path for path in found if (path / "format").is_file()), None)


def as_libraries(crate, folders, emptied):
    """The words that hand a crate those below it: their libraries, or where one has none the source that `emptied` makes."""
    stands_on = uses()
    own = below(crate, stands_on)
    found = {name: library_in(folders, name) for name in own}
    missing = [name for name in own if found[name] is None]
    if missing and not emptied:
        raise SystemExit(f"no library of {', '.join(missing)} in {':'.join(map(str, folders))}: run `rt ci` first")
    # (of libraries those alone that the crate or a source names)
    readers = [crate, *missing]
    named = [name for name in own if found[name] and any(name in stands_on[it] for it in readers)]
    kits = sorted({name for it in readers for name in stands_on[it] if name not in stands_on})
    words = [word for name in ["std", *kits] for word in ("--extern", f"{name}={KIT}/rlibs/{name}.rlib")]
    words += [word for name in named for word in ("--extern", f"{name}={found[name]}")]
    for name in missing:
        words += ["--lib", f"{name}:{','.join(['std', *stands_on[name]])}={emptied(name)}/src/lib.rt"]
    for folder in [f"{KIT}/rlibs", *(str(path.parent) for path in found.values() if path)]:
        words += ["-L", f"dependency={folder}"]
    return words


def check_words(crate, folders, emptied=None):
    """The checker's own call for a crate over libraries that `rt ci` left in FOLDER/NAME/out/rlib. They have no stamp
    there, so that `rt check` would build them all again. Where `emptied` is given, it makes the source of a crate that has
    no library in any of the folders."""
    source = texts_of(crate) or CRATES / crate
    root = "src/main.rt" if any(source.glob("src/main.rt*")) else "src/lib.rt"
    words = [f"{KIT}/bin/rattle", "check", "--crate-name", crate, root, *as_libraries(crate, folders, emptied)]
    if " staticlib:" in lines()[crate]:
        words += ["--crate-type", "staticlib"]
    return [*words, "--antt-project", f"{KIT}/rattle/logic/antt-project.json", "--logic-built", f"{KIT}/logic_built"]


def texts_of(crate):
    """The folder of a crate whose sources stand as texts, or None."""
    return next((it / crate for it in (BENCH, TESTS) if (it / crate).is_dir()), None)


def copy_of_texts(crate, folder):
    """Makes a crate of its texts."""
    shutil.copytree(texts_of(crate), folder)
    for path in [it for it in folder.rglob("*.txt") if it.is_file()]:
        path.rename(path.with_suffix(""))


def fill(room, crates, parts, copy):
    """Makes a repository of these crates: copies of these parts of each, in which `rt` holds none of this folder's."""
    (room / "crates").mkdir(parents=True)
    shutil.copy(TOP / "HANDLES", room)
    listed = lines()
    (room / "crates.txt").write_text("".join(f"{listed[it]}\n" for it in crates), encoding="utf-8")
    for it in crates:
        if texts_of(it):
            copy_of_texts(it, room / "crates" / it)
            continue
        for part in parts:
            if (CRATES / it / part).is_dir():
                shutil.copytree(CRATES / it / part, room / "crates" / it / part, copy_function=copy)


def linked(folder, to):
    """Makes a folder of links to what is in another."""
    to.mkdir()
    for path in folder.iterdir():
        (to / path.name).symlink_to(path)


def kit_of_links(to):
    """Makes a folder of links to the toolchain, for `rt try`. It asks no checker there, which reads all crates for a hint on names."""
    linked(KIT, to)
    (to / "bin").unlink()
    (to / "bin").mkdir()
    for path in (KIT / "bin").iterdir():
        if path.name == "rattle":
            (to / "bin/rattle").symlink_to("/bin/true")
        elif path.stat().st_size < SMALL:
            shutil.copy(path, to / "bin")
        else:
            (to / "bin" / path.name).symlink_to(path)


def room_of(crate, stands_on, room):
    """A copy of a crate and of those below it, with their libraries."""
    shutil.rmtree(room, ignore_errors=True)
    # (not what else stands in out/: a lock there is one for all who hold the file)
    fill(room, [*below(crate, stands_on), crate], ("src", "specs", "proofs", "out/rlib"), os.link)
    return room / "crates" / crate
