#!/usr/bin/env python3
"""Runs each command that CONTRIBUTING.md, docs/testing.md and docs/proof-cost.md show, and those that other documents name in their
sentences, and prints 'ok NAME' or 'FAILED NAME' for it.

A command is a line of a block, or a text between backticks, that begins with a program of the repository or of the toolchain.
The blocks of other documents are typed by readme.sh, check.sh and operating.sh.
RUNS has each one, as the document writes it, and how it is run:
    Here       at the top of the repository: as it stands, or with smaller counts
    Copy       in a copy of the tree to which CONTRIBUTING's worked change was applied, over a checker that proves nothing
               (tests/shell/kit), or in ./test over the real one
    Scratch    in a crate over std alone, as `rt new` makes it: in this order, since each finds there what those before it left.
               In ./test --quick, which proves nothing, a proof isn't run: the toolchain's help has its word and its options
    Elsewhere  by another file of the tests, which has this text
A command that RUNS lacks fails, and one that no document shows. Of other words of `dnp` that a document has between backticks each
option is one of that subcommand's help.
"""
import functools
import os
import re
import shutil
import subprocess
import sys
import tempfile
from dataclasses import dataclass
from pathlib import Path

sys.path.insert(0, str(Path(__file__).resolve().parents[1]))
import scale  # noqa: E402

TOP = Path(__file__).resolve().parents[2]
DOCUMENTS = ("CONTRIBUTING.md", "docs/testing.md", "docs/proof-cost.md")
OTHERS = ("README.md", "SECURITY.md", "bench/README.md", "bench/network/README.md", "examples/README.md", *sorted(str(it.relative_to(TOP)) for it in TOP.glob("docs/*.md")))
BEGINS = re.compile(r"(?:\./(?:dnp|build|test|bench/\S+)|(?:tests|tools|bench)/\S+|python3|bash|rt|rattle|echo)(?= |$)|(?:sudo|sqlite3|systemctl|journalctl) "
                    # (of `dnp` the words with a file or a host in them)
                    r"|dnp (?:--|[a-z]+ (?:.* )?(?:\S+\.(?:db|toml)|FILE|HOST:PORT)(?: |$))")
# Where the scratch crate stands
ROOM = tempfile.TemporaryDirectory()
# What the change is to: the crate, and what the checker and the mutants' tool print of it, by the document
CRATE, MUTANT = "dnp_orders", "tests/refused/dnp_orders/open_closes.edit"


@dataclass
class Here:
    words: str                      # what is typed; nothing: the command itself
    prints: str = ""                # a pattern that the output has
    status: int = 0


@dataclass
class Copy:
    words: str
    prints: str = ""
    kit: str = "stand-in"           # or the real one
    status: int = 0


@dataclass
class Scratch:
    words: str
    prints: str
    proves: str = ""                # of a proof the word of `rt`, and the options
    status: int = 0


@dataclass
class Elsewhere:
    file: str
    text: str


ONE = f"{CRATE} action::Action::named"
HOSTILE = f"--stores /bin/true {scale.scaled('', '--unbounded')}"
BOTH = f"{ONE} laws::words_and_codes_are_one_to_one"
# What stands between two lines
LINES = r"(?:.*\n)*"
# The words of `rt check` in the scratch crate, a function that any body would do for, and a test
KIT = Path(shutil.which("rt") or "/").resolve().parents[1]
CHECKS = (f"--crate-name tally src/lib.rt --extern std={KIT}/rlibs/std.rlib -L dependency={KIT}/rlibs "
          f"--antt-project {KIT}/rattle/logic/antt-project.json --logic-built {KIT}/logic_built --incremental out/incremental")
WEAK = "\npub fn weak(x: usize) -> usize {\n    x\n}\n"
TEST = """
#[cfg(test)]
mod tests {
    use super::echo;

    #[test]
    fn an_echo_is_what_was_said(rt: HostRuntime) {
        assert!(rt; echo(7) == 7);
    }
}
"""
PAGES = "/sys/kernel/mm/transparent_hugepage/enabled"
RUNS = {
    # The programs
    "./dnp sim --help": Here("./dnp sim --help", "^Run a script on a simulated network"),
    "./dnp": Here("./dnp --version", "^dnp "),
    "./dnp ..": Here("./dnp --version", "^dnp "),
    "dnp --version": Here(f"{scale.DNP} --version", r"^dnp [0-9.]+ \("),
    "dnp check --plan FILE": Here(f"{scale.DNP} check --plan examples/plan.toml", "^substation kind "),
    "dnp poll HOST:PORT": Elsewhere("tests/shell/serving.sh", 'poll "127.0.0.2:$port"'),
    "dnp outstation --plan FILE --station S --port 20000 --forever --bind 0.0.0.0": Elsewhere("tests/shell/serving.sh", "shown README.md '--bind'"),
    "dnp outstation --plan plan.toml --station 0 --network network.toml --forever": Elsewhere(
        "tests/shell/serving.sh", "shown docs/network.md '--network network.toml'"),
    # (operating.sh types what stands so in docs/operating.md)
    "dnp rows --controls above.db --of centre": Elsewhere("docs/operating.md", "\n$ dnp rows --controls above.db --of centre\n"),
    "dnp rows --controls below.db --of concentrator": Elsewhere("docs/operating.md", "\n$ dnp rows --controls below.db --of concentrator\n"),
    "sqlite3 journal.db 'SELECT * FROM journal'": Elsewhere("tests/shell/operating.sh", """grep -o "sqlite3 journal.db '[^']*'" """),
    "journalctl -u NAME": Elsewhere("tests/shell/operating.sh", "\nstands_in journalctl "),
    "systemctl start NAME": Elsewhere("tests/shell/operating.sh", "\noperates start\n"),
    "systemctl stop": Elsewhere("tests/shell/operating.sh", "\noperates stop\n"),
    "echo $?": Here("false; echo $?", "^1$"),
    "./build": Elsewhere("tests/shell/program.sh", '"$room/$tree/build" "$@"'),
    "./build --install": Elsewhere("tests/shell/program.sh", "build made --install\n"),
    "sudo ./build --install": Elsewhere("tests/shell/program.sh", "build made --install\n"),
    "./build --install PREFIX": Elsewhere("tests/shell/install.sh", '"$top/build" --install "$room/prefix"'),
    "./test": Elsewhere("tests/shell/gate.sh", "\ntests\n"),
    "./test --quick": Elsewhere("tests/shell/gate.sh", "\ntests --quick\n"),
    # The toolchain
    "rt": Here("rt version", "^rattle-kit"),
    "rt version": Here("rt version", "^rattle-kit"),
    "rt doc": Here('test -f "$(rt doc)"'),
    "rattle check --jobs 1 --progress": Scratch(
        f"rattle check --jobs 1 --progress {CHECKS}", rf"^checked tally::echo, 1 of 1\n{LINES}logic=proved functions=1 ", "check --jobs --progress"),
    "rt check": Scratch("rt check --jobs 1", rf"^fn tally::echo: proved\n{LINES}logic=proved functions=1 ", "check"),
    "rt check --only FUNCTION": Scratch("rt check --only echo --jobs 1", rf"^fn tally::echo: proved\n{LINES}only=1 proved=1$", "check --only"),
    "rt check --start FUNCTION --allow-holes": Scratch(
        "mv proofs/echo/Answers.antt ../../answer && rt check --start echo --allow-holes --jobs 1",
        rf"^started=1\n{LINES} +⊢ c.args.x ≡ echo_of c.args.x\n{LINES}only=1 holes=1$", "check --start --allow-holes", 1),
    "rt check --allow-holes": Scratch(
        "rt check --allow-holes --jobs 1; ended=$?; mv ../../answer proofs/echo/Answers.antt; exit $ended",
        rf"goal \? in `returns`\n{LINES} +⊢ c.args.x ≡ echo_of c.args.x\n{LINES}holes=1$", "check --allow-holes", 1),
    "rt ci NAME": Scratch("cd ../.. && rt ci tally", "^1 passed, 0 failed .tally and the crates below alone", "ci NAME.."),
    "rt ci NAME..": Scratch("cd ../.. && rt ci tally", "^1 passed, 0 failed .tally and the crates below alone", "ci NAME.."),
    "rt ci": Scratch("cd ../.. && rt ci", "^1 passed, 0 failed$", "ci"),
    "rt fmt": Scratch("sed -i 's/^    x$/  x/' src/lib.rt && rt fmt && cat src/lib.rt", "^    x$"),
    # (a function without a contract is what it finds at once)
    "rt plant": Scratch(f"printf %s '{WEAK}' >>src/lib.rt && rt plant --only weak --jobs 1", rf"^no-ensures .* weak\(\)\n{LINES}plants crate=tally .* no-ensures=1 ", "plant"),
    "rt try": Elsewhere("tests/crates/build", 'kit/bin/rt", "try", "--steps", "1"'),
    "rt try --test": Scratch(f"printf %s '{TEST}' >>src/lib.rt && rt try --test", "^test result: ok. 1 passed; 0 failed"),
    # One crate
    "tools/one": Copy(f"tools/one {ONE}", "^ok action::Action::named$"),
    # (./test --quick proves nothing)
    "tools/one CRATE FUNCTION..": Copy(f"tools/one {BOTH}", "^ok laws::words_and_codes_are_one_to_one$", scale.scaled("real", "stand-in")),
    f"tools/one {BOTH}": Copy(f"tools/one {BOTH}", "^ok action::Action::named\nok laws::words_and_codes_are_one_to_one$"),
    "tools/one --libraries": Copy(f"tools/one --libraries crates {ONE}", "^ok action::Action::named$"),
    "tools/one --room ROOM --times CRATE FUNCTION..": Copy(f"tools/one --room times --times {ONE}", "^ok action::Action::named$"),
    "tools/one --room ROOM --goals CRATE FUNCTION..": Copy(f"tools/one --room goals --goals {ONE}", "^ok action::Action::named$"),
    "tools/clauses": Elsewhere("tests/shell/clauses.sh", "$(tools/clauses HEAD . pumps flow 2>&1)"),
    "tools/clauses OLD NEW CRATE FUNCTION..": Elsewhere("tests/shell/clauses.sh", "$(tools/clauses HEAD . pumps flow 2>&1)"),
    "tools/texts --help-from PROGRAM": Copy(f"tools/texts --help-from {scale.DNP} && tools/texts --check", "^ok share-dnp.1$"),
    "tools/texts": Copy("tools/texts && tools/texts --check", "^ok share-dnp.1$"),
    # (which program.sh runs)
    "tools/checked": Elsewhere("dnp", '"$top/tools/checked" "$checked_program"'),
    "tools/build": Elsewhere("build", '"$top/tools/build" dnp "$log"'),
    "tools/release": Elsewhere("tests/shell/release.sh", '"$copy/tools/release" "$1"'),
    # Tests
    "tests/packages": Elsewhere("test", "\n    tests/packages </dev/null\n"),
    "tests/crates/run": Elsewhere("tests/quick", "tests/crates) tests/crates/run ;;"),
    "tests/crates/run NAME": Elsewhere("tests/shell/crates.sh", '"$copy/tests/crates/$script" "$@"'),
    "tests/crates/build": Elsewhere("tests/shell/crates.sh", "expect_of build builds-nothing-twice 0 '' dnp_files"),
    "tests/crates/build NAME": Elsewhere("tests/shell/crates.sh", "expect_of build builds-nothing-twice 0 '' dnp_files"),
    "tests/crates/build --checked NAME": Elsewhere("tests/shell/crates.sh", "expect_of build checks-accesses 0 '' --checked dnp_files"),
    "tests/crates/run dnp_station_tests": Elsewhere("tests/shell/crates.sh", '"ok dnp_station_tests:points" dnp_station_tests\n'),
    "tests/crates/run --fmt NAME": Elsewhere("tests/shell/crates.sh", " --fmt dnp_station_tests\n"),
    "tests/shell/decode.sh": Elsewhere("tests/quick", '*) bash "$1" ;;'),
    "bash tests/shell/sim.sh": Elsewhere("tests/quick", '*) bash "$1" ;;'),
    "tests/quick tests/shell/sim.sh tests/profile": Elsewhere("tests/shell/gate.sh", "tests/quick tests/shell/one.sh tests/profile"),
    "tests/programs/run --only others": Elsewhere("tests/quick", 'tests/programs/run --only "${1##*/}"'),
    "tests/files/run": Elsewhere("tests/quick", "tests/files) tests/files/run ;;"),
    "tests/headline/run": Elsewhere("tests/quick", "&& tests/headline/run 100"),
    "tests/profile/compare": Elsewhere("tests/quick", "tests/profile/compare ;;"),
    "tests/programs/connections.py": Elsewhere("tests/programs/run", '"$here/connections.py" $connections'),
    "tests/programs/living.py": Elsewhere("tests/programs/run", '"$here/living.py"'),
    "tests/programs/namespaces.py": Elsewhere("tests/programs/run", '"$here/namespaces.py"'),
    "tests/programs/poll.py": Elsewhere("tests/programs/run", '"$here/poll.py"'),
    "tests/programs/replay.py": Elsewhere("tests/programs/run", '"$here/replay.py"'),
    "tests/refused/run --named": Elsewhere("test", "tests/refused/run --named"),
    "python3 tests/programs/poll.py": Elsewhere("tests/programs/run", 'python3 "$here/poll.py"'),
    "tests/prose/count --places FILE": Here("tests/prose/count --places docs/DECISIONS.md"),
    # (of a program that checks its accesses memory isn't measured, and the one that makes stores may not be built yet)
    "tests/hostile/run": Here(f"tests/hostile/run 0 --only answer {HOSTILE}", "^ok hostile:answer"),
    "tests/hostile/run 20000000 --seed 7": Here(f"tests/hostile/run 0 --seed 7 --only plans {HOSTILE}", "^ok hostile:plans .*of seed 7"),
    # (the words are taken, and there is no program that makes stores)
    "tests/hostile/run --only stores --all": Here("tests/hostile/run --only stores --all --stores none", "^FAILED hostile: .*/none isn't there", 1),
    "tests/hostile/run --program out/checked/dnp --unbounded": Here(
        f"tests/hostile/run 0 --only answer --program {scale.DNP} --unbounded --stores /bin/true", "^ok hostile:answer"),
    # (it takes a build)
    "tests/hostile/nodes": Here("tests/hostile/nodes none", "^tests/hostile/nodes: its only word is a number", 2),
    "tests/hostile/nodes 10000000": Here("tests/hostile/nodes 10000000 none", "^tests/hostile/nodes: its only word is a number", 2),
    "tests/hostile/can_fail": Elsewhere("test", "tests/hostile/can_fail &&"),
    "tests/memory/can_fail": Elsewhere("test", "tests/memory/can_fail &&"),
    "tests/memory/run": Elsewhere("test", "&& tests/memory/run;"),
    "tests/programs/chaos.py": Elsewhere("tests/programs/run", '"$here/chaos.py" "$seconds" "$seed"'),
    "tests/programs/chaos.py 600 8": Elsewhere("tests/programs/run", '"$here/chaos.py" "$seconds" "$seed"'),
    "tests/programs/chaos.py --network 600 8": Elsewhere("tests/programs/run", '"$here/chaos.py" --network "$seconds" 2'),
    "tests/programs/network_loop.py": Elsewhere("tests/programs/run", '"$here/network_loop.py"'),
    "tests/programs/standing_network.py --seconds 60 --strict bad": Elsewhere("tests/programs/run", '"$here/standing_network.py"'),
    "tests/programs/once.py 600": Elsewhere("tests/programs/run", '"$here/once.py" 15'),
    "tests/programs/connections.py 10000 100000000": Here("tests/programs/connections.py 20 2000", "^ok 2000-hostile-octets"),
    "python3 tests/programs/operates.py 10000000 2000": Here("python3 tests/programs/operates.py 640 20", "^ok operates-over-many-connections"),
    "tests/programs/replay.py 86400 60": Elsewhere("tests/programs/run", '"$here/replay.py" "$changes" 5'),
    # (a bug takes a build of the program: that there is none of this name is said at once)
    "tests/plants/run": Here("tests/plants/run none", "^tests/plants/run: there is no none.edit", 2),
    "tests/plants/run kept_link": Here("tests/plants/run kept none", "^tests/plants/run: there is no kept.edit", 2),
    "tests/plants/run --search kept_link": Here("tests/plants/run --search kept", "^tests/plants/run: there is no kept.edit", 2),
    "tests/headline/stores_fail": Elsewhere("test", "tests/headline/stores_fail &&"),
    # Mutants
    "tests/refused/run": Copy("tests/refused/run --emptied", "^2 passed, 0 failed$"),
    "tests/refused/run CRATE": Copy("tests/refused/run --emptied dnp_orders", "^2 passed, 0 failed$"),
    "tests/refused/run CRATE/NAME": Copy("tests/refused/run --emptied dnp_orders/open_closes", "^2 passed, 0 failed$"),
    "tests/refused/run --emptied --learn dnp_orders/open_closes": Copy(
        "tests/refused/run --emptied --learn dnp_orders/open_closes && tail -n 1 tests/refused/dnp_orders/open_closes.edit", "^goal: returns-in-open$"),
    # Costs
    "tests/takes": Here("tests/takes", "^== the whole gate: about [0-9]+ minutes"),
    "tests/cost COMMAND": Here("tests/cost true", "^all: 0 processor minutes"),
    "bench/crate check": Elsewhere("bench/compile", '"$here/crate" check '),
    "./bench/run": Elsewhere("tests/shell/gate.sh", "measures bench/run "),
    "./bench/run --libraries crates": Elsewhere("tests/shell/gate.sh", 'bench/run --libraries "$room/libraries"'),
    # (a benchmark is of the proved program alone: its words are taken, and it is refused where there is none)
    "bench/run": Elsewhere("tests/shell/gate.sh", "measures bench/run "),
    "bench/sim/run": Elsewhere("tests/shell/gate.sh", "measures bench/sim/run "),
    "bench/sim/run --program FILE": Elsewhere("tests/shell/gate.sh", 'bench/sim/run --program "$room/left"'),
    "bench/stores/run [FOLDER]": Elsewhere("tests/shell/gate.sh", "measures bench/stores/run "),
    "bench/stores/run --program FILE": Elsewhere("tests/shell/gate.sh", 'bench/stores/run --program "$room/left"'),
    "bench/sockets/run": Copy("bench/sockets/run --quick", "^bench/sockets/run: dnp is not built; ./build builds it$", status=3),
    "bench/loop/run": Copy("bench/loop/run --quick", "^bench/loop/run: dnp_bench_loop is not built; ", status=3),
    "bench/network/run [PART..]": Copy("bench/network/run --quick", "^bench/network/run: dnp is not built; ./build builds it$", status=3),
    # (stand-ins for proofs of nine crates and more)
    "bench/crate build dnp_bench": Copy("bench/crate build dnp_bench && ls bench/build", "^libdnp_bench.a$"),
    "bench/crate build dnp_bench_outstation": Copy("bench/crate build dnp_bench_outstation && ls bench/build", "^dnp_bench_outstation$"),
    "bench/crate build dnp_bench_loop": Copy("bench/crate build dnp_bench_loop && ls bench/build", "^dnp_bench_loop$"),
    "bench/crate over crates NAME": Copy("bench/crate build dnp_bench && rm bench/build/*.a && bench/crate over crates dnp_bench && ls bench/build",
                                         "^libdnp_bench.a$"),
    # (the machine has its former word again before anybody looks)
    "echo always > /sys/kernel/mm/transparent_hugepage/enabled": Here(
        f"""[ -w {PAGES} ] || {{ echo "left out: {PAGES} can't be written here"; exit; }}
        was=$(sed 's/.*\\[\\(.*\\)\\].*/\\1/' {PAGES}); (trap "echo $was > {PAGES}" EXIT; echo always > {PAGES}; cat {PAGES}) && grep -F "[$was]" {PAGES}""",
        r"^\[always\] "),
}


def blocks(text):
    """The blocks of code of a document, each with its language."""
    return re.findall(r"(?ms)^```(\w*)\n(.*?)^```", text)


def shown(text, has_blocks=True):
    """The commands that a document shows."""
    for language, block in blocks(text) if has_blocks else ():
        for line in [] if language else re.sub(r" +# .*", "", block).split("\n"):
            if BEGINS.match(line.removeprefix("$ ")):
                yield line.removeprefix("$ ")
    rest = re.sub(r"(?ms)^```.*?^```", "", text)
    for words in re.findall(r"`([^`]+)`", re.sub(r"\n *", " ", rest)):
        first = words.split()[0]
        # (a path of the repository is a command if the file is a program)
        if BEGINS.match(words) and words not in ("rattle", "python3") and ("/" not in first or (TOP / first).is_file() and os.access(TOP / first, os.X_OK)):
            yield words


def under(text, command):
    """What stands below a command in its block, a line each."""
    block = next((block for _, block in blocks(text) if f"$ {command}\n" in block), "")
    return block.partition(f"$ {command}\n")[2].split("\n")[:-1]


def apply(text, tree):
    """Applies the worked change to a tree: each block of a `diff`, whose old lines stand in their file once, and the mutant."""
    for language, block in blocks(text):
        if language == "diff":
            head, *lines = block.rstrip("\n").split("\n")
            path = tree / head.removeprefix("--- ")
            old, new = ("".join(f"{line[1:]}\n" for line in lines if line[0] in kinds) for kinds in (" -", " +"))
            source = path.read_text(encoding="utf-8")
            if source.count(old) != 1:
                raise ValueError(f"{head}: its old text stands {source.count(old)} times there")
            path.write_text(source.replace(old, new), encoding="utf-8")
        elif "new: " in block and "open" in block:
            (tree / MUTANT).write_text(block, encoding="utf-8")


def copy(text, tree, linked=True):
    """A copy of what the tools need, with the worked change. A crate that it doesn't touch is a link, if that is enough."""
    shutil.copytree(TOP / "tools", tree / "tools")
    for folder in ("tests/shell/kit", "tests/shell/stand_in", "tests/headline", "crates/dnp_orders/src", "crates/dnp_orders/specs",
                   "crates/dnp_orders/proofs", "crates/dnp/help", "share", "examples"):
        shutil.copytree(TOP / folder, tree / folder)
    (tree / "tests/programs").mkdir()
    (tree / MUTANT).parent.mkdir(parents=True)
    for folder in ("bench/crates", "tests/crates"):
        shutil.copytree(TOP / folder, tree / folder)
    for name in ("loop", "network", "sockets"):
        (tree / "bench" / name).mkdir()
        shutil.copy(TOP / "bench" / name / "run", tree / "bench" / name)
    for file in ("crates.txt", "HANDLES", "bench/crate", "tests/refused/run", "tests/refused/source.py", "tests/programs/poll.py"):
        shutil.copy(TOP / file, tree / file)
    if linked:
        (tree / "crates/dnp/src").symlink_to(TOP / "crates/dnp/src")
    for path in (TOP / "crates").iterdir():
        if not linked:
            shutil.copytree(path, tree / "crates" / path.name, ignore=shutil.ignore_patterns("out"), dirs_exist_ok=True)
        elif not (tree / "crates" / path.name).exists():
            (tree / "crates" / path.name).symlink_to(path)
    # (as the toolchain's own folder: programs, and libraries that nobody reads here)
    (tree / "kit/bin").mkdir(parents=True)
    for name in ("rt", "rattle"):
        shutil.copy(TOP / "tests/shell" / ("stand_in/rt" if name == "rt" else "kit/rattle"), tree / "kit/bin" / name)
    apply(text, tree)


def run(words, folder, kit=None):
    path = os.environ["PATH"] if kit is None else f"{kit}:{os.environ['PATH']}"
    # (one check at a time, and at a person's own machine: where CI is 'true', `rt ci` refuses names)
    env = {**os.environ, "PATH": path, "RT_JOBS": "1", "RATTLE": str(Path(shutil.which("rt") or "/").resolve().parent / "rattle")}
    env.pop("CI", None)
    ran = subprocess.run(["bash", "-c", words], cwd=folder, env=env, stdin=subprocess.DEVNULL, stdout=subprocess.PIPE, stderr=subprocess.STDOUT,
                         encoding="utf-8", errors="replace")
    return ran.returncode, ran.stdout


@functools.cache
def scratch(room):
    """A crate with one function and its proof, as the toolchain makes it, in a repository of its own."""
    shutil.copy(TOP / "HANDLES", room)
    # (some toolchains write build files of another kind, beside which crates.txt is refused)
    status, said = run("touch crates.txt && rt new crates/tally start_lib && echo tally: >crates.txt && rm -f BUILD.bazel crates/tally/BUILD.bazel", room)
    if status:
        raise SystemExit(said)
    return Path(room) / "crates/tally"


def lacks(how, folder):
    """What the toolchain's help lacks of a proof's word and options."""
    word, *flags = how.proves.split()
    _, general = run("rt --help", TOP)
    own = run("rt check --help", folder)[1] if word == "check" else general
    words = re.findall(r"[\w-]+", " ".join(re.findall(r"(?m)^ *(?:usage: )?rt ([\w|-]+)", general)))
    missing = [it for it in flags if not re.search(rf"(?<![\w-]){re.escape(it)}(?![\w-])", own)]
    return "" if word in words and not missing else f"the toolchain lacks {word if word not in words else missing}"


def tried(command, how, text):
    """What is wrong with a command, or nothing; or why it is left out."""
    if isinstance(how, Elsewhere):
        return "" if how.text in (TOP / how.file).read_text(encoding="utf-8") else f"{how.file} lacks {how.text!r}"
    if isinstance(how, Scratch):
        if scale.QUICK and how.proves:
            return lacks(how, scratch(ROOM.name))
        status, said = run(how.words, scratch(ROOM.name))
        # (the documents say which releases of the toolchain take names)
        if how.proves == "ci NAME.." and status == 2 and "usage: rt new" in said:
            return "left out: this toolchain's rt ci takes no names"
    elif isinstance(how, Here):
        status, said = run(how.words, TOP)
    else:
        with tempfile.TemporaryDirectory() as room:
            tree = Path(room) / "tree"
            copy(text, tree, linked="bench/crate " not in how.words)
            status, said = run(how.words, tree, tree / "kit/bin" if how.kit == "stand-in" else None)
    if said.startswith("left out: "):
        return said.rstrip()
    if status != how.status or not re.search(how.prints, said, re.M):
        return f"it ended with {status} and printed\n{said[-1500:]}"
    missing = [line for line in under(text, command) if line not in said.split("\n")]
    return f"it lacks the lines {missing} that the document shows" if missing else ""


def changes(text):
    """What is wrong with the worked change."""
    with tempfile.TemporaryDirectory() as room:
        tree = Path(room) / "tree"
        try:
            copy(text, tree)
        except ValueError as wrong:
            return str(wrong)
        table = (tree / "tests/programs/poll.py").read_text(encoding="utf-8")
        compile(table, "poll.py", "exec")
        changed = [path for path in ("crates/dnp_orders/specs/Actions.antt", "crates/dnp_orders/src/action.rt", "tests/programs/poll.py")
                   if (tree / path).read_bytes() == (TOP / path).read_bytes()]
        return f"{changed} aren't changed" if changed or not (tree / MUTANT).is_file() else ""


def case(name, wrong):
    if wrong.startswith("left out: "):
        print(f"left out: {name}, since {wrong.removeprefix('left out: ')}", flush=True)
    else:
        print(f"FAILED {name}: {wrong}" if wrong else f"ok {name}", flush=True)


def options(text):
    """Of the words of `dnp` in a document's sentences those that name an option which the help of their subcommand lacks."""
    for words in re.findall(r"`dnp ([a-z]+ [^`]+)`", re.sub(r"\n *", " ", text)):
        help_text = TOP / "crates/dnp/help" / words.split()[0]
        lacking = [it for it in re.findall(r"(?<!\S)--[a-z0-9-]+", words) if not help_text.is_file() or f" {it}" not in help_text.read_text(encoding="utf-8")]
        if lacking:
            yield f"{words}: {' '.join(lacking)}"


def main():
    texts = {name: (TOP / name).read_text(encoding="utf-8") for name in DOCUMENTS}
    found = {command: name for name in OTHERS for command in shown((TOP / name).read_text(encoding="utf-8"), has_blocks=False)}
    found |= {command: name for name, text in reversed(texts.items()) for command in shown(text)}
    change = texts["CONTRIBUTING.md"]
    case("every-command-is-known", ", ".join(f"{found[it]}: {it}" for it in found if it not in RUNS))
    case("every-known-command-is-shown", ", ".join(it for it in RUNS if it not in found))
    known = {name: list(options((TOP / name).read_text(encoding="utf-8"))) for name in (*DOCUMENTS, *OTHERS, "CHANGELOG.md")}
    case("options-are-those-of-the-help", ", ".join(f"{name}: {it}" for name, found_there in known.items() for it in found_there))
    wrong = changes(change)
    case("the-worked-change-applies", wrong)
    for command, how in RUNS.items():
        if not (wrong and isinstance(how, Copy)):
            case(f"runs:{command}", tried(command, how, change))


if __name__ == "__main__":
    sys.exit(main())
