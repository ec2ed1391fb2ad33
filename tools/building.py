"""Builds crates of the repository with the kit's prover, each after those below it."""

import fcntl
import os
import shutil
import signal
import subprocess
import sys
from collections.abc import Callable, Iterator
from contextlib import contextmanager
from dataclasses import dataclass
from pathlib import Path
from types import FrameType

from sources import PROVED, ROOT, BuildError, Closure, Crate, origin, set_time, stamp_file
from toolchains import tools_that_keep

# The folder of logs and unfinished files, and the folder of built crates. A built library has its statements without
# their proofs: the crates above it load nothing else.
STAGE = ROOT / "build/unfinished"
BUILT = ROOT / "build/crates"

# The build of a crate takes time for its code, and for loading the crates below it. A byte of code costs as much as so
# many bytes of the crates below.
WEIGHT_OF_CODE = 30
KILOBYTES_FOR_A_CRATE = 4_000_000
ENDING_SIGNALS = (signal.SIGHUP, signal.SIGINT, signal.SIGTERM)


@dataclass(frozen=True)
class Kit:
    folder: Path
    version: str

    @staticmethod
    def find() -> "Kit":
        return Kit(Path(printed("rt", "doc")).parent, printed("rt", "version"))


def printed(*command: str) -> str:
    """Returns what a command prints, without the last line feed."""
    try:
        return subprocess.run(command, stdout=subprocess.PIPE, check=True, text=True).stdout.rstrip("\n")
    except OSError as error:
        hint = "; put the folder of the kit's rt on the path" if command[0] == "rt" else ""
        raise BuildError(f"can't run {command[0]}: {error.strerror}{hint}") from error
    except subprocess.CalledProcessError as error:
        raise BuildError(f"{' '.join(command)} ended with status {error.returncode}") from error


@dataclass(frozen=True)
class Target:
    """A processor to build for: the prover's name for it, the prefix of the names of its tools, and its folder below
    build/. All three are empty for this machine's processor."""

    name: str | None
    prefix: str
    folder: str

    def tool(self, name: str) -> str:
        return "cc" if name == "gcc" and not self.prefix else self.prefix + name

    def compiled(self, *names: str) -> list[Path]:
        """Compiles C files of packaging/aarch64. The kit has their functions for x86-64 alone."""
        objects = []
        for name in names:
            objects.append(STAGE / f"{name}.o")
            run(self.tool("gcc"), "-O2", "-fPIC", "-c", "-o", objects[-1], ROOT / f"packaging/aarch64/{name}.c")
        return objects


TARGETS = {
    "x86_64": Target(None, "", ""),
    "aarch64": Target("aarch64-unknown-linux-gnu", "aarch64-linux-gnu-", "aarch64/"),
}


def run(*words: str | Path) -> None:
    """Runs a command, and raises BuildError where it fails."""
    status = subprocess.run(words, check=False).returncode
    if status != 0:
        raise BuildError(f"{words[0]} ended with status {status}")


def need(*tools: str) -> None:
    for tool in tools:
        if not shutil.which(tool):
            setup = "aarch64" if "aarch64" in tool else "wasm" if tool.startswith("wasm") else None
            remedy = f"tools/setup {setup}" if setup else "apt-get install binutils gcc"
            raise BuildError(f"{tool} isn't on the path: {remedy} installs it")


@contextmanager
def locked(script: str, folder: Path = BUILT) -> Iterator[None]:
    """One build in a folder at a time: waits for another one."""
    folder.mkdir(parents=True, exist_ok=True)
    lock = os.open(folder, os.O_RDONLY)
    try:
        try:
            fcntl.flock(lock, fcntl.LOCK_EX | fcntl.LOCK_NB)
        except BlockingIOError:
            print(f"{script}: waiting for another build", file=sys.stderr, flush=True)
            fcntl.flock(lock, fcntl.LOCK_EX)
        yield
    finally:
        os.close(lock)


def end_at_signals() -> None:
    """Lets a signal end the script as `sys.exit` does, so that what is to be done at its end is done."""

    def end(number: int, _: FrameType | None) -> None:
        sys.exit(128 + number)

    for number in ENDING_SIGNALS:
        if signal.getsignal(number) != signal.SIG_IGN:
            signal.signal(number, end)


def let_signals_through() -> None:
    signal.pthread_sigmask(signal.SIG_UNBLOCK, ENDING_SIGNALS)


@contextmanager
def signals_held() -> Iterator[None]:
    """Holds signals back until the end of the block. A process that is started in it needs `let_signals_through`."""
    try:
        signal.pthread_sigmask(signal.SIG_BLOCK, ENDING_SIGNALS)
        yield
    finally:
        let_signals_through()


@contextmanager
def staged() -> Iterator[None]:
    """A folder for what isn't finished. It is removed at the end, also where a signal ends the script."""
    end_at_signals()
    shutil.rmtree(STAGE, ignore_errors=True)
    STAGE.mkdir(parents=True)
    start = STAGE / "start"
    start.touch()
    # What is built gets the time at which the build began, or that of the file that BEGUN names.
    if os.environ.get("BEGUN"):
        set_time(start, Path(os.environ["BEGUN"]))
    try:
        yield
    finally:
        shutil.rmtree(STAGE, ignore_errors=True)


def keep(made: Path, name: str, closure: Closure) -> None:
    """Puts a built file into build/, with the time at which the build began, and a stamp beside it."""
    (ROOT / "build" / name).parent.mkdir(exist_ok=True)
    (STAGE / "sources").write_bytes(closure.listing())
    shutil.copy(made, STAGE / "made")
    set_time(STAGE / "made", STAGE / "start")
    os.replace(STAGE / "sources", ROOT / f"build/{name}.sources")
    os.replace(STAGE / "made", ROOT / f"build/{name}")
    stamp_file(ROOT / "build" / name, PROVED, closure.checksum())


def make_current(
    script: str, closure: Closure, names: list[str], tools: list[str], make: Callable[[Kit], list[Path]]
) -> bool:
    """Makes files of build/ where one is missing or older than the sources of a closure. Returns whether it did. `make`
    returns the files, in the order of the names."""

    def is_current() -> bool:
        return all(closure.is_current(name) and origin(ROOT / "build" / name, sources) == PROVED for name in names)

    sources = closure.checksum()
    if is_current():
        return False
    need(*tools)
    kit = Kit.find()
    with locked(script):
        # Another run may have made them meanwhile.
        if is_current():
            return False
        with staged():
            for name, file in zip(names, make(kit)):
                keep(file, name, closure)
    return True


def inputs(kit: Kit, closure: Closure, crate: Crate, built: Path = BUILT) -> list[str]:
    """The arguments of each command of the prover on a crate: its root, and the libraries below it."""
    words = ["--crate-name", crate.name, "--links", f"{crate.name}="]
    words += ["--antt-project", f"{kit.folder}/rattle/logic/antt-project.json"]
    words += ["--logic-built", f"{kit.folder}/logic_built", "--extern", f"std={kit.folder}/rlibs/std.rlib"]
    words += ["-L", f"dependency={kit.folder}/rlibs", "-L", f"dependency={built}"]
    for library in crate.libraries:
        folder = built if closure.is_own(library) else kit.folder / "rlibs"
        words += ["--extern", f"{library}={folder}/{library}.rlib"]
    if crate.is_static_library:
        words += ["--crate-type", "staticlib"]
    return [*words, "src/main.rt" if crate.is_program else "src/lib.rt"]


def prover(
    kit: Kit, closure: Closure, crate: Crate, jobs: int, built: Path = BUILT, target: str | None = None
) -> list[str]:
    """The command that builds a crate, in its folder. `target` is that of a program or a static library. Of a static
    library for this machine's processor the LLVM module is kept too, at `module_of`."""
    words = [str(kit.folder / "bin/rattle"), "build", *inputs(kit, closure, crate, built), "--jobs", str(jobs)]
    if not crate.is_program and not crate.is_static_library:
        return [*words, "--statements", "-o", f"{built}/{crate.name}.rlib"]
    words += ["--target", target] if target else []
    tools = kit.folder / "toolchain"
    if crate.is_static_library and not target:
        tools = tools_that_keep(kit.folder, STAGE / "tools", module_of(crate, built))
    words += ["--toolchain", str(tools), "--backend", "llvm"]
    return [*words, "-o", str(output_of(crate, target, built))]


def output_of(crate: Crate, target: str | None, built: Path = BUILT) -> Path:
    """The object file of a program, or the archive of a static library, for this machine's processor or a target."""
    before, after = ("", ".o") if crate.is_program else ("lib", ".a")
    return built / f"{before}{crate.name}{f'.{target}' if target else ''}{after}"


def module_of(crate: Crate, built: Path = BUILT) -> Path:
    """The LLVM module of a static library, from which its object file was made."""
    return built / f"lib{crate.name}.bc"


class Build:
    """Builds the crates of a closure that aren't built yet: all, or the named ones. `target` is that of a program or a
    static library; other libraries are built to the same files for each target."""

    def __init__(
        self, closure: Closure, kit: Kit, script: str, names: set[str] | None = None, target: str | None = None
    ) -> None:
        self._closure = closure
        self._target = target
        self._kit = kit
        self._script = script
        self._crates = [crate for crate in by_work_left(closure) if names is None or crate.name in names]
        self._checksums = {crate.name: crate.checksum() for crate in self._crates}
        self._state: dict[str, str] = {}
        self._running: dict[int, tuple[Crate, subprocess.Popen[bytes], int]] = {}
        self._idle = int(printed("nproc"))
        self._limit = crates_at_once(self._idle)

    def run(self) -> None:
        """Builds the crates. Where a build fails, prints its output and raises BuildError."""
        try:
            while len(self._state) < len(self._crates) or self._running:
                self._start_crates()
                if self._running or len(self._state) < len(self._crates):
                    self._end_crate()
        finally:
            self._end_all()

    def _start_crates(self) -> None:
        """Starts the crates that are ready. A crate is nicer than those with more left to build. It has two jobs only
        where a processor is left that no other ready crate needs: two jobs take more processor time than one."""
        self._find_built()
        waiting = sum(self._is_waiting(crate) for crate in self._crates)
        ahead = 0
        for crate in self._crates:
            if self._state.get(crate.name) == "running":
                ahead += 1
            elif len(self._running) < self._limit and self._is_waiting(crate):
                waiting -= 1
                self._start(crate, niceness=5 * ahead, jobs=2 if self._idle - waiting > 1 else 1)
                ahead += 1

    def _find_built(self) -> None:
        """Marks the libraries that an earlier build has built."""
        for crate in self._crates:
            if self._is_waiting(crate) and self._is_built(crate):
                self._state[crate.name] = "built"

    def _is_waiting(self, crate: Crate) -> bool:
        lower = self._closure.below(crate)
        return crate.name not in self._state and all(self._state.get(other.name) == "built" for other in lower)

    def _is_built(self, crate: Crate) -> bool:
        stamp = stamp_of(crate)
        return (BUILT / f"{crate.name}.rlib").is_dir() and stamp.exists() and stamp.read_text() == self._stamp(crate)

    def _stamp(self, crate: Crate) -> str:
        """What a library is built from: the kit, and each crate with its line of crates.txt."""
        lines = [f"{each.line} {self._checksums[each.name]}" for each in [*self._closure.below(crate), crate]]
        return "".join(f"{line}\n" for line in [self._kit.version, *lines])

    def _start(self, crate: Crate, niceness: int, jobs: int) -> None:
        self._state[crate.name] = "running"
        step = f"crate {len(self._state)} of {len(self._crates)}, {crate.name}"
        print(f"{self._script}: building {step}", file=sys.stderr, flush=True)
        stamp_of(crate).unlink(missing_ok=True)
        command = ["nice", "-n", str(niceness), *prover(self._kit, self._closure, crate, jobs, target=self._target)]
        # A signal between the two steps would leave a process that `_end_all` doesn't know.
        with open(log_of(crate), "wb") as log, signals_held():
            process = subprocess.Popen(
                command,
                cwd=crate.folder,
                stdin=subprocess.DEVNULL,
                stdout=log,
                stderr=log,
                preexec_fn=let_signals_through,
            )
            self._running[process.pid] = (crate, process, jobs)
        self._idle -= jobs

    def _end_crate(self) -> None:
        """Waits for a crate. Its stamp is written only where its sources, and those below, didn't change meanwhile."""
        if not self._running:
            left = sorted(crate.name for crate in self._crates if crate.name not in self._state)
            raise BuildError(f"crates.txt has crates that need one another, among {', '.join(left)}")
        ended = os.waitid(os.P_ALL, 0, os.WEXITED | os.WNOWAIT)
        assert ended is not None
        crate, process, jobs = self._running.pop(ended.si_pid)
        status = process.wait()
        self._idle += jobs
        if status != 0:
            sys.stderr.write(log_of(crate).read_text(errors="backslashreplace"))
            # A signal as a shell returns it.
            status = status if status > 0 else 128 - status
            raise BuildError(f"crate {crate.name} isn't built: the prover ended with status {status}")
        self._state[crate.name] = "built"
        lower = self._closure.below(crate)
        if crate.checksum() == self._checksums[crate.name] and all(stamp_of(other).exists() for other in lower):
            written = STAGE / f"{crate.name}.stamp"
            written.write_text(self._stamp(crate))
            os.replace(written, stamp_of(crate))

    def not_built(self) -> list[Crate]:
        """The crates that aren't built, or whose sources have changed since."""
        return [crate for crate in self._crates if not self._is_built(crate)]

    def _end_all(self) -> None:
        for _, process, _ in self._running.values():
            process.terminate()
        for _, process, _ in self._running.values():
            process.wait()
        self._running.clear()


def build_lower(closures: list[Closure], kit: Kit, script: str) -> None:
    """Builds the libraries below the crates of closures that are missing or have changed."""
    with locked(script), staged():
        for closure in closures:
            Build(closure, kit, script, {lower.name for lower in closure.below(closure.crate)}).run()


def link_lower(closures: list[Closure], copy: Path, folder: Path) -> None:
    """Links the libraries below the crates of closures into a folder, as rt ci has built them in a copy of the
    repository."""
    for name in {lower.name for closure in closures for lower in closure.below(closure.crate)}:
        library = copy.resolve() / f"crates/{name}/out/rlib/{name}.rlib"
        if not library.is_dir():
            raise BuildError(f"{library}: rt ci has built no such library")
        if not (folder / library.name).is_symlink():
            (folder / library.name).symlink_to(library)


def stamp_of(crate: Crate) -> Path:
    return BUILT / f"{crate.name}.stamp"


def log_of(crate: Crate) -> Path:
    return STAGE / f"{crate.name}.log"


def crates_at_once(processors: int) -> int:
    """At most a crate for each processor, and for each four gigabytes of memory."""
    with open("/proc/meminfo") as file:
        [kilobytes] = [int(line.split()[1]) for line in file if line.startswith("MemTotal")]
    return max(1, min(processors, kilobytes // KILOBYTES_FOR_A_CRATE))


def by_work_left(closure: Closure) -> list[Crate]:
    """The crates, in descending order of the work that is left from each to the end of the build."""
    left: dict[str, int] = {}
    for crate in reversed(closure.crates):
        if not crate.folder.is_dir():
            raise BuildError(f"crates.txt names {crate.name}, and there is no folder crates/{crate.name}")
        below = closure.below(crate)
        work = left.get(crate.name, 0) + WEIGHT_OF_CODE * crate.size("src")
        left[crate.name] = work + sum(lower.size() for lower in below)
        for lower in below:
            left[lower.name] = max(left.get(lower.name, 0), left[crate.name])
    return sorted(closure.crates, key=lambda crate: (-left[crate.name], crate.name))


def print_help() -> bool:
    """Prints the docstring of the script, where its first word is -h or --help. Returns whether it did."""
    if sys.argv[1:2] not in (["-h"], ["--help"]):
        return False
    print((sys.modules["__main__"].__doc__ or "").rstrip())
    return True


def run_script(script: str, main: Callable[[], int]) -> int:
    """Returns the exit status of a script. Prints its help, where its first word is -h or --help, or an error as one
    line on the error output."""
    if print_help():
        return 0
    try:
        return main()
    except (BuildError, OSError) as error:
        print(f"{script}: {error}", file=sys.stderr)
        return 1
