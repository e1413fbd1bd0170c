"""Where the library is, and how it is made at first use: proved by `rt`, then linked as a shared object."""
from __future__ import annotations

import fcntl
import os
import shutil
import subprocess
from pathlib import Path
from typing import Dict, Iterator, List, Optional

from .progress import BuildProgress, tell

LIBRARY = "struo_formal"
EXPORTS = f"{LIBRARY}_c"
MAKER = "tools/staticlib"
FILE = f"lib{LIBRARY}.so"
FOLDERS = ("src", "specs", "proofs")


class LibraryMissing(Exception):
    """There is no library, and none can be made; the text says what to do."""


def repository() -> Optional[Path]:
    """The repository that this package stands in, if it does."""
    root = Path(__file__).resolve().parents[2]
    return root if (root / "crates" / EXPORTS / "src").is_dir() and (root / "crates.txt").is_file() else None


def built_library() -> Path:
    """The shared object: named by STRUO_LIBRARY; else of the repository, made first where it is missing or older than its sources; else beside this file."""
    named = os.environ.get("STRUO_LIBRARY")
    if named:
        if not Path(named).is_file():
            raise LibraryMissing(f"STRUO_LIBRARY names {named}, which is no file")
        return Path(named)
    root = repository()
    if root is not None:
        return Build(root).shared()
    beside = Path(__file__).with_name(FILE)
    if not beside.is_file():
        raise LibraryMissing(f"there is no library: `./struo version` in the repository makes target/struo/{FILE}; "
                             f"set STRUO_LIBRARY to that file, or copy it to {beside.parent}")
    return beside


class Build:
    """The library of a repository in the making; everything that it writes stands under target/."""

    def __init__(self, root: Path):
        self.root = root
        self.folder = root / "target" / "struo"
        self.object = self.folder / FILE
        self.archive = root / "target" / "staticlib" / f"lib{LIBRARY}.a"
        self.log = self.folder / "build.log"

    def shared(self) -> Path:
        """The shared object, newer than its sources."""
        try:
            if not self.linked():
                self.folder.mkdir(parents=True, exist_ok=True)
                with open(self.folder / "lock", "w") as lock:
                    self.wait(lock)
                    self.make()
        except OSError as error:
            raise LibraryMissing(f"the library cannot be built: {error}") from error
        return self.object

    def wait(self, lock) -> None:
        """Waits until no other run builds."""
        try:
            fcntl.flock(lock, fcntl.LOCK_EX | fcntl.LOCK_NB)
        except BlockingIOError:
            tell("struo: another run is building the checker's library, and this one waits for it")
            fcntl.flock(lock, fcntl.LOCK_EX)

    def make(self) -> None:
        """Proves and links what is not there; another run may have made it meanwhile."""
        if not self.fresh(self.archive):
            self.prove()
        if not self.linked():
            self.link()

    def crates(self) -> List[str]:
        """The crates of the repository that the library needs, its exports last."""
        needs = self.needs()
        found: List[str] = []

        def visit(name: str) -> None:
            """A crate after those that it depends on."""
            for other in needs.get(name, []):
                if other in needs and other not in found:
                    visit(other)
            if name not in found:
                found.append(name)

        visit(EXPORTS)
        return found

    def needs(self) -> Dict[str, List[str]]:
        """What each crate of crates.txt depends on."""
        lines = (line.split("#")[0] for line in (self.root / "crates.txt").read_text().splitlines())
        pairs = (line.split(":", 1) for line in lines if ":" in line)
        return {words.split()[0]: others.split() for words, others in pairs}

    def sources(self) -> Iterator[Path]:
        """The files from which the library is made."""
        yield self.root / "crates.txt"
        for crate in self.crates():
            for folder in FOLDERS:
                yield from (path for path in (self.root / "crates" / crate / folder).rglob("*") if path.is_file())

    def fresh(self, made: Path) -> bool:
        """Whether a file is there and newer than every source."""
        try:
            time = made.stat().st_mtime_ns
        except OSError:
            return False
        return all(path.stat().st_mtime_ns <= time for path in self.sources())

    def linked(self) -> bool:
        """Whether the shared object is newer than its sources, and than the archive where that is there."""
        return self.fresh(self.object) and not (self.archive.exists() and self.archive.stat().st_mtime_ns > self.object.stat().st_mtime_ns)

    def prove(self) -> None:
        """Proves the library and what it depends on, as many crates at a time as there are processors, and builds the archive."""
        if shutil.which("rt") is None:
            raise LibraryMissing("the library has to be proved first, and `rt`, the command of the Rattle toolchain, is not on the path")
        crates = self.crates()
        tell(f"struo: the checker's library is proved and built first, once: {len(crates)} crates, about 8 minutes on two processors.")
        tell(f"struo: what the prover says goes to {self.log.relative_to(self.root)}")
        with open(self.log, "wb") as log, BuildProgress(crates) as progress:
            self.run([MAKER, LIBRARY], log, progress)
        tell(f"struo: proved and built in {progress.time}.")

    def run(self, words: List[str], log, progress: BuildProgress) -> None:
        """One command, run at the root, its lines kept and counted."""
        with subprocess.Popen(words, cwd=self.root, stdin=subprocess.DEVNULL, stdout=subprocess.PIPE, stderr=subprocess.STDOUT) as child:
            assert child.stdout is not None
            for line in child.stdout:
                log.write(line)
                log.flush()
                progress.line(line.decode("utf-8", "replace"))
        if child.returncode != 0:
            raise LibraryMissing(f"the library is not built: `{' '.join(words)}` ended with status {child.returncode}; what it said is in {self.log}")

    def link(self) -> None:
        """Links the archive whole as a shared object, put in place by a rename so that no run loads half of it."""
        made = self.object.with_suffix(f".{os.getpid()}")
        said = "there is none"
        for words in linkers(self.archive, made):
            ended = subprocess.run(words, cwd=self.root, stdin=subprocess.DEVNULL, stdout=subprocess.PIPE, stderr=subprocess.STDOUT)
            if ended.returncode == 0:
                os.replace(made, self.object)
                return
            said = f"{words[0]} ended with status {ended.returncode}: {ended.stdout.decode('utf-8', 'replace').strip()}"
        raise LibraryMissing(f"no linker could make {self.object.relative_to(self.root)}: {said}")


def linkers(archive: Path, made: Path) -> Iterator[List[str]]:
    """The commands that can link an archive as a shared object: a C compiler, or else the toolchain's own linker."""
    for name in ("cc", "gcc", "clang"):
        compiler = shutil.which(name)
        if compiler:
            yield [compiler, "-shared", "-o", str(made), "-Wl,--whole-archive", str(archive), "-Wl,--no-whole-archive"]
    for linker in plain_linkers():
        yield [linker, "-shared", "-o", str(made), "--whole-archive", str(archive), "--no-whole-archive"]


def plain_linkers() -> Iterator[str]:
    """The toolchain's linker, then one on the path."""
    rt = shutil.which("rt")
    home = os.environ.get("RATTLE_HOME") or (rt and str(Path(rt).resolve().parents[1]))
    if home:
        own = Path(home) / "toolchain" / "bin" / "ld.lld"
        if own.is_file():
            yield str(own)
    for name in ("ld.lld", "ld"):
        found = shutil.which(name)
        if found:
            yield found
