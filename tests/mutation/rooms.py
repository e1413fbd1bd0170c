"""Copies of the crates in which changes are tried, and what becomes of a change."""
import os
import re
import shutil
import subprocess
import tempfile

from mutation import source as src

SECONDS = 600
CRATES = ("facts", "model", "laws")


class Room:
    """Two copies of facts, model and laws, with what the prover kept of them: one for model with its closed cases, one without these for the laws."""

    def __init__(self, folder):
        self.cases, self.laws = os.path.join(folder, "cases"), os.path.join(folder, "laws")
        for room in (self.cases, self.laws):
            os.makedirs(os.path.join(room, "crates"))
            write(os.path.join(room, "crates.txt"), "facts:\nmodel:\nlaws: facts model\n")
            for crate in CRATES:
                shutil.copytree(os.path.join(src.ROOT, "crates", crate), os.path.join(room, "crates", crate), ignore=shutil.ignore_patterns("out", "must-fail", "model-edits"))
        specs = os.path.join(self.laws, "crates", "model", "specs")
        lines = src.read(os.path.join(specs, "Lib.antt")).splitlines(keepends=True)
        write(os.path.join(specs, "Lib.antt"), "".join(line for line in lines if line.split()[-1] not in src.CASES))
        for name in src.CASES:
            os.remove(os.path.join(specs, name + ".antt"))

    def warm(self):
        """Proves the unchanged crates, and keeps what the prover has of them."""
        for room, crate in ((self.cases, "model"), (self.laws, "laws")):
            status, said = run(os.path.join(room, "crates", crate), ["rt", "check"], 1800)
            if status != 0:
                raise SystemExit(f"the unchanged {crate} is not proved:\n{said[-2000:]}")
            for name in CRATES:
                if os.path.exists(out(room, name)):
                    os.renames(out(room, name), os.path.join(room, "kept", name))

    def check(self, room, crate, change):
        """The change made in a copy, the crate checked over what was kept, and the file put back."""
        for name in os.listdir(os.path.join(room, "kept")):
            shutil.rmtree(out(room, name), ignore_errors=True)
            shutil.copytree(os.path.join(room, "kept", name), out(room, name))
        path = os.path.join(room, "crates", "model", "specs", change.d.file + ".antt")
        unchanged = src.read(path)
        write(path, change.text)
        try:
            return run(os.path.join(room, "crates", crate), ["rt", "check"], SECONDS)
        finally:
            write(path, unchanged)

    def tried(self, change):
        """What became of a change: 'no definition', 'case FILE', 'law FILE', 'time' or 'survives'."""
        status, said = self.check(self.cases, "model", change)
        if status:
            refused = errors(said)
            return f"case {refused[0]}" if refused and all(name in src.CASES for name in refused) else "no definition"
        if status == 0:
            status, said = self.check(self.laws, "laws", change)
        return "time" if status is None else f"law {(errors(said) or '?')[0]}" if status else "survives"


def out(room, crate):
    """What the prover keeps of a crate."""
    return os.path.join(room, "crates", crate, "out")


def write(path, text):
    with open(path, "w", encoding="utf-8") as f:
        f.write(text)


def run(folder, command, seconds):
    """A command's status and what it said; the status is None where its time was up."""
    with tempfile.TemporaryFile() as said:
        process = subprocess.Popen(["nice", "-n", "19"] + command, cwd=folder, stdout=said, stderr=subprocess.STDOUT, start_new_session=True)
        try:
            status = process.wait(timeout=seconds)
        except subprocess.TimeoutExpired:
            os.killpg(process.pid, 9)
            process.wait()
            status = None
        said.seek(0)
        return status, said.read().decode("utf-8", "replace")


def errors(said):
    """The files of the crate's definitions and theorems that have an error of their own, in the order of the report: what only uses a refused one is left out."""
    return [name for name, what in re.findall(r"^\./(?:specs|proofs)/([\w/]+)\.antt:\d+:\d+: error: (.*)", said, re.M) if "not checked" not in what]
