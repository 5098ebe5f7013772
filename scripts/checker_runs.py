"""Runs of the checker over texts, for scripts/differential and scripts/cuts: from files, and with the proof from standard input in pieces of so
many bytes. `PBCHECK=PROGRAM` names another program than bin/pbcheck. Wants a C compiler, for scripts/devices.c."""
import os, subprocess, tempfile

HERE = os.path.dirname(os.path.abspath(__file__))
PROGRAM = os.environ.get("PBCHECK", os.path.join(HERE, "..", "bin", "pbcheck"))
PIECES = (1, 2, 7, 4096)
STATUSES = {"accepted": 0, "refused": 1, "bad": 2}
# Where files are soon written, if there is such a place.
MEMORY = "/dev/shm"


class Runs:
    """A folder with the two files of a run."""

    def __enter__(self):
        self.folder = tempfile.TemporaryDirectory(dir=MEMORY if os.path.isdir(MEMORY) else None)
        self.problem, self.proof = (os.path.join(self.folder.name, name) for name in ("problem", "proof"))
        short = os.path.join(self.folder.name, "short.so")
        compiler = os.environ.get("CC", "cc")
        subprocess.run([compiler, "-O1", "-shared", "-fPIC", "-o", short, os.path.join(HERE, "devices.c"), "-ldl"], check=True)
        self.surroundings = {**os.environ, "LD_PRELOAD": short}
        return self

    def __exit__(self, *_):
        self.folder.cleanup()

    def write(self, problem, proof):
        """Writes both texts, each character as one byte."""
        for path, text in ((self.problem, problem), (self.proof, proof)):
            with open(path, "wb") as file:
                file.write(text.encode("latin-1"))

    def whole(self):
        """What is printed, and the status, where both texts are files."""
        run = subprocess.run([PROGRAM, self.problem, self.proof], capture_output=True)
        return run.stdout.decode("latin-1"), run.returncode

    def in_pieces(self, most):
        """The same where the proof comes from standard input, so many bytes at a time."""
        with open(self.proof, "rb") as lines:
            run = subprocess.run([PROGRAM, self.problem, "-"], stdin=lines, capture_output=True, env={**self.surroundings, "MOST_READ": str(most)})
        return run.stdout.decode("latin-1"), run.returncode

    def differences(self, problem, proof, wanted, pieces):
        """What was printed otherwise than wanted, or ended with another status: from files, and in pieces of each of these sizes."""
        self.write(problem, proof)
        answers = [("from files", self.whole()), *((f"in pieces of {most}", self.in_pieces(most)) for most in pieces)]
        right = wanted, STATUSES[wanted.split()[0]]
        return [f"{how} {printed!r} with status {status}" for how, (printed, status) in answers if (printed, status) != right]
