"""What every script of cases does: draw numbers from a seed, and keep the files that it makes."""
import sys
from pathlib import Path

CRATES = Path(__file__).resolve().parent.parent / "crates"


class Chance:
    """Numbers from a seed, the same under every Python."""

    def __init__(self, seed):
        self.state = seed

    def below(self, count):
        self.state = (self.state * 6364136223846793005 + 1442695040888963407) % (1 << 64)
        return (self.state >> 33) % count

    def one(self, *choices):
        return choices[self.below(len(choices))]

    def bits(self, most):
        """A number of any size up to so many bits."""
        return sum(self.below(2) << i for i in range(self.below(most + 1)))

    def bytes(self, count):
        return bytes(self.below(256) for _ in range(count))


def keep(script, files, said):
    """Writes a script's files, given by their names, into the crate of its name, and says so.

    With --check it writes nothing, and says which of the files are not as the script makes them.
    """
    script = Path(script)
    made = {CRATES / script.stem / name: content for name, content in files.items()}
    if sys.argv[1:] == ["--check"]:
        stale = [path.name for path, content in made.items() if not path.exists() or path.read_bytes() != content]
        sys.exit(f"not as {script.name} makes them: {', '.join(stale)}" if stale else 0)
    for path, content in made.items():
        path.parent.mkdir(parents=True, exist_ok=True)
        path.write_bytes(content)
    print(said)
