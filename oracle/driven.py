"""The program `drive` run on step files."""
import pathlib, subprocess

ROOT = pathlib.Path(__file__).resolve().parent.parent
DRIVE = ROOT / "target" / "bin" / "drive"
KEPT = ROOT / "target" / "differs.steps"


def printed(files):
    """What drive prints for each file of a batch."""
    data = b"".join(len(f).to_bytes(4, "big") + f for f in files)
    done = subprocess.run([DRIVE], input=data, stdout=subprocess.PIPE, timeout=600)
    answers, lines = [], []
    for line in done.stdout.decode("latin-1").splitlines(keepends=True):
        if line == ".\n":
            answers.append("".join(lines))
            lines = []
        else:
            lines.append(line)
    return answers + [f"no answer, exit status {done.returncode}"] * (len(files) - len(answers))
