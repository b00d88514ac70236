"""What the check says of each must-fail edit: `try_edits.py ROOT [CRATE ..]` makes the changes of each file crates/NAME/must-fail/FILE.edit in a copy of the crates,
runs `rt check` in the crate there, and writes what it says to ROOT/target/must-fail/NAME/FILE.log. `rt ci` and `rt must-fail` try the same edits and say one line of
each; where an edit is refused, and whether each of several is, only the whole of it says. A log whose first line has the sum of all that its check reads is not made
again. RT_JOBS checks run side by side, 1 where that is not set; each worker has a copy of its own, which it puts back after each file."""
import hashlib
import os
import pathlib
import queue
import shutil
import subprocess
import sys
import tempfile
import threading

root = pathlib.Path(sys.argv[1]).resolve()
lines = [line.split(":") for line in (root / "crates.txt").read_text(encoding="utf-8").splitlines() if line and not line.startswith("#")]
below = {name.split()[0]: uses.split() for name, uses in lines}
version = subprocess.run(["rt", "version"], stdout=subprocess.PIPE, text=True, check=True).stdout
waiting = queue.Queue()


def files_of(crate):
    """The files that a check of a crate reads, but the kit's."""
    return [file for name in [crate, *below[crate]] for part in ("src", "specs", "proofs") for file in sorted((root / "crates" / name / part).glob("**/*")) if file.is_file()]


def sum_of(edit, crate):
    made = hashlib.sha256(repr((version, below[crate], edit.read_bytes())).encode())
    for file in files_of(crate):
        made.update(repr((str(file.relative_to(root)), file.read_bytes())).encode())
    return made.hexdigest()


def changed(edit, folder):
    """The texts that an edit makes, by file, and a fault where it cannot be made."""
    texts, path, old = {}, "", ""
    for line in edit.read_text(encoding="utf-8").split("\n"):
        if line.startswith("file: "):
            path = folder / line[len("file: "):].strip()
        elif line.startswith("old: "):
            old = line[len("old: "):]
        elif line.startswith("new:"):
            text = texts.get(path) or path.read_text(encoding="utf-8")
            if text.count(old) != 1:
                return {}, f"an old text stands in {path.relative_to(folder)} {text.count(old)} times: {old}"
            texts[path] = text.replace(old, line[len("new:"):].removeprefix(" "))
    return texts, None


def work(room):
    (room / ".git").mkdir(parents=True)
    shutil.copy(root / "crates.txt", room / "crates.txt")
    for crate in below:
        for part in ("src", "specs", "proofs"):
            if (root / "crates" / crate / part).is_dir():
                shutil.copytree(root / "crates" / crate / part, room / "crates" / crate / part)
    while True:
        try:
            crate, edit, log, made = waiting.get_nowait()
        except queue.Empty:
            return
        folder = room / "crates" / crate
        texts, said = changed(edit, folder)
        if said:
            print(f"edits: {crate}/{edit.stem}: {said}", file=sys.stderr)
        else:
            were = {file: file.read_bytes() for file in texts}
            try:
                for file, text in texts.items():
                    file.write_text(text, encoding="utf-8")
                ran = subprocess.run(["rt", "check"], cwd=folder, stdin=subprocess.DEVNULL, stdout=subprocess.PIPE, stderr=subprocess.STDOUT, errors="replace")
                said = ran.stdout
                if ran.returncode not in (0, 1):  # killed, say: it judged nothing, and is made again
                    made = "of nothing"
            finally:
                for file, text in were.items():
                    file.write_bytes(text)
        log.parent.mkdir(parents=True, exist_ok=True)
        log.write_text(f"sum {made}\n{said}", encoding="utf-8")


for crate in sys.argv[2:] or below:
    for edit in sorted((root / "crates" / crate / "must-fail").glob("*.edit")):
        log, made = root / "target" / "must-fail" / crate / f"{edit.stem}.log", sum_of(edit, crate)
        if not log.exists() or not log.read_text(encoding="utf-8").startswith(f"sum {made}\n"):
            waiting.put((crate, edit, log, made))
with tempfile.TemporaryDirectory() as rooms:
    workers = [threading.Thread(target=work, args=(pathlib.Path(rooms) / str(number),)) for number in range(min(int(os.environ.get("RT_JOBS", "1")), waiting.qsize()))]
    for worker in workers:
        worker.start()
    for worker in workers:
        worker.join()
