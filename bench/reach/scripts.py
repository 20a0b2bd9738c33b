"""Applies scripts of 0.4 and 4 MB to the shipped problem and prints the processor time a line of
each, which shows whether the work is linear in the lines. Then it undoes a script of 2,805 edits
that puts in and takes out units, exclusions and a material, and compares the result with the
problem before it, byte by byte. The status is 1 if they differ. Nothing here is part of the gate.

    bench/reach/run scripts
"""
import os
import subprocess
import tempfile

from shared import PROGRAM, TOP, is_there, written

FRONT = "file_type=PNS_edits_v1\n"
FORMS = ["price A %d\n", "fix U1 %d\n", "bounds P 20 %d\n", "capacity U3 0 %d\n"]
ROUNDS = 5


def long_script(size):
    lines, length = [FRONT], len(FRONT)
    while length < size:
        count = len(lines) - 1
        lines.append(FORMS[count % 4] % (100 + count % 900))
        length += len(lines[-1])
    return "".join(lines)


def moves():
    """A script whose edits put in and take out."""
    lines = []
    for i in range(700):
        lines += [f"add_unit {i % 3} V{i} 0 5 1 1 : A => 2 C", f"exclude 0 X{i} V{i} U1"]
        lines += [f"unexclude X{i}", f"remove_unit V{i}"]
    lines += ["add_unit 0 V0 0 5 1 1 : A => 2 C", "exclude 0 X0 V0 U2", "remove_unit U5"]
    lines += ["add_material 0 N raw_material 3 0 5", "rename_unit U1 W1"]
    return FRONT + "\n".join(lines) + "\n"


def user_time(words):
    """The seconds of a call in user mode."""
    with open(os.devnull, "wb") as nothing:
        process = subprocess.Popen(words, stdout=nothing)
        _, status, usage = os.wait4(process.pid, 0)
        process.returncode = os.waitstatus_to_exitcode(status)
    assert process.returncode == 0, words
    return usage.ru_utime


def main():
    if not is_there("scripts", PROGRAM):
        return 0
    shipped = os.path.join(TOP, "crates/pns/data/a.pns")

    def text(*words):
        run = subprocess.run([PROGRAM, *words], capture_output=True, text=True, check=True)
        return run.stdout

    with tempfile.TemporaryDirectory() as work:

        def file(name, content):
            return written(os.path.join(work, name), content)

        for size in (410000, 4190000):
            script = long_script(size)
            words, lines = [PROGRAM, "edit", shipped, file("long", script)], script.count("\n")
            best = min(user_time(words) for _ in range(ROUNDS))
            print(
                f"scripts: {lines} lines in {best:.3f} s, "
                f"{best / lines * 1e6:.2f} microseconds a line"
            )
        script = file("moves", moves())
        moved, back = text("edit", shipped, script), text("undo", shipped, script)
        restored = text("edit", file("moved.pns", moved), file("back", back))
        if restored != text("edit", shipped, file("none", FRONT)):
            print("scripts: the edits are not undone exactly")
            return 1
        print(f"scripts: {len(moves().splitlines()) - 1} edits undone exactly")
    return 0
