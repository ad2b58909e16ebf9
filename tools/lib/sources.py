"""What tools/lemmas and tools/prove-one share: the crates of crates.txt, a copy of their sources, and the call of the checker."""
import os
import re
import shutil
import subprocess
import sys

TOP = os.path.dirname(os.path.dirname(os.path.dirname(os.path.realpath(__file__))))
FAULT = re.compile(r"^(?:\S+: )?error\b", re.M)


def kit():
    """The folder of the toolchain."""
    program = shutil.which("rattle") or sys.exit("there is no `rattle` on the path")
    return os.path.dirname(os.path.dirname(os.path.realpath(program)))


def stands_on():
    """Each crate of crates.txt, with what it stands on: crates, and libraries of the toolchain."""
    with open(f"{TOP}/crates.txt", encoding="utf-8") as file:
        rows = [line.split("#")[0].partition(":") for line in file if ":" in line.split("#")[0]]
    return {name.strip(): below.split() for name, _, below in rows}


def with_those_below(names, below):
    """The crates named and all below them, the lowest first."""
    found = []
    for name in names:
        if name in below and name not in found:
            found += [it for it in with_those_below(below[name], below) + [name] if it not in found]
    return found


def copy_sources(crates, folder):
    """Copies the sources of these crates to a folder, without what was built and without mutants."""
    for crate in crates:
        left_out = shutil.ignore_patterns("out", "must-fail", "attacks")
        shutil.copytree(f"{TOP}/crates/{crate}", f"{folder}/{crate}", ignore=left_out)


def check(name, root, crates, folder, only, jobs):
    """Checks what `only` names in the crate with this root file, over the sources of these crates. Answers whether it passed."""
    home, below = kit(), stands_on()
    libraries = sorted({it for crate in crates + [name] for it in below.get(crate, []) if it not in below})
    command = ["rattle", "check", "--crate-name", name, root, "-L", f"dependency={home}/rlibs"]
    for library in ["std"] + libraries:
        command += ["--extern", f"{library}={home}/rlibs/{library}.rlib"]
    for crate in crates:
        command += ["--lib", f"{crate}={folder}/{crate}/src/lib.rt"]
    command += ["--antt-project", f"{home}/rattle/logic/antt-project.json", "--logic-built", f"{home}/logic_built"]
    done = subprocess.run(command + ["--jobs", str(jobs), "--only", only], capture_output=True, text=True)
    said = (done.stdout + done.stderr).replace(folder + "/", "crates/")
    faults = len(FAULT.findall(said))
    passed = done.returncode == 0 and faults == 0
    print("\n".join(said.splitlines()[-2 if passed else -400:]))
    print("passed" if passed else f"failed, with {max(faults, 1)} faults told above")
    return passed
