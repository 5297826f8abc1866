#!/usr/bin/env python3
"""What is made over the libraries that `rt ci` proved, with rt's own code, so that none of them is proved again.

usage: python3 tools/proved.py archive               each static library, crates/NAME/out/libNAME.a, as `rt lib` in its folder writes it
       python3 tools/proved.py logs FOLDER FILE..    checks each crate with its edit crates/CRATE/must-fail/NAME.edit applied, and writes what
                                                     the prover says to FOLDER/CRATE/NAME.log

At the top of the repository. The libraries come from where `rt ci` keeps what it proved on this machine, in a copy of the crates. Where one of them is
not there, the checkout's own serve, as under `rt lib` and `rt must-fail`, and those that are not built yet are built there first.
"""

import importlib.machinery
import importlib.util
import os
import shutil
import signal
import subprocess
import sys
import tempfile

sys.dont_write_bytecode = True


def load():
    """rt itself, as a module."""
    page = subprocess.run(["rt", "doc"], check=True, stdout=subprocess.PIPE, text=True).stdout.strip()
    loader = importlib.machinery.SourceFileLoader("rt", f"{os.path.dirname(page)}/bin/rt")
    spec = importlib.util.spec_from_loader("rt", loader)
    made = importlib.util.module_from_spec(spec)
    loader.exec_module(made)
    return made


def in_copy(rt, root, room, is_wanted):
    """The wanted crates in a copy of the repository, over the libraries that `rt ci` kept, or None where one is not kept."""
    rt.copy_crates(root, f"{room}/repository")
    os.mkdir(f"{room}/repository/.git")
    os.chdir(f"{room}/repository")
    rt.Crate.allowed = rt.handles_of(root)
    crates = rt.crates_of(os.getcwd())
    wanted = [it for it in crates if is_wanted(it)]
    kept = rt.Kept(crates)
    for it in crates:
        if any(it in one.below() for one in wanted):
            os.makedirs(f"{it.folder}/out")
            if not kept.give(it, False, kept.key(it)):
                print(f"proved.py: rt ci has not kept {it.name} as it stands")
                return None
            kept.is_built(it)
    return wanted


def in_checkout(rt, root, is_wanted):
    """The wanted crates where they stand, over libraries that are built there."""
    os.chdir(root)
    rt.share_work(True)
    wanted = [it for it in rt.rtlib.crates_below(root) if is_wanted(it)]
    below = {dep.name: dep for it in wanted for dep in it.below()}
    rt.rtlib.lock(below.values())
    for dep in below.values():
        if dep.build_rlib(["--jobs", "1"], anew=False):
            sys.exit(f"proved.py: the library {dep.name} did not build")
    return wanted


def archives(rt, root, room):
    is_wanted = lambda it: it.is_static
    wanted, status = in_copy(rt, root, room, is_wanted), 0
    if wanted is None:
        os.chdir(root)
        for it in filter(is_wanted, rt.rtlib.crates_below(root)):
            status = status or subprocess.run(["rt", "lib"], cwd=it.folder).returncode
        return status
    for it in wanted:
        to = f"{root}/crates/{it.name}/out"
        os.makedirs(f"{it.folder}/out")
        os.makedirs(to, exist_ok=True)
        status = status or it.build_static([])
        if not status:
            shutil.copyfile(f"{it.folder}/out/lib{it.name}.a", f"{to}/new.a")
            os.replace(f"{to}/new.a", f"{to}/lib{it.name}.a")
    return status


def logs(rt, root, room, to, edits):
    places = [it.split("/")[1::2] for it in edits]
    is_wanted = lambda it: any(name == it.name for name, _ in places)
    wanted = in_copy(rt, root, room, is_wanted)
    wanted = in_checkout(rt, root, is_wanted) if wanted is None else wanted
    wanted = {it.name: it for it in wanted}

    def one(crate, edit, log):
        texts, why = rt.read_edit(f"{root}/{edit}", crate.folder)
        if why:
            print(f"{edit}: {why}", flush=True)
            return False
        ran = rt.checked(crate, texts, ["--jobs", "1"], None)
        if ran.returncode == -signal.SIGKILL:
            # most likely for memory
            ran = rt.checked(crate, texts, ["--jobs", "1"], None)
        os.makedirs(os.path.dirname(log), exist_ok=True)
        with open(log, "w", encoding="utf-8") as it:
            it.write(ran.stdout)
        return True

    tasks = {}
    for edit, (name, file) in zip(edits, places):
        crate, log = wanted[name], f"{to}/{name}/{os.path.splitext(file)[0]}.log"
        task = lambda given, jobs, crate=crate, edit=edit, log=log: one(crate, edit, log)
        tasks[name, "edits", edit] = ([], crate.count(rb"\n"), rt.need(crate), task)
    return 0 if all(rt.in_lanes(tasks).values()) else 1


def main(words):
    root = os.getcwd()
    rt = load()
    # its first call sets a signal's handler, which only the main thread may
    rt.rtlib.guarded()
    with tempfile.TemporaryDirectory(prefix=f"rt-copy-{os.getpid()}-") as room:
        if words == ["archive"]:
            return archives(rt, root, room)
        if len(words) > 2 and words[0] == "logs":
            return logs(rt, root, room, os.path.abspath(words[1]), words[2:])
    print(__doc__.strip(), file=sys.stderr)
    return 2


if __name__ == "__main__":
    sys.exit(main(sys.argv[1:]))
