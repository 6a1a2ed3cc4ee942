"""How the programs of `policy` and `steps` are built: their own files, and those of `clusters`, which both have."""
import importlib.machinery
import importlib.util
import os
import subprocess

HERE = os.path.dirname(os.path.realpath(__file__))
TOP = os.path.dirname(os.path.dirname(HERE))
USED = """arbiter_core fabric_config fabric_steward fabric_terms failover_units fabric_lemmas fire_pace join_phases
node_core replica_core ring_node ring_points ring_route ring_rules ring_wire service_file world_rules"""


def line_of(name, more):
    """The line of a crate that uses these crates too."""
    return f"{name}: " + " ".join(sorted([*USED.split(), *more]))


def sources(folder):
    return [f"{HERE}/clusters", f"{HERE}/{folder}"]


def built(folder, line, source):
    """The program, proved and built: the words that run it, and where."""
    words = [f"{TOP}/bench/build", folder, line, *sources(source)]
    ran = subprocess.run(words, stdin=subprocess.DEVNULL, stdout=subprocess.PIPE, check=True, text=True)
    return [ran.stdout.split()[-1]], None


def tried(folder, line, source):
    """The same, run by `rt try` each time, without a proof."""
    loader = importlib.machinery.SourceFileLoader("build", f"{TOP}/bench/build")
    it = importlib.util.module_from_spec(importlib.util.spec_from_loader("build", loader))
    loader.exec_module(it)
    folder = f"{folder}/crates-of-it"
    os.mkdir(folder)
    it.make(it.load(f"{TOP}/bin/prove"), folder, line, it.texts_of(sources(source)))
    name = line.partition(":")[0]
    return ["rt", "try", "--seconds", "100000", "--steps", "1", "--"], f"{folder}/crates/{name}"
