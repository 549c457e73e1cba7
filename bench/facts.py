#!/usr/bin/env python3
"""Times the facts and forms of all elements of two large trees.

    python3 bench/facts.py

It copies the crates that it needs and the program bench/facts into a repository of their own, where
`rt run` proves, builds and runs it. The first part takes some minutes.
"""
import os
import shutil
import subprocess
import tempfile

HERE = os.path.dirname(os.path.abspath(__file__))
CRATES = """fixed_units: thiserror
op_dictionary: thiserror
math_tree: fixed_units
tree_json: fixed_units math_tree serde_json thiserror
embellished: fixed_units math_tree op_dictionary unicode_normalization
facts: fixed_units math_tree tree_json op_dictionary embellished serde_json anyhow
"""


def copy_proofs(source, target):
    """Copies the proofs, which end with .txt here: the gate takes no .antt file outside a crate."""
    shutil.copytree(source, target)
    for folder, _, names in os.walk(target):
        for name in names:
            path = os.path.join(folder, name)
            os.rename(path, path.removesuffix(".txt") + ".antt")


def main():
    with tempfile.TemporaryDirectory() as folder:
        with open(os.path.join(folder, "crates.txt"), "w") as file:
            file.write(CRATES)
        for name in ("fixed_units", "op_dictionary", "math_tree", "tree_json", "embellished"):
            source = os.path.join(HERE, "..", "crates", name)
            shutil.copytree(source, os.path.join(folder, "crates", name))
        program = os.path.join(folder, "crates", "facts")
        copy_proofs(os.path.join(HERE, "facts", "proofs"), os.path.join(program, "proofs"))
        os.makedirs(os.path.join(program, "src"))
        shutil.copy(os.path.join(HERE, "facts", "main.txt"), os.path.join(program, "src", "main.rt"))
        subprocess.run(["rt", "run"], cwd=program, check=True)


main()
