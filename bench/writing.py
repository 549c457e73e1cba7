#!/usr/bin/env python3
"""Times the writing of a page of 65,536 boxes with a mark each, and tells how many bytes a second that is.

    python3 bench/writing.py

It copies the crates that it needs and the program bench/writing into a repository of their own, where
`rt run` proves, builds and runs it. The first part takes some minutes.
"""
import os
import shutil
import subprocess
import tempfile

HERE = os.path.dirname(os.path.abspath(__file__))
NEEDED = ("fixed_units", "doc_io", "op_dictionary", "math_tree", "tree_json", "font_metrics", "metrics_file", "box_writer")


def copy_proofs(source, target):
    """Copies the proofs, which end with .txt here: the gate takes no .antt file outside a crate."""
    shutil.copytree(source, target)
    for folder, _, names in os.walk(target):
        for name in names:
            path = os.path.join(folder, name)
            os.rename(path, path.removesuffix(".txt") + ".antt")


def main():
    with open(os.path.join(HERE, "..", "crates.txt")) as file:
        lines = [line for line in file if line.split(":")[0] in NEEDED]
    with tempfile.TemporaryDirectory() as folder:
        with open(os.path.join(folder, "crates.txt"), "w") as file:
            file.writelines(lines)
            file.write("writing: fixed_units doc_io math_tree tree_json font_metrics metrics_file box_writer serde_json anyhow\n")
        for crate in NEEDED:
            source = os.path.join(HERE, "..", "crates", crate)
            shutil.copytree(source, os.path.join(folder, "crates", crate))
        program = os.path.join(folder, "crates", "writing")
        copy_proofs(os.path.join(HERE, "writing", "proofs"), os.path.join(program, "proofs"))
        os.makedirs(os.path.join(program, "src"))
        shutil.copy(os.path.join(HERE, "writing", "main.txt"), os.path.join(program, "src", "main.rt"))
        subprocess.run(["rt", "run"], cwd=program, check=True)


main()
