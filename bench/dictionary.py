#!/usr/bin/env python3
"""Times a million look-ups in the operator dictionary, without and with a user's operator lines.

    python3 bench/dictionary.py

It copies the crate `op_dictionary` and the program bench/dictionary.txt into a repository of their
own, where `rt run` proves, builds and runs it. The first part takes some minutes.
"""
import os
import shutil
import subprocess
import tempfile

HERE = os.path.dirname(os.path.abspath(__file__))
CRATES = "op_dictionary: thiserror\nlookups: op_dictionary anyhow\n"


def main():
    with tempfile.TemporaryDirectory() as folder:
        with open(os.path.join(folder, "crates.txt"), "w") as file:
            file.write(CRATES)
        source = os.path.join(HERE, "..", "crates", "op_dictionary")
        shutil.copytree(source, os.path.join(folder, "crates", "op_dictionary"))
        program = os.path.join(folder, "crates", "lookups")
        os.makedirs(os.path.join(program, "src"))
        shutil.copy(os.path.join(HERE, "dictionary.txt"), os.path.join(program, "src", "main.rt"))
        subprocess.run(["rt", "run"], cwd=program, check=True)


main()
