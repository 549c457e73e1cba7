#!/usr/bin/env python3
"""Times a million shapes of a parenthesis to targets far past its last variant.

    python3 bench/shaping.py

It copies the crates that it needs and the program bench/shaping.txt into a repository of their own,
where `rt run` proves, builds and runs it. The first part takes some minutes.
"""
import os
import shutil
import subprocess
import tempfile

HERE = os.path.dirname(os.path.abspath(__file__))
NEEDED = ("fixed_units", "op_dictionary", "font_metrics", "metrics_file", "glyph_assembly")


def main():
    with open(os.path.join(HERE, "..", "crates.txt")) as file:
        lines = [line for line in file if line.split(":")[0] in NEEDED]
    with tempfile.TemporaryDirectory() as folder:
        with open(os.path.join(folder, "crates.txt"), "w") as file:
            file.writelines(lines + ["shapes: op_dictionary font_metrics metrics_file glyph_assembly anyhow\n"])
        for crate in NEEDED:
            source = os.path.join(HERE, "..", "crates", crate)
            shutil.copytree(source, os.path.join(folder, "crates", crate))
        program = os.path.join(folder, "crates", "shapes")
        os.makedirs(os.path.join(program, "src"))
        shutil.copy(os.path.join(HERE, "shaping.txt"), os.path.join(program, "src", "main.rt"))
        subprocess.run(["rt", "run"], cwd=program, check=True)


main()
