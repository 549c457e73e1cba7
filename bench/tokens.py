#!/usr/bin/env python3
"""Times a million layouts of a token of one character, for each of three characters.

    python3 bench/tokens.py

It copies the crates that it needs and the program bench/tokens.txt into a repository of their own,
where `rt run` proves, builds and runs it. The first part takes some minutes.
"""
import os
import shutil
import subprocess
import tempfile

HERE = os.path.dirname(os.path.abspath(__file__))
NEEDED = (
    "fixed_units", "css_lengths", "op_dictionary", "math_tree", "tree_json", "font_metrics", "metrics_file",
    "glyph_assembly", "embellished", "style_scope", "token_boxes")
PROGRAM = "tokens: fixed_units font_metrics metrics_file math_tree tree_json token_boxes serde_json anyhow\n"


def main():
    with open(os.path.join(HERE, "..", "crates.txt")) as file:
        lines = [line for line in file if line.split(":")[0] in NEEDED]
    with tempfile.TemporaryDirectory() as folder:
        with open(os.path.join(folder, "crates.txt"), "w") as file:
            file.writelines(lines + [PROGRAM])
        for crate in NEEDED:
            source = os.path.join(HERE, "..", "crates", crate)
            shutil.copytree(source, os.path.join(folder, "crates", crate))
        program = os.path.join(folder, "crates", "tokens")
        os.makedirs(os.path.join(program, "src"))
        shutil.copy(os.path.join(HERE, "tokens.txt"), os.path.join(program, "src", "main.rt"))
        subprocess.run(["rt", "run"], cwd=program, check=True)


main()
