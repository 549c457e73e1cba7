#!/usr/bin/env python3
"""Says in a sentence what the program's refusal means: the file, the line, what is wrong and what would be right.

    explain.py layout METRICS TREE | edit METRICS TREE SCRIPT | check METRICS TREE | gen METRICS SEED COUNT
    explain.py paint METRICS TREE | hit METRICS TREE X Y | select METRICS TREE ID ID
    explain.py history DEPTH METRICS TREE SCRIPT
    explain.py metrics LINE KIND [METRICS]
    explain.py tree ELEMENT KIND [TREE]
    explain.py refused CAUSE
    explain.py range | metrics long | tree long | tree json [TREE] | node ID | paint many
    explain.py status NUMBER [METRICS [TREE [SCRIPT]]]

The first two lines run the program, write what it writes, and on standard error a sentence for each refusal, for a script with the
line that was refused. They end with the program's status. The others explain what the program wrote before; with the file,
they show what stands there. The sentences are made of the tables of docs/FORMATS.md.
"""

import sys

from companion import command, formats, program, refusals
from companion.command import Fault
from companion.program import Inputs

RUNS = {"layout": ["METRICS", "TREE"], "edit": ["METRICS", "TREE", "SCRIPT"], "check": ["METRICS", "TREE"],
        "gen": ["METRICS", "SEED", "COUNT"], "paint": ["METRICS", "TREE"], "hit": ["METRICS", "TREE", "X", "Y"],
        "select": ["METRICS", "TREE", "ID", "ID"], "history": ["DEPTH", "METRICS", "TREE", "SCRIPT"]}


def main(argv=None):
    parser = command.parser_of("explain", __doc__)
    parser.add_argument("words", metavar="WORD", nargs="+")
    parser.add_argument("--program", metavar="COMMAND", help=program.HELP)
    words = parser.parse_args(argv)
    wanted = RUNS.get(words.words[0]) if words.words != ["paint", "many"] else None
    if wanted and len(words.words) != 1 + len(wanted):
        parser.error(f"{words.words[0]} takes {' '.join(wanted)}")
    if wanted:
        return command.run(parser, run_and_explain, argv)
    return command.run(parser, explained, argv)


def run_and_explain(words):
    """What the program wrote, once the sentences are told; raises Ended with its status."""
    verb, *others = words.words
    named = dict(zip(RUNS[verb], others))
    inputs = Inputs(named["METRICS"], None, told=" ".join(words.words)) if verb == "gen" else Inputs(named["METRICS"], named["TREE"], named.get("SCRIPT"))
    done = program.ended([*program.command_of(words.program), verb, *others], inputs.formula)
    written = done.stdout.decode("utf-8", "replace")
    if inputs.script:
        for line in explained_replies(written, inputs.script):
            command.warn("explain", line)
    if done.returncode != 0:
        command.warn("explain", refusals.ending(done.returncode, written, done.stderr.decode("utf-8", "replace"), inputs))
    return command.Output(done.stdout, done.returncode if done.returncode >= 0 else 1)


def explained_replies(written, script):
    """A sentence for each line of a script that was refused."""
    try:
        lines = command.read(script).split(b"\n")
    except Fault:
        return []
    asked = [number for number, line in enumerate(lines, 1) if line.strip(b" \t\n\f\r")]
    replies = [line for line in written.split("\n") if line in ("ok", "shown") or line.startswith("refused ")]
    told = []
    for number, reply in zip(asked, replies):
        if reply.startswith("refused "):
            text = lines[number - 1].decode("utf-8", "replace")
            told.append(f"{script}, line {number}: {refusals.refusal(reply, Inputs('', '')) or reply}: `{refusals.shown(text)}`")
    return told


def explained(words):
    """The sentence for a refusal that the program wrote before."""
    first, *others = words.words
    told = None
    if first == "metrics" and len(others) in (2, 3) and all(map(str.isdigit, others[:2])):
        told = refusals.of_metrics(int(others[0]), int(others[1]), *(others[2:] or [None]))
    elif first == "tree" and len(others) in (2, 3) and all(map(str.isdigit, others[:2])):
        told = refusals.of_tree(int(others[0]), int(others[1]), Inputs(None, *(others[2:] or [None])))
    elif first == "tree" and len(others) == 2 and others[0] == "json":
        told = refusals.not_json(others[1])
    elif words.words == ["tree", "json"]:
        told = "the tree file isn't JSON: name it too, and the place is told"
    elif first == "status" and others and others[0].isdigit():
        told = of_status(int(others[0]), others[1:])
    else:
        told = refusals.refusal(" ".join(words.words), Inputs(None, None))
    if told is None:
        raise Fault(f"{' '.join(words.words)}: is no refusal of the program; --help says which there are")
    return f"{told}\n".encode()


def of_status(number, files):
    """The sentence for an exit status, and where files are named for the one that isn't there."""
    row = formats.status(number)
    if row is None:
        return f"status {number} is none of the program's"
    if number == 5 and files and (told := refusals.missing(Inputs(*[*files, None, None][:3]))):
        return told
    right = f"; right would be {row[refusals.RIGHT]}" if row[refusals.RIGHT] else ""
    return f"status {number}: {row['what it says']}{right}"


if __name__ == "__main__":
    sys.exit(main())
