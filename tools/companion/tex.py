"""TeX's signs that stand between what they part, as commands that stand before it: `a \\over b` becomes `\\frac{a}{b}`."""

import re

from companion.command import Fault

TOKEN = re.compile(r"\\(?:[A-Za-z]+\s*|.)|[{}]|[^\\{}]+|\\", re.DOTALL)
BETWEEN = {
    "over": r"\frac{%s}{%s}", "choose": r"\binom{%s}{%s}", "atop": r"\begin{matrix}%s\\%s\end{matrix}",
    "brace": r"\begin{Bmatrix}%s\\%s\end{Bmatrix}", "brack": r"\begin{bmatrix}%s\\%s\end{bmatrix}",
}
OPENS = {"left"}
CLOSES = {"right"}


def modern(text):
    """The formula without signs that stand between; raises a Fault where braces don't match."""
    stack = [Group("")]
    for token in TOKEN.findall(text):
        word = token[1:].strip() if token.startswith("\\") else ""
        if token == "{" or word in OPENS:
            stack.append(Group(token))
        elif token == "}" or word in CLOSES:
            group = stack.pop()
            if not stack or (group.opening == "{") != (token == "}"):
                raise Fault(f"the formula's braces don't match: {'}' if token == '}' else token.strip()} closes nothing")
            stack[-1].add(group.opening + group.text(opens_with_a_fence=group.opening != "{") + token)
        elif word in BETWEEN:
            stack[-1].part(word)
        else:
            stack[-1].add(token)
    if len(stack) > 1:
        raise Fault(f"the formula's braces don't match: {stack[-1].opening.strip()} isn't closed")
    return stack[0].text()


class Group:
    """A group: what stands before a sign that parts it, and what behind."""

    def __init__(self, opening):
        self.opening, self.before, self.here, self.sign = opening, None, "", None

    def add(self, text):
        self.here += text

    def part(self, sign):
        if self.sign:
            raise Fault(f"the formula has two signs of the kind of \\{sign} in one group: put braces round one of them")
        self.before, self.here, self.sign = self.here, "", sign

    def text(self, opens_with_a_fence=False):
        if not self.sign:
            return self.here
        fence, before = "", self.before
        if opens_with_a_fence and (found := re.match(r"\s*(\\[A-Za-z]+|\\.|.)", before)):
            fence, before = found[0], before[found.end():]
        return fence + BETWEEN[self.sign] % (before.strip(), self.here.strip())
