"""A TeX file of the tests' own: text with formulas of the kinds that books have."""

FORMULAS = r"""
x_{%d} = \frac{-b \pm \sqrt{b^2 - 4ac}}{2a}
\sum_{k=1}^{%d} k^2 = \frac{n(n+1)(2n+1)}{6}
\int_0^{%d} e^{-x^2}\,dx
\lim_{n \to \infty} \left(1 + \frac{%d}{n}\right)^n = e
\bar{y}_{%d} + \hat{x} - \tilde{z} + \vec{v} + \dot{q}
\begin{pmatrix} a & b \\ c & %d \end{pmatrix}
\sqrt[3]{1 + \sqrt{%d + x}}
\phi(%d) = \varphi \cdot \partial_x f
\mathbf{A} \in \mathbb{R}^{%d \times n}
\binom{n}{%d} \le 2^n
\oint_\gamma \frac{f(z)}{z - %d}\,dz = 2\pi i
\overline{a + b_{%d}} = \overline{a} + \overline{b}
\left\{ x \mid x > %d \right\}
f'(x) = %d x^{n-1} \quad \text{for all } x
\prod_{p \le %d} \frac{1}{1 - p^{-s}}
\underbrace{a + \cdots + a}_{%d}
\mathcal{L}(\theta) = -\log p_{%d}(x)
\left\lfloor \frac{n}{%d} \right\rfloor
a \equiv b \pmod{%d}
\alpha_{%d} \to \beta \Rightarrow \gamma \iff \delta
""".strip().split("\n")
DISPLAYS = range(0, 500, 10)


def tex(count):
    """A TeX file with so many formulas; each tenth one stands by itself."""
    lines = [r"\documentclass{article}", r"\begin{document}"]
    for number in range(count):
        formula = FORMULAS[number % len(FORMULAS)].replace("%d", str(number + 1))
        shown = rf"\[ {formula} \]" if number % 10 == 0 else f"${formula}$"
        lines += [f"Here is formula number {number + 1}: {shown} within a line of text.", ""] if number % 4 == 3 else [
            f"Formula {number + 1} is {shown}, and then"]
    return "\n".join([*lines, r"\end{document}", ""])
