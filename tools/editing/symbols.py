"""What a backslash and a name stand for."""

GREEK = dict(zip(
    "alpha beta gamma delta epsilon zeta eta theta iota kappa lambda mu nu xi omicron pi rho sigma tau upsilon phi chi psi omega".split(),
    "αβγδϵζηθικλμνξοπρστυϕχψω"))
VARIANTS = {"varepsilon": "ε", "vartheta": "ϑ", "varpi": "ϖ", "varrho": "ϱ", "varsigma": "ς", "varphi": "φ"}
CAPITALS = {"Gamma": "Γ", "Delta": "Δ", "Theta": "Θ", "Lambda": "Λ", "Xi": "Ξ", "Pi": "Π", "Sigma": "Σ", "Upsilon": "Υ", "Phi": "Φ",
            "Psi": "Ψ", "Omega": "Ω"}
LETTERS = {**GREEK, **VARIANTS, **CAPITALS, "infty": "∞", "partial": "∂", "nabla": "∇", "ell": "ℓ", "hbar": "ℏ", "emptyset": "∅",
           "aleph": "ℵ", "Re": "ℜ", "Im": "ℑ"}
# Signs that stand for a thing of their own, and are no operators.
IDENTIFIERS = set(LETTERS.values())
OPERATORS = {
    "pm": "±", "mp": "∓", "times": "×", "cdot": "⋅", "div": "÷", "ast": "∗", "circ": "∘", "le": "≤", "leq": "≤", "ge": "≥", "geq": "≥",
    "ne": "≠", "neq": "≠", "equiv": "≡", "approx": "≈", "sim": "∼", "simeq": "≃", "cong": "≅", "propto": "∝", "ll": "≪", "gg": "≫",
    "in": "∈", "notin": "∉", "ni": "∋", "subset": "⊂", "subseteq": "⊆", "supset": "⊃", "supseteq": "⊇", "cup": "∪", "cap": "∩",
    "setminus": "∖", "to": "→", "rightarrow": "→", "leftarrow": "←", "leftrightarrow": "↔", "Rightarrow": "⇒", "Leftarrow": "⇐",
    "Leftrightarrow": "⇔", "mapsto": "↦", "uparrow": "↑", "downarrow": "↓", "forall": "∀", "exists": "∃", "neg": "¬", "and": "∧", "or": "∨",
    "oplus": "⊕", "otimes": "⊗", "perp": "⊥", "parallel": "∥", "mid": "∣", "sum": "∑", "prod": "∏", "coprod": "∐", "int": "∫",
    "iint": "∬", "oint": "∮", "bigcup": "⋃", "bigcap": "⋂", "ldots": "…", "cdots": "⋯", "dots": "…", "langle": "⟨", "rangle": "⟩",
    "lfloor": "⌊", "rfloor": "⌋", "lceil": "⌈", "rceil": "⌉", "prime": "′", "colon": ":", "backslash": "\\",
}
FUNCTIONS = {name: name for name in "sin cos tan cot sec csc arcsin arccos arctan sinh cosh tanh log ln exp det dim ker gcd arg".split()}
LIMITS = {name: name for name in ("lim", "max", "min", "sup", "inf")}
ACCENTS = {"hat": "^", "bar": "¯", "tilde": "~", "vec": "→", "dot": "˙", "overline": "¯", "widehat": "^"}
# What makes a structure or changes a table: how each is told.
STRUCTURES = {
    "frac": "a fraction", "sqrt": "a square root", "root": "a root with an index",
    "over": "something above", "under": "something below", "matrix": "a table of two rows and two columns",
    "pmatrix": "the same within parentheses", "cases": "the same behind a brace", "row": "a row of the table below this one",
    "column": "a column of the table behind this one", "delrow": "without this row", "delcolumn": "without this column",
    "wider": "the cell spans one column more", "narrower": "the cell spans one column fewer", "taller": "the cell spans one row more",
    "shorter": "the cell spans one row fewer",
}
NAMES = sorted({*LETTERS, *OPERATORS, *FUNCTIONS, *LIMITS, *ACCENTS, *STRUCTURES})
# What a key of one character stands for, where it isn't itself.
KEYS = {"-": "−", "*": "⋅", "'": "′"}
MOST_SHOWN = 8


def told(name):
    """What a name gives, for people."""
    for table in (LETTERS, OPERATORS, FUNCTIONS, LIMITS):
        if name in table:
            return table[name]
    return f"an accent {ACCENTS[name]}" if name in ACCENTS else STRUCTURES[name]


def beginning(text):
    """The first names that begin with a text, each with what it gives; one that is the text comes first."""
    return [(name, told(name)) for name in NAMES if name.startswith(text)][:MOST_SHOWN]
