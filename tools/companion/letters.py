"""The mathematical letters that `mathvariant` asks for (Unicode's block of Mathematical Alphanumeric Symbols)."""

LATIN = {"bold": 0x1D400, "italic": 0x1D434, "bold-italic": 0x1D468, "script": 0x1D49C, "bold-script": 0x1D4D0, "fraktur": 0x1D504,
         "double-struck": 0x1D538, "bold-fraktur": 0x1D56C, "sans-serif": 0x1D5A0, "bold-sans-serif": 0x1D5D4,
         "sans-serif-italic": 0x1D608, "sans-serif-bold-italic": 0x1D63C, "monospace": 0x1D670}
GREEK = {"bold": 0x1D6A8, "italic": 0x1D6E2, "bold-italic": 0x1D71C, "bold-sans-serif": 0x1D756,
         "sans-serif-bold-italic": 0x1D790}
DIGITS = {"bold": 0x1D7CE, "double-struck": 0x1D7D8, "sans-serif": 0x1D7E2, "bold-sans-serif": 0x1D7EC,
          "sans-serif-bold-italic": 0x1D7EC, "monospace": 0x1D7F6}
# Letters that stood elsewhere before the block was made.
OLDER = {
    "italic": {"h": "\u210e", "\u0131": "\U0001d6a4", "\u0237": "\U0001d6a5"},
    "script": dict(zip("BEFHILMRego", "\u212c\u2130\u2131\u210b\u2110\u2112\u2133\u211b\u212f\u210a\u2134")),
    "fraktur": dict(zip("CHIRZ", "\u212d\u210c\u2111\u211c\u2128")),
    "double-struck": dict(zip("CHNPQRZ", "\u2102\u210d\u2115\u2119\u211a\u211d\u2124")),
    "bold": {"\u03dc": "\U0001d7ca", "\u03dd": "\U0001d7cb"},
}
# Greek letters and signs in the order of the block: Alpha to Omega with the theta symbol, nabla, alpha to omega, and seven more.
GREEK_ORDER = ("".join(map(chr, range(0x391, 0x3A2))) + "\u03f4" + "".join(map(chr, range(0x3A3, 0x3AA))) + "\u2207"
               + "".join(map(chr, range(0x3B1, 0x3CA))) + "\u2202\u03f5\u03d1\u03f0\u03d5\u03f1\u03d6")
# What a lone letter of an `mi` becomes by MathML Core and the program leaves as it is.
LEFT_UPRIGHT = "\u2202\u03f5\u03d1\u03f0\u03d5\u03f1\u03d6\u2207\u03f4\u0131\u0237"
VARIANTS = set(LATIN) | {"normal"}


def letter(variant, character):
    """The mathematical letter of a character in a variant; the character itself where there is none."""
    older = OLDER.get(variant, {}).get(character)
    if older:
        return older
    if character.isascii() and character.isalpha():
        return chr(LATIN[variant] + (ord(character) - 0x41 if character <= "Z" else ord(character) - 0x61 + 26))
    if character.isascii() and character.isdigit() and variant in DIGITS:
        return chr(DIGITS[variant] + int(character))
    if character in GREEK_ORDER and variant in GREEK:
        return chr(GREEK[variant] + GREEK_ORDER.index(character))
    return character


def letters(variant, text):
    """A text in the letters of a variant."""
    return "".join(letter(variant, character) for character in text)
