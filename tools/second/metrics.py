"""What a metrics file says, in design units, and what is read off it at a font size, in units of 1/1024 px."""

from dataclasses import dataclass, field
from typing import NamedTuple

from .numbers import rounded

BLOCK, INLINE = "block", "inline"

CONSTANTS = """
    ScriptPercentScaleDown ScriptScriptPercentScaleDown DelimitedSubFormulaMinHeight DisplayOperatorMinHeight MathLeading
    AxisHeight AccentBaseHeight FlattenedAccentBaseHeight SubscriptShiftDown SubscriptTopMax SubscriptBaselineDropMin
    SuperscriptShiftUp SuperscriptShiftUpCramped SuperscriptBottomMin SuperscriptBaselineDropMax SubSuperscriptGapMin
    SuperscriptBottomMaxWithSubscript SpaceAfterScript UpperLimitGapMin UpperLimitBaselineRiseMin LowerLimitGapMin
    LowerLimitBaselineDropMin StackTopShiftUp StackTopDisplayStyleShiftUp StackBottomShiftDown
    StackBottomDisplayStyleShiftDown StackGapMin StackDisplayStyleGapMin StretchStackTopShiftUp StretchStackBottomShiftDown
    StretchStackGapAboveMin StretchStackGapBelowMin FractionNumeratorShiftUp FractionNumeratorDisplayStyleShiftUp
    FractionDenominatorShiftDown FractionDenominatorDisplayStyleShiftDown FractionNumeratorGapMin
    FractionNumDisplayStyleGapMin FractionRuleThickness FractionDenominatorGapMin FractionDenomDisplayStyleGapMin
    SkewedFractionHorizontalGap SkewedFractionVerticalGap OverbarVerticalGap OverbarRuleThickness OverbarExtraAscender
    UnderbarVerticalGap UnderbarRuleThickness UnderbarExtraDescender RadicalVerticalGap RadicalDisplayStyleVerticalGap
    RadicalRuleThickness RadicalExtraAscender RadicalKernBeforeDegree RadicalKernAfterDegree
    RadicalDegreeBottomRaisePercent
""".split()

SCALE_DOWNS = CONSTANTS[:2]

# The corners of a glyph, in the order in which their kerns are printed.
TOP_RIGHT, TOP_LEFT, BOTTOM_RIGHT, BOTTOM_LEFT = CORNERS = ("TR", "TL", "BR", "BL")


class Glyph(NamedTuple):
    name: str
    advance: int
    ink_ascent: int
    ink_descent: int
    italic: int
    accent: int | None  # None: half of the advance


class Variant(NamedTuple):
    glyph: int
    measure: int


class Part(NamedTuple):
    glyph: int
    is_extender: bool
    start: int
    end: int
    full: int


class Kern(NamedTuple):
    """A corner's kern by height: the first value counts below the first height, and each other one from its height on."""

    heights: tuple
    values: tuple


class OperatorLine(NamedTuple):
    """The text is a tuple of one code point or two."""

    text: tuple
    form: str
    category: str
    axis: str


@dataclass
class Metrics:
    """The numbers of a file. A glyph is told by its place in `glyphs`; tables are by a pair of axis and base glyph."""

    version: int = 1
    upem: int = None
    line: tuple = None  # ascent and descent
    x_height: int = None
    overlap: int = None
    constants: dict = field(default_factory=dict)
    glyphs: list = field(default_factory=list)
    places: dict = field(default_factory=dict)  # of glyphs, by name
    characters: dict = field(default_factory=dict)  # places of glyphs, by code point
    variants: dict = field(default_factory=dict)
    parts: dict = field(default_factory=dict)
    kerns: dict = field(default_factory=dict)  # by glyph and corner
    operators: dict = field(default_factory=dict)  # lines by text and form, in the order of the file
    axes: dict = field(default_factory=dict)  # by text, that of the first line

    # ---- at a font size

    def scaled(self, value, size):
        """Design units at a font size, rounded once."""
        return rounded(value * size, self.upem)

    def constant(self, name, size):
        """A constant at a font size; an absent one is 0."""
        return self.scaled(self.constants.get(name, 0), size)

    def percent(self, name):
        """A scale-down percent; 0 counts as absent."""
        return self.constants.get(name, 0) or {"ScriptPercentScaleDown": 70, "ScriptScriptPercentScaleDown": 50}[name]

    def degree_raise(self):
        """How far the index of a root is raised, in percent."""
        return self.constants.get("RadicalDegreeBottomRaisePercent", 60)

    def ex(self, size):
        return self.scaled(self.x_height, size)

    def kern(self, place, corner, height, size):
        """The kern of a glyph's corner at a height in units; 0 where the corner has none."""
        kern = self.kerns.get((place, corner))
        if kern is None:
            return 0
        return self.scaled(kern.values[sum(self.scaled(each, size) <= height for each in kern.heights)], size)

    def line_ascent(self, size):
        return self.scaled(self.line[0], size)

    def line_descent(self, size):
        return self.scaled(self.line[1], size)

    # ---- what is looked up

    def place_of(self, letter):
        """The place of the glyph that shows a character: its own, or that of `missing`."""
        return self.characters.get(letter, self.places["missing"])

    def variants_of(self, place, axis):
        return self.variants.get((axis, place), [])

    def parts_of(self, place, axis):
        return self.parts.get((axis, place), [])
