"""The constants of OpenType MATH, in the order of its table "MathConstants", and what a metrics file may say of them."""

CONSTANTS = """
ScriptPercentScaleDown ScriptScriptPercentScaleDown DelimitedSubFormulaMinHeight DisplayOperatorMinHeight MathLeading
AxisHeight AccentBaseHeight FlattenedAccentBaseHeight SubscriptShiftDown SubscriptTopMax SubscriptBaselineDropMin
SuperscriptShiftUp SuperscriptShiftUpCramped SuperscriptBottomMin SuperscriptBaselineDropMax SubSuperscriptGapMin
SuperscriptBottomMaxWithSubscript SpaceAfterScript UpperLimitGapMin UpperLimitBaselineRiseMin LowerLimitGapMin
LowerLimitBaselineDropMin StackTopShiftUp StackTopDisplayStyleShiftUp StackBottomShiftDown
StackBottomDisplayStyleShiftDown StackGapMin StackDisplayStyleGapMin StretchStackTopShiftUp StretchStackBottomShiftDown
StretchStackGapAboveMin StretchStackGapBelowMin FractionNumeratorShiftUp FractionNumeratorDisplayStyleShiftUp
FractionDenominatorShiftDown FractionDenominatorDisplayStyleShiftDown FractionNumeratorGapMin
FractionNumDisplayStyleGapMin FractionRuleThickness FractionDenominatorGapMin FractionDenomDisplayStyleGapMin
SkewedFractionHorizontalGap SkewedFractionVerticalGap OverbarVerticalGap OverbarRuleThickness OverbarExtraAscender
UnderbarVerticalGap UnderbarRuleThickness UnderbarExtraDescender RadicalVerticalGap RadicalDisplayStyleVerticalGap
RadicalRuleThickness RadicalExtraAscender RadicalKernBeforeDegree RadicalKernAfterDegree
RadicalDegreeBottomRaisePercent
""".split()

# Percents of at most 200; every other constant is from -32768 to 65535.
SCALE_DOWNS = ("ScriptPercentScaleDown", "ScriptScriptPercentScaleDown")

# The characters that formulas are made of: letters and signs of text, Greek and others, and the blocks of mathematics.
MATHEMATICAL = (
    (0x0020, 0x007E, "Basic Latin"),
    (0x00A0, 0x024F, "Latin-1 Supplement, Latin Extended-A and -B"),
    (0x02B0, 0x036F, "Spacing Modifier Letters, Combining Diacritical Marks"),
    (0x0370, 0x052F, "Greek, Cyrillic"),
    (0x05D0, 0x05EA, "letters of Hebrew"),
    (0x0600, 0x06FF, "Arabic"),
    (0x2000, 0x206F, "General Punctuation"),
    (0x2070, 0x20FF, "Superscripts and Subscripts, Currency, Combining Marks for Symbols"),
    (0x2100, 0x214F, "Letterlike Symbols"),
    (0x2150, 0x21FF, "Number Forms, Arrows"),
    (0x2200, 0x22FF, "Mathematical Operators"),
    (0x2300, 0x23FF, "Miscellaneous Technical"),
    (0x2460, 0x24FF, "Enclosed Alphanumerics"),
    (0x2500, 0x27BF, "Box Drawing, Blocks, Geometric Shapes, Miscellaneous Symbols, Dingbats"),
    (0x27C0, 0x27FF, "Miscellaneous Mathematical Symbols-A, Supplemental Arrows-A"),
    (0x2900, 0x2AFF, "Supplemental Arrows-B, Miscellaneous Mathematical Symbols-B, Supplemental Mathematical Operators"),
    (0x2B00, 0x2BFF, "Miscellaneous Symbols and Arrows"),
    (0x3008, 0x301B, "angle and other brackets"),
    (0xFE35, 0xFE38, "brackets that lie on their side"),
    (0x1D400, 0x1D7FF, "Mathematical Alphanumeric Symbols"),
    (0x1EE00, 0x1EEFF, "Arabic Mathematical Alphabetic Symbols"),
)

# Function application, and the invisible times, separator and plus: they take no room, whatever a font shows for them.
INVISIBLE = range(0x2061, 0x2065)


def is_mathematical(code):
    """Whether formulas use a character."""
    return any(first <= code <= last for first, last, _ in MATHEMATICAL)
