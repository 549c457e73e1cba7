"""What the companion tools share: fonts, metrics files, MathML, marks and pictures."""
