#!/usr/bin/env python3
"""Prints what the program `alphabet` has to print, from a table of its own: the characters as TS 23.038 §6.2.1 shows
them, in rows of 16 codes, and the ten of §6.2.1.1. oracle/alphabet.py > crates/alphabet/stdout made the stored output,
which is that of crates/tpdutool_alphabet too."""

ROWS = [
    "@£$¥èéùìòÇ\nØø\rÅå",
    "Δ_ΦΓΛΩΠΨΣΘΞ ÆæßÉ",  # 1B, the escape, shows a space
    " !\"#¤%&'()*+,-./",
    "0123456789:;<=>?",
    "¡ABCDEFGHIJKLMNO",
    "PQRSTUVWXYZÄÖÑÜ§",
    "¿abcdefghijklmno",
    "pqrstuvwxyzäöñüà",
]
AFTER_ESCAPE = {
    0x0A: "\f", 0x14: "^", 0x28: "{", 0x29: "}", 0x2F: "\\", 0x3C: "[", 0x3D: "~", 0x3E: "]", 0x40: "|", 0x65: "€",
}

for septet, character in enumerate("".join(ROWS)):
    print(f"{septet:02X} {ord(character):04X}")
for code, character in sorted(AFTER_ESCAPE.items()):
    print(f"1B{code:02X} {ord(character):04X}")
