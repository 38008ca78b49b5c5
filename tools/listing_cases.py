#!/usr/bin/env python3
"""Makes the input and the expected lines of the program `listing_cases`.

    python3 tools/listing_cases.py        writes crates/listing_cases/stdin and crates/listing_cases/stdout

The listings are worked out here from 004's tables 7 to 10, typed anew below, and from the columns that are published. The answers to the texts
are docs/CASES.md's, in the program's order, and were worked by hand.
"""
# 004, tables 7 and 8: the opcode in the columns immediate, direct, index, extended, 0 where there is none.
MEMORY = """
ADDA 8B 9B AB BB  ADDB CB DB EB FB  ADDD C3 D3 E3 F3  ADCA 89 99 A9 B9  ADCB C9 D9 E9 F9  ANDA 84 94 A4 B4  ANDB C4 D4 E4 F4
BITA 85 95 A5 B5  BITB C5 D5 E5 F5  CLR 0 0 6F 7F  CMPA 81 91 A1 B1  CMPB C1 D1 E1 F1  COM 0 0 63 73  NEG 0 0 60 70  DEC 0 0 6A 7A
EORA 88 98 A8 B8  EORB C8 D8 E8 F8  INC 0 0 6C 7C  LDAA 86 96 A6 B6  LDAB C6 D6 E6 F6  LDD CC DC EC FC  ORAA 8A 9A AA BA  ORAB CA DA EA FA
ROL 0 0 69 79  ROR 0 0 66 76  ASL 0 0 68 78  ASR 0 0 67 77  LSR 0 0 64 74  STAA 0 97 A7 B7  STAB 0 D7 E7 F7  STD 0 DD ED FD
SUBA 80 90 A0 B0  SUBB C0 D0 E0 F0  SUBD 83 93 A3 B3  SBCA 82 92 A2 B2  SBCB C2 D2 E2 F2  TST 0 0 6D 7D
CPX 8C 9C AC BC  LDX CE DE EE FE  LDS 8E 9E AE BE  STX 0 DF EF FF  STS 0 9F AF BF  JMP 0 0 6E 7E  JSR 0 9D AD BD
"""
# Tables 7 to 10, implied. In table 9 extended JSR is printed 8D: it is BD (01).
IMPLIED = """
ABA 1B  CLRA 4F  CLRB 5F  CBA 11  COMA 43  COMB 53  NEGA 40  NEGB 50  DAA 19  DECA 4A  DECB 5A  INCA 4C  INCB 5C  MUL 3D  PSHA 36  PSHB 37
PULA 32  PULB 33  ROLA 49  ROLB 59  RORA 46  RORB 56  ASLA 48  ASLB 58  ASLD 05  ASRA 47  ASRB 57  LSRA 44  LSRB 54  LSRD 04  SBA 10
TAB 16  TBA 17  TSTA 4D  TSTB 5D  DEX 09  DES 34  INX 08  INS 31  TXS 35  TSX 30  ABX 3A  PSHX 3C  PULX 38
NOP 01  RTI 3B  RTS 39  SWI 3F  WAI 3E  CLC 0C  CLI 0E  CLV 0A  SEC 0D  SEI 0F  SEV 0B  TAP 06  TPA 07
"""
RELATIVE = """
BRA 20  BRN 21  BHI 22  BLS 23  BCC 24  BCS 25  BNE 26  BEQ 27  BVC 28  BVS 29  BPL 2A  BMI 2B  BGE 2C  BLT 2D  BGT 2E  BLE 2F  BSR 8D
"""
# 01's list.
UNDEFINED = """
00 02 03 12 13 14 15 18 1A 1C 1D 1E 1F 41 42 45 4B 4E 51 52 55 5B 5E 61 62 65 6B 71 72 75 7B 87 8F C7 CD CF
"""
# Immediate operands of two bytes.
WORDS = {"ADDD", "SUBD", "LDD", "CPX", "LDX", "LDS"}


def pairs(text, width):
    words = text.split()
    return [(words[k], words[k + 1:k + 1 + width]) for k in range(0, len(words), 1 + width)]


def table():
    """By opcode: the mnemonic, and how its operand is written."""
    codes = {}
    for name, row in pairs(MEMORY, 4):
        for place, op in zip(("immediate", "direct", "indexed", "extended"), row):
            if op != "0":
                codes[int(op, 16)] = name, "word" if place == "immediate" and name in WORDS else place
    for name, [op] in pairs(IMPLIED, 1):
        codes[int(op, 16)] = name, "none"
    for name, [op] in pairs(RELATIVE, 1):
        codes[int(op, 16)] = name, "relative"
    undefined = {int(op, 16) for op in UNDEFINED.split()}
    assert len(codes) == 220 and set(range(256)) - set(codes) == undefined
    return codes


CODES = table()
LENGTH = {"none": 1, "immediate": 2, "direct": 2, "indexed": 2, "relative": 2, "word": 3, "extended": 3}


def operand(place, at, code):
    if place == "none":
        return ""
    value = code[1:].hex().upper()
    if place == "relative":
        return f"${(at + 2 + code[1] - 256 * (code[1] > 127)) % 65536:04X}"
    return {"immediate": f"#${value}", "word": f"#${value}", "indexed": f"${value},X"}.get(place, f"${value}")


def line(at, code):
    """The line of the instruction that `code` begins with, or of a data byte, and how many bytes it has."""
    name, place = CODES.get(code[0], ("", "none"))
    if not name or len(code) < LENGTH[place]:
        code, text = code[:1], f"FCB  ${code[0]:02X}"
    else:
        code = code[:LENGTH[place]]
        text = f"{name:4} {operand(place, at, code)}".rstrip()
    return f"{at:04X}  {code.hex(' ').upper():8}  {text}\n", len(code)


def listing(first, code):
    text, at = "", 0
    while at < len(code):
        one, size = line(first + at, code[at:])
        text, at = text + one, at + size
    return text


def shown(first, last, code):
    """What the program prints of a range: the listing, and the listing assembled."""
    held = code[:last + 1 - first]
    text = listing(first, held)
    return f"list {first:04X} {last:04X} wrote {len(text)}\n{text}back wrote {len(held)} at {first:04X} differing 0\n"


def every_opcode():
    """Every opcode in order, its operand bytes counted on from 00; then each branch with the offsets 00, 7F, 80, FF."""
    code, operand_byte = b"", 0
    for op in range(256):
        size = LENGTH[CODES[op][1]] if op in CODES else 1
        code += bytes([op]) + bytes((operand_byte + k) % 256 for k in range(size - 1))
        operand_byte += size - 1
    for _, [op] in pairs(RELATIVE, 1):
        code += b"".join(bytes([int(op, 16), offset]) for offset in (0x00, 0x7F, 0x80, 0xFF))
    return code


def ranges():
    """First, last, and the code from the first on: every opcode; a branch at both ends of memory; ends that cut an instruction off; all undefined."""
    code = every_opcode()
    yield 0x0100, 0x0100 + len(code) - 1, code
    for first in (0x0000, 0x0080, 0xFFFC):
        for offset in (0x00, 0x7F, 0x80, 0xFF):
            yield first, first + 1, bytes([0x20, offset])
    for first, last, digits in ((0xFFFE, 0xFFFF, "20 00"), (0xFFFE, 0xFFFF, "01 86"), (0xFFFE, 0xFFFF, "B6 00"), (0xFFFF, 0xFFFF, "39"),
                                (0xFFFF, 0xFFFF, "20"), (0x0200, 0x0200, "B6 12 34"), (0x0200, 0x0201, "B6 12 34"), (0x0200, 0x0202, "B6 12 34"),
                                (0x0200, 0x0201, "CE 86 01"), (0x0200, 0x0200, "86 01")):
        yield first, last, bytes.fromhex(digits)
    yield 0x0000, 0x0023, bytes.fromhex(UNDEFINED)


# By hand: a title, the answer, and the text; where none is told the title is the statement of one line at $0100.
TEXTS = r"""
0000 to 0082: refused 14 line 1 | 0000  20 80     BRA  $0082\n
0000 to FF81: refused 14 line 1 | 0000  20 7F     BRA  $FF81\n
0080 to 0102: refused 14 line 1 | 0080  20 80     BRA  $0102\n
0080 to 0001: refused 14 line 1 | 0080  20 7F     BRA  $0001\n
FFFC to 007E: refused 14 line 1 | FFFC  20 80     BRA  $007E\n
FFFC to FF7D: refused 14 line 1 | FFFC  20 7F     BRA  $FF7D\n
the published lines: wrote 9 at 0100 86 05 B6 00 12 20 FE 87 01 | 0100  86 05     LDAA #$05\n0102  B6 00 12  LDAA $0012\n0105  20 FE     BRA  $0105\n0107  87        FCB  $87\n0108  01        NOP\n
no text: empty | 
from FFFE to 0000: wrote 2 at FFFE 20 00 | FFFE  20 00     BRA  $0000\n
two bytes at FFFE: wrote 2 at FFFE 86 05 | FFFE  86 05     LDAA #$05\n
three bytes at FFFD: wrote 3 at FFFD B6 00 12 | FFFD  B6 00 12  LDAA $0012\n
one byte at FFFF: wrote 1 at FFFF 01 | FFFF  01        NOP\n
a data byte at FFFF: wrote 1 at FFFF 86 | FFFF  86        FCB  $86\n
FCB of a defined opcode: wrote 2 at 0100 01 86 | 0100  01        FCB  $01\n0101  86        FCB  $86\n
other bytes there: wrote 1 at 0100 01 | 0100  FF FF FF  NOP\n
blanks there: wrote 2 at 0100 86 05 | 0100            LDAA #$05\n
small letters there: wrote 3 at 0100 B6 00 1F | 0100  b6 00 1f  LDAA $001F\n
CR and tab there: wrote 1 at 0100 01 | 0100  \r\t\r\t\r\t\r\t  NOP\n
0 and 255 there: wrote 1 at 0100 01 | 0100  \x00\xFF\x00\xFF\x00\xFF\x00\xFF  NOP\n
a line there: wrote 2 at 0100 01 01 | 0100  NOP\x0D;$#,  NOP\n0101  ????????  NOP\n
LF in column 7: refused 13 line 1 | 0100  \n         NOP\n
LF in column 10: refused 13 line 1 | 0100  01 \n      NOP\n
LF in column 14: refused 13 line 1 | 0100  01     \n  NOP\n
seven there: refused 13 line 1 | 0100  01       NOP\n
nine there: refused 13 line 1 | 0100  01         NOP\n
lower case: refused 13 line 2 | 0100  01        NOP\n0101  01        nop\n
one small letter: refused 13 line 2 | 0100  01        NOP\n0101  86 05     LDAa #$05\n
a small digit in the address: refused 13 line 1 | 010a  01        NOP\n
a small digit in the operand: refused 13 line 1 | 0100  86 0F     LDAA #$0f\n
a small x: refused 13 line 1 | 0100  A6 05     LDAA $05,x\n
Y for X: refused 13 line 1 | 0100  A6 05     LDAA $05,Y\n
G for a digit: refused 13 line 1 | 0100  86 05     LDAA #$0G\n
a colon for a digit: refused 13 line 1 | 0100  86 05     LDAA #$:5\n
a sign for a digit: refused 13 line 1 | -100  01        NOP\n
no $: refused 13 line 1 | 0100  86 05     LDAA #005\n
% for $: refused 13 line 1 | 0100  86 05     LDAA #%05\n
no #$: refused 13 line 1 | 0100  96 05     LDAA 05\n
CR before LF: refused 13 line 1 | 0100  01        NOP\r\n0101  01        NOP\r\n
CR after an operand: refused 13 line 1 | 0100  86 05     LDAA #$05\r\n
CR in the last line: refused 13 line 2 | 0100  01        NOP\n0101  01        NOP\r\n
CR for LF: refused 13 line 1 | 0100  01        NOP\r0101  01        NOP\r
tab after the address: refused 13 line 1 | 0100\t01        NOP\n
tabs after the address: refused 13 line 1 | 0100\t\t01        NOP\n
tab before the operand: refused 13 line 1 | 0100  86 05     LDAA\t#$05\n
tabs before the mnemonic: refused 13 line 1 | 0100  01      \t\tNOP\n
a blank at the front: refused 13 line 1 |  0100  01        NOP\n
a blank at the end: refused 13 line 1 | 0100  01        NOP \n
a blank at an operand's end: refused 13 line 1 | 0100  86 05     LDAA #$05 \n
one blank after the address: refused 13 line 1 | 0100 01        NOP\n
one blank before the operand: refused 13 line 1 | 0100  20 FE     BRA $0100\n
two blanks before the operand: refused 13 line 1 | 0100  86 05     LDAA  #$05\n
a blank in the operand: refused 13 line 1 | 0100  A6 05     LDAA $05, X\n
A0 for a blank: refused 13 line 1 | 0100\xA0\xA001        NOP\n
0 for a blank: refused 13 line 1 | 0100\x00\x0001        NOP\n
a digit short: refused 13 line 1 | 0100  86 05     LDAA #$5\n
a digit long: refused 13 line 1 | 0100  86 05     LDAA #$005\n
a word's digit short: refused 13 line 1 | 0100  B6 00 12  LDAA $012\n
a word's digit long: refused 13 line 1 | 0100  B6 00 12  LDAA $00012\n
an address of three digits: refused 13 line 1 | 100  01        NOP\n
an address of five digits: refused 13 line 1 | 00100  01        NOP\n
two letters: refused 13 line 1 | 0100  01        NO\n
five letters: refused 13 line 1 | 0100  01        NOPNO\n
no mnemonic: refused 13 line 1 | 0100  01        \n
no bytes column: refused 13 line 1 | 0100  NOP\n
an address alone: refused 13 line 1 | 0100\n
one character: refused 13 line 1 | 0
no LF: refused 13 line 1 | 0100  01        NOP
no LF after an operand: refused 13 line 1 | 0100  86 05     LDAA #$05
no last LF: refused 13 line 2 | 0100  01        NOP\n0101  01        NOP
an empty line alone: refused 13 line 1 | \n
an empty line first: refused 13 line 1 | \n0100  01        NOP\n
an empty line between: refused 13 line 2 | 0100  01        NOP\n\n0101  01        NOP\n
an empty line last: refused 13 line 2 | 0100  01        NOP\n\n
a byte 0 last: refused 13 line 2 | 0100  01        NOP\n\x00
a blank last: refused 13 line 2 | 0100  01        NOP\n 
a comment after it: refused 13 line 1 | 0100  01        NOP ; nothing\n
a comment's line: refused 13 line 2 | 0100  01        NOP\n; nothing\n
a star's line: refused 13 line 2 | 0100  01        NOP\n* nothing\n
a label: refused 13 line 1 | START 0100  01        NOP\n
NEG  $12: refused 13 line 1
STAA #$12: refused 13 line 1
LDX  #$12: refused 13 line 1
LDAA #$1234: refused 13 line 1
LDAA: refused 13 line 1
STX  #$1234: refused 13 line 1
JSR  #$1234: refused 13 line 1
JMP  $12: refused 13 line 1
CLR  $12: refused 13 line 1
TST  #$12: refused 13 line 1
BRA  $12: refused 13 line 1
BRA  #$12: refused 13 line 1
BRA  $12,X: refused 13 line 1
BSR: refused 13 line 1
NOP  $12: refused 13 line 1
NEGA $1234: refused 13 line 1
NEG: refused 13 line 1
ASLD $12: refused 13 line 1
PSHX $12: refused 13 line 1
FCB: refused 13 line 1
FCB  #$12: refused 13 line 1
FCB  $1234: refused 13 line 1
FCB  $12,X: refused 13 line 1
FCB  $12,$34: refused 13 line 1
LDA  #$12: refused 13 line 1
LSL  $1234: refused 13 line 1
LSLD: refused 13 line 1
BHS  $0102: refused 13 line 1
BLO  $0102: refused 13 line 1
CPXA #$12: refused 13 line 1
SLP: refused 13 line 1
XGDX: refused 13 line 1
ORG  $0100: refused 13 line 1
FDB  $1234: refused 13 line 1
LDA A #$12: refused 13 line 1
LDX  #$1234: wrote 3 at 0100 CE 12 34
LDX  $12: wrote 2 at 0100 DE 12
LDX  $0012: wrote 3 at 0100 FE 00 12
LDX  $12,X: wrote 2 at 0100 EE 12
JSR  $12: wrote 2 at 0100 9D 12
JSR  $0012: wrote 3 at 0100 BD 00 12
NEGA: wrote 1 at 0100 40
NEG  $12,X: wrote 2 at 0100 60 12
NEG  $0012: wrote 3 at 0100 70 00 12
TST  $0012: wrote 3 at 0100 7D 00 12
CPX  #$0012: wrote 3 at 0100 8C 00 12
SUBD #$0012: wrote 3 at 0100 83 00 12
ASLD: wrote 1 at 0100 05
PSHX: wrote 1 at 0100 3C
a gap: refused 13 line 2 | 0100  01        NOP\n0102  01        NOP\n
the same address: refused 13 line 2 | 0100  01        NOP\n0100  01        NOP\n
backward: refused 13 line 2 | 0100  01        NOP\n00FF  01        NOP\n
into the one before: refused 13 line 2 | 0100  86 05     LDAA #$05\n0101  05        ASLD\n
in the third line: refused 13 line 3 | 0100  01        NOP\n0101  86 05     LDAA #$05\n0102  01        NOP\n
after FFFF: refused 13 line 2 | FFFF  01        NOP\n0000  01        NOP\n
after two bytes at FFFE: refused 13 line 2 | FFFE  86 05     LDAA #$05\n0000  01        NOP\n
three bytes at FFFE: refused 13 line 1 | FFFE  B6 00 12  LDAA $0012\n
three bytes at FFFF: refused 13 line 1 | FFFF  B6 00 12  LDAA $0012\n
two bytes at FFFF: refused 13 line 1 | FFFF  86 05     LDAA #$05\n
a branch at FFFF: refused 13 line 1 | FFFF  20 FE     BRA  $FFFF\n
good, then a gap: refused 13 line 3 | 0100  01        NOP\n0101  01        NOP\n0103  01        NOP\n
14 in the second line: refused 14 line 2 | 0100  01        NOP\n0101  20 00     BRA  $0400\n
14 and a gap: refused 13 line 2 | 0100  01        NOP\n0102  20 00     BRA  $0400\n
14 and CR: refused 13 line 2 | 0100  01        NOP\n0101  20 00     BRA  $0400\r\n
14 and past FFFF: refused 13 line 1 | FFFF  20 00     BRA  $8000\n
14, then 13: refused 14 line 2 | 0100  01        NOP\n0101  20 00     BRA  $0400\n0103  01        nop\n
13, then 14: refused 13 line 2 | 0100  01        NOP\n0101  01        nop\n0102  20 00     BRA  $0400\n
14, then another: refused 14 line 2 | 0100  01        NOP\n0101  20 00     BRA  $0400\n0103  8D 00     BSR  $0400\n
14 in the first line: refused 14 line 1 | 0100  8D 00     BSR  $0400\n0102  01        NOP\n
the farthest: refused 14 line 1 | 0100  20 00     BRA  $8102\n
"""
ROOMS = """
list 0000 0000 refused 1
list 0000 0000 refused 1
list 0000 0000 refused 1
list 0001 0000 refused 1
list 0001 0000 refused 22
list FFFF FFFE refused 22
list 0000 00010000 refused 22
list 00010000 00010000 refused 22
list 00010001 00010000 refused 22
list 00010000 FFFF refused 22
list 0000 FFFFFFFF refused 22
list FFFFFFFF FFFFFFFF refused 22
list FFFFFFFF 0000 refused 22
list 0000 FFFF refused 23
list 0000 0001 refused 23
past 0
list 0001 0000 refused 22
past 0
list 0000 0001 refused 23
past 49
list 0000 0001 wrote 50
past 50
list 0000 0001 wrote 50
past 64
assemble no room: refused 23
past 0
assemble room for 8: refused 23
past 8
assemble room for 9: wrote 9 at 0100 86 05 B6 00 12 20 FE 87 01
past 9
assemble 13 without room: refused 13 line 1
past 0
assemble 14 without room: refused 14 line 1
past 0
assemble no text and no room: empty
past 0
"""
MANY = """
assemble 70000 lines: refused 13 line 65537
assemble 65537 lines: refused 13 line 65537
assemble 65536 lines, room for 65535: refused 23
back wrote 65536 at 0000 differing 0
list 0000 FFFF refused 23
list 0000 FFFF wrote 1638400
back wrote 65536 at 0000 differing 0
"""


def texts():
    """Title, text and answer: one beyond either end of every branch's reach at $0100, and then the texts above."""
    for name, _ in pairs(RELATIVE, 1):
        for target in ("$0081", "$0182"):
            yield f"{name}  {target}", f"0100            {name}  {target}\n", "refused 14 line 1"
    for case in TEXTS.strip().splitlines():
        told, bar, text = case.partition(" |")
        title, answer = told.split(": ", 1)
        yield title, text[1:].encode("latin-1").decode("unicode_escape") if bar else f"0100            {title}\n", answer


def record(data):
    return len(data).to_bytes(2, "little") + data


def main():
    shows, cases = list(ranges()), list(texts())
    with open("crates/listing_cases/stdin", "wb") as stdin:
        stdin.write(len(shows).to_bytes(2, "little") + len(cases).to_bytes(2, "little"))
        for first, last, code in shows:
            stdin.write(record(first.to_bytes(2, "little") + last.to_bytes(2, "little") + code))
        for title, text, _ in cases:
            stdin.write(record(title.encode()) + record(text.encode("latin-1")))
    with open("crates/listing_cases/stdout", "w") as stdout:
        stdout.write("".join(shown(*show) for show in shows))
        stdout.write("".join(f"assemble {title}: {answer}\n" for title, _, answer in cases))
        stdout.write(ROOMS[1:] + MANY[1:])


if __name__ == "__main__":
    main()
