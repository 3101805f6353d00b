"""Small files whose canonical text, or whose fault, the rules of docs/FILE_FORMAT.md say."""
PRINTED = {
    "no line": (b"", b""),
    "vendors in any order and case": (
        b"8086   Intel\n\t1237\t 440FX\n10EC\tRealtek\n",
        b"10ec  Realtek\n8086  Intel\n\t1237  440FX\n",
    ),
    "blanks at the end stay": (b"8086  a\tb #  \n", b"8086  a\tb #  \n"),
    "comments and blank lines close nothing": (
        b"8086  I\n# c\n\n\t1237  X",
        b"8086  I\n\t1237  X\n",
    ),
    "CR LF": (b"8086  I\r\n\t1237  X\r\n", b"8086  I\n\t1237  X\n"),
    "an unknown block is skipped": (b"A b\n\tjunk\n\t\t\t\tdeep\n8086  I", b"8086  I\n"),
    "all kinds": (
        (
            b"1af4  Red Hat\nS 1AF4\n\t1100  Qemu\n\t0001  Net\nC 01  Mass\n8086  I\nS 1af4\n\t0002"
            b"  Blk\n"
        ),
        b"1af4  Red Hat\n8086  I\nC 01  Mass\nS 1af4\n\t0001  Net\n\t0002  Blk\n\t1100  Qemu\n",
    ),
    "a block without entries is not printed": (b"1af4  R\nS 1af4", b"1af4  R\n"),
}

REFUSED = {
    "a space in front": (b" 8086  I", b"line 1: 4 BadId"),
    "digits alone": (b"8086", b"line 1: 4 BadId"),
    "no name": (b"8086 ", b"line 1: 5 NoName"),
    "a subsystem without a device": (b"8086  I\n\t\t1af4 1100  X", b"line 2: 3 NoParent"),
    "three tabs": (b"8086  I\n\t\t\tx", b"line 2: 2 TooDeep"),
    "three tabs before any head": (b"\t\t\tx", b"line 1: 2 TooDeep"),
    "a device without a vendor": (b"\t1237  X", b"line 1: 3 NoParent"),
    "one digit of a class": (b"C 1  x", b"line 1: 4 BadId"),
    "a class without a name": (b"C 01", b"line 1: 4 BadId"),
    "a vendor twice": (b"8086  I\n8086  J", b"line 2: 7 Duplicate"),
    "a comment that is no text": (b"#\xff", b"line 1: 1 NotUtf8"),
    "a name that is too long": (b"8086  " + b"a" * 1001, b"line 1: 6 BadName"),
    "a vendor that is missing": (b"S 1af4\n1af4  Red Hat\n", b"line 1: 8 VendorMissing"),
    "a letter behind the vendor of a block": (b"1af4  R\nS 1af4x", b"line 2: 4 BadId"),
    "three digits of the vendor of a block": (b"1af4  R\nS 1af", b"line 2: 4 BadId"),
    "two tabs in a block": (b"1af4  R\nS 1af4\n\t1100  X\n\t\t1  Y", b"line 4: 2 TooDeep"),
    "a generic subsystem twice": (
        b"1af4  R\nS 1af4\n\t1100  X\nS 1af4\n\t1100  Z",
        b"line 5: 7 Duplicate",
    ),
    "the vendor of a block is another": (b"1af4  R\nS 8086", b"line 2: 8 VendorMissing"),
}
