"""Scripts whose replies the rules of docs/REGISTRY.md, docs/SCRIPT.md and docs/LOOKUP.md say: pairs
of a line and its reply."""
from urllib.parse import quote_plus

HEADER = "# PCI ID registry\n"


def look_ups(text, answers):
    """An import of a text, of which all is new, and look-ups after it, each with its answer."""
    added = sum(not line.startswith("S ") for line in text.splitlines())
    lines = [(f"import root file={quote_plus(text)}", f"ok added={added} renamed=0 same=0\n")]
    return lines + [(f"lookup {asked}", f"{answer}\n") for asked, answer in answers.items()]


ONE_VENDOR = "8086  Intel Corporation"
A_CARD = (
    "8086  Intel Corporation\n\t1237  440FX\n\t\t1af4 1100  Qemu machine\n1af4  Red Hat, Inc.\n"
)
QEMU = "vendor=8086&device=1237&subvendor=1af4"
INVALID, TOO_SMALL = (
    "text <pci_lookup_name: invalid request>",
    "text <pci_lookup_name: buffer too small>",
)

A_MODERATOR = [
    ("account root who=bob&rank=1", "ok\n"),
    ("submit bob path=PC/8086/1237&name=440FX", "ok 1\n"),
    ("approve root num=1", "refused 11 ParentMissing\n"),
    ("submit bob path=PC/8086&name=Intel", "ok 2\n"),
    ("approve root num=2", "ok\n"),
    ("approve root num=1", "ok\n"),
    ("export", HEADER + "8086  Intel\n\t1237  440FX\n"),
]

ROWS = {
    "a first name": [
        ("account root who=alice&rank=0", "ok\n"),
        ("submit alice path=PC/8086&name=Intel+Corporation", "ok 1\n"),
        ("approve alice num=1", "refused 5 RankTooLow\n"),
        ("approve root num=1", "ok\n"),
        ("export", HEADER + "8086  Intel Corporation\n"),
    ],
    "removals": A_MODERATOR + [
        ("submit bob path=PC/8086&remove=yes", "ok 3\n"),
        ("approve root num=3", "refused 12 HasChildren\n"),
        ("submit bob path=PC/8086/1237&remove=yes", "ok 4\n"),
        ("approve root num=4", "ok\n"),
        ("approve root num=3", "ok\n"),
        ("export", HEADER),
    ],
    "imports": [
        ("import root key=k1&file=8086++Intel%0A", "ok added=1 renamed=0 same=0\n"),
        ("import root key=k1&file=8086++Intel%0A", "ok added=1 renamed=0 same=0\n"),
        ("import root file=8086++Intel%0A", "ok added=0 renamed=0 same=1\n"),
        ("import root file=8086++Intel+Corporation", "ok added=0 renamed=1 same=0\n"),
        ("import root key=k1&file=8086++Intel%0A", "ok added=1 renamed=0 same=0\n"),
        ("read path=PC/8086", "name Intel Corporation\n"),
    ],
    "a faulty file": [
        (
            "import root file=8086++I%0A%091237++A%0A%091237++B",
            "refused 14 FileFault line=3 kind=7 Duplicate\n",
        ),
        ("export", HEADER),
        ("import bob file=8086++I", "refused 4 NoAccount\n"),
        ("account root who=bob&rank=1", "ok\n"),
        ("import bob file=8086++I", "refused 5 RankTooLow\n"),
        ("import bob file=junk", "refused 5 RankTooLow\n"),
        ("export", HEADER),
    ],
    "imports of many kinds": [
        ("import root key=k1&file=8086++Intel", "ok added=1 renamed=0 same=0\n"),
        ("import root key=k1&file=junk", "ok added=1 renamed=0 same=0\n"),
        (
            "import root file=10ec++Realtek%0A8086++Intel+Corporation%0A%091237++440FX",
            "ok added=2 renamed=1 same=0\n",
        ),
        ("import root file=", "ok added=0 renamed=0 same=0\n"),
        ("import root file=%23+nothing", "ok added=0 renamed=0 same=0\n"),
        ("export", HEADER + "10ec  Realtek\n8086  Intel Corporation\n\t1237  440FX\n"),
    ],
    "keys": [
        ("account root who=bob&rank=2&key=a1", "ok\n"),
        ("account root who=bob&rank=0&key=a1", "ok\n"),
        ("submit bob path=PC/8086&name=Intel&key=s1", "ok 1\n"),
        ("submit root path=PC/8086&name=I&key=s1", "ok 2\n"),
        ("submit bob path=PC/10ec&name=Realtek&key=s1", "ok 1\n"),
        ("comment bob num=9&text=seen&key=s1", "ok 1\n"),
        ("reject root num=3&reason=no&key=r1", "refused 7 NoSubmission\n"),
        ("reject root num=1&reason=no&key=r1", "ok\n"),
        ("approve root num=1&key=r1", "ok\n"),
        ("approve root num=1", "refused 8 NotPending\n"),
        ("approve bob num=2", "ok\n"),
        ("account root who=bob&rank=1", "ok\n"),
        ("approve bob num=2", "refused 8 NotPending\n"),
        ("import bob file=8086++Intel", "refused 5 RankTooLow\n"),
        ("export", HEADER + "8086  I\n"),
    ],
    "removals of all kinds": [
        (
            (
                "import root file=8086++a%0A%091237++b%0A%09%091af4+1100++c%0AS+8086%0A%090001++d"
                "%0AC+01++e%0A%0901++f%0A%09%0980++g"
            ),
            "ok added=7 renamed=0 same=0\n",
        ),
        ("account root who=bob&rank=0", "ok\n"),
        ("submit bob path=PC/8086&remove=yes", "ok 1\n"),
        ("submit bob path=PC/8086/1237&remove=yes", "ok 2\n"),
        ("submit bob path=PC/8086/1237/1af41100&remove=yes", "ok 3\n"),
        ("submit bob path=PS/8086/0001&remove=yes", "ok 4\n"),
        ("submit bob path=PD/01&remove=yes", "ok 5\n"),
        ("submit bob path=PD/01/01&remove=yes", "ok 6\n"),
        ("submit bob path=PD/01/01/80&remove=yes", "ok 7\n"),
        ("approve root num=2", "refused 12 HasChildren\n"),
        ("approve root num=3", "ok\n"),
        ("approve root num=2", "ok\n"),
        ("approve root num=1", "refused 12 HasChildren\n"),
        ("approve root num=4", "ok\n"),
        ("approve root num=1", "ok\n"),
        ("approve root num=5", "refused 12 HasChildren\n"),
        ("approve root num=6", "refused 12 HasChildren\n"),
        ("approve root num=7", "ok\n"),
        ("approve root num=6", "ok\n"),
        ("approve root num=5", "ok\n"),
        ("export", HEADER),
    ],
    "the longest texts": [
        (f"account root who={'a' * 32}&rank=2&key={'k' * 64}", "ok\n"),
        (
            f"submit {'a' * 32} path=PC/8086&name={'n' * 1000}&note={'t' * 4000}&key={'k' * 64}",
            "ok 1\n",
        ),
        (f"comment root num=1&text={'t' * 4000}", "ok\n"),
        (f"reject root num=1&reason={'t' * 4000}", "ok\n"),
        (f"reject root num=1&reason={'t' * 4000}", "refused 8 NotPending\n"),
        (f"submit root path=PC/8086&name={'n' * 1000}&note={'t' * 4000}", "ok 2\n"),
        (f"approve {'a' * 32} num=2", "ok\n"),
        (f"submit {'a' * 32} path=PC/8086&name={'n' * 1000}&note={'t' * 4000}", "ok 3\n"),
        ("approve root num=3", "refused 13 NothingToDo\n"),
        (f"withdraw {'a' * 32} num=3", "ok\n"),
    ],
    "limits": [
        ("account root who=bob&rank=1", "ok\n"),
        (f"submit bob path=PC/8086&name={'a' * 1000}", "ok 1\n"),
        (f"submit bob path=PC/8086&name={'a' * 1001}", "refused 2 BadName\n"),
        (f"import root file=8086++{'a' * 1001}", "refused 14 FileFault line=1 kind=6 BadName\n"),
        ("submit root path=PC/80A6&name=x", "refused 1 BadPath\n"),
        (f"comment bob num=1&text=x&key={'k' * 65}", "refused 3 BadText\n"),
        (f"comment bob num=1&text={'x' * 4001}", "refused 3 BadText\n"),
        ("comment bob num=1&num=1&text=x", "refused 3 BadText\n"),
    ],
    "refusals": [
        ("account root who=alice&rank=0", "ok\n"),
        ("submit root path=PC/10ec&name=Realtek", "ok 1\n"),
        ("approve root num=1", "refused 10 OwnDecision\n"),
        ("withdraw alice num=1", "refused 9 NotAuthor\n"),
        ("comment alice num=1&text=seen", "ok\n"),
        ("account root who=root&rank=2", "refused 10 OwnDecision\n"),
        ("account root who=alice&rank=0", "refused 13 NothingToDo\n"),
        ("submit carol path=PC/10ec&name=X", "refused 4 NoAccount\n"),
        ("approve root num=2", "refused 7 NoSubmission\n"),
        ("withdraw root num=1", "ok\n"),
        ("withdraw root num=1", "refused 8 NotPending\n"),
        ("withdraw alice num=1", "refused 9 NotAuthor\n"),
        ("reject alice num=1&reason=no", "refused 8 NotPending\n"),
    ],
    "comments and a rejection": A_MODERATOR[:2] + [
        ("comment root num=1&text=which+stepping?&key=c1", "ok\n"),
        ("comment root num=1&text=which+stepping?&key=c1", "ok\n"),
        ("reject bob num=1&reason=mine", "refused 10 OwnDecision\n"),
        ("reject root num=1&reason=", "refused 3 BadText\n"),
        ("reject root num=1&reason=no+such+device&key=r1", "ok\n"),
        ("reject root num=1&reason=no+such+device&key=r1", "ok\n"),
        ("withdraw bob num=1", "refused 8 NotPending\n"),
        ("export", HEADER),
    ],
    "look-ups of a vendor": look_ups(
        ONE_VENDOR,
        {
            "flags=3&vendor=8086&device=ffff": "text Intel Corporation Device ffff",
            "flags=40003&vendor=8086&device=ffff": "text Intel Corporation Device [8086:ffff]",
            "flags=20003&vendor=8086&device=ffff": "none",
            "flags=10003&vendor=8086&device=ffff": "text 8086:ffff",
        },
    ),
    "look-ups of what has no name": look_ups(
        ONE_VENDOR,
        {
            "flags=3&vendor=1234&device=1111": "text Device 1234:1111",
            "flags=1&vendor=1234": "text Vendor 1234",
            "flags=9&subvendor=1234": "text Unknown vendor 1234",
            "flags=40003&vendor=1234&device=1111": "text Device [1234:1111]",
        },
    ),
    "look-ups of classes": look_ups(
        "C ff  Unassigned class",
        {
            "flags=4&class=ff00": "text Unassigned class [ff00]",
            "flags=10004&class=ff00": "text ff00",
            "flags=4&class=1234": "text Class 1234",
            "flags=20004&class=1234": "none",
            "flags=20004&class=ff00": "text Unassigned class [ff00]",
        },
    ),
    "look-ups of interfaces": look_ups(
        "C 01  Mass storage controller\n\t01  IDE interface",
        {
            "flags=10&class=0101&progif=8a": "text Master SecP PriP",
            "flags=10&class=0101&progif=00": "text ",
            "flags=20010&class=0101&progif=00": "text ",
            "flags=40010&class=0101&progif=00": "text  [00]",
            "flags=10&class=0101&progif=10": "text ProgIf 10",
            "flags=10&class=0102&progif=8a": "text ProgIf 8a",
            "flags=10&class=0101&progif=8f": "text Master SecP SecO PriP PriO",
            "flags=10&class=0101&progif=05": "text SecO PriO",
            "flags=10&class=0101&progif=00&size=0": TOO_SMALL,
        },
    ),
    "look-ups into small buffers": look_ups(
        ONE_VENDOR + "\n1d00  Société",
        {
            "flags=1&vendor=8086&size=18": "text Intel Corporation",
            "flags=1&vendor=8086&size=17": "text Intel Corpora...",
            "flags=1&vendor=8086&size=4": "text ...",
            "flags=1&vendor=8086&size=3": TOO_SMALL,
            "flags=1&vendor=8086&size=0": TOO_SMALL,
            # Cut within a character: the byte is written as surrogateescape has it.
            "flags=1&vendor=1d00&size=9": "text Soci\udcc3...",
            **{
                f"flags=1&vendor=8086&size={size}": f"text {'Intel Corpora'[:size - 4]}..."
                for size in range(4, 18)
            },
            "flags=1&vendor=8086&size=1": TOO_SMALL,
            "flags=1&vendor=8086&size=2": TOO_SMALL,
            "flags=5&size=0": INVALID,
            "flags=10000&size=4": INVALID,
        },
    ),
    "look-ups of a long name": look_ups(
        f"8086  {'n' * 1000}",
        {
            "flags=1&vendor=8086&size=999": f"text {'n' * 995}...",
            "flags=1&vendor=8086&size=1000": f"text {'n' * 996}...",
            **{
                f"flags=1&vendor=8086&size={size}": f"text {'n' * 1000}"
                for size in (1001, 1024, 65_535, 65_536, 999_999_999)
            },
        },
    ),
    "look-ups of subsystems": look_ups(
        A_CARD,
        {
            f"flags=b&{QEMU}&subdevice=1100": "text Red Hat, Inc. Qemu machine",
            f"flags=4000b&{QEMU}&subdevice=1100": "text Red Hat, Inc. Qemu machine [1af4:1100]",
            f"flags=b&{QEMU}&subdevice=1101": "text Red Hat, Inc. Device 1101",
            f"flags=a&{QEMU}&subdevice=1101": "text Device 1101",
            f"flags=4000a&{QEMU}&subdevice=1101": "text Device [1101]",
            "flags=b&vendor=8086&device=1237&subvendor=8086&subdevice=1237": (
                "text Intel Corporation 440FX"
            ),
            (
                "size=000000012&class=0101&subdevice=1100&vendor=8086&flags=0004000b"
                "&subvendor=1AF4&device=1237&progif=8A"
            ): "text Red Hat,...",
        },
    ),
    "look-ups of generic subsystems": look_ups(
        "1af4  Red Hat\n\t0000  Zero\n\t\t1af4 1100  Per device\nS 1af4\n\t1100  Generic\n",
        {
            "flags=a&vendor=1af4&device=0000&subvendor=1af4&subdevice=1100": "text Generic",
        },
    ),
    "look-ups of an own subsystem": look_ups(
        "1af4  Red Hat\n\t0000  Zero\n\t\t1af4 1100  Per device\n\t1000  Net\n"
        "\t\t1af4 1100  Per net\n\t1100  Own\nS 1af4\n\t1100  Generic\n",
        {
            "flags=a&vendor=1af4&device=0000&subvendor=1af4&subdevice=1100": "text Generic",
            "flags=a&vendor=1af4&device=1000&subvendor=1af4&subdevice=1100": "text Per net",
            "flags=a&vendor=1af4&device=1100&subvendor=1af4&subdevice=1100": "text Generic",
            "flags=a&vendor=1af4&device=0000&subvendor=1af4&subdevice=0000": "text Zero",
        },
    ),
    "look-ups after another import": look_ups(A_CARD, {}) + [
        (
            (
                "import root file=1af4++Red+Hat%0A%090000++Zero%0A%09%091af4+1100++Per+device"
                "%0AS+1af4%0A%091100++Generic"
            ),
            "ok added=3 renamed=1 same=0\n",
        ),
        (
            "lookup flags=a&vendor=1af4&device=0000&subvendor=1af4&subdevice=1100",
            "text Generic\n",
        ),
    ],
    "flags of look-ups": look_ups(
        ONE_VENDOR,
        {
            "flags=70001&vendor=8086": "text Intel Corporation [8086]",
            "flags=70001&vendor=1234": "none",
            "flags=30001&vendor=8086": "refused 26 BadFlags",
            "flags=80001&vendor=8086": "refused 26 BadFlags",
            "flags=30000&vendor=8086": "refused 26 BadFlags",
            "flags=80000001&vendor=8086": "refused 26 BadFlags",
            "flags=b0000&vendor=8086": "refused 26 BadFlags",
            "flags=0&vendor=8086": INVALID,
            "flags=5&vendor=8086": INVALID,
            "flags=20&vendor=8086": INVALID,
            "flags=10000&vendor=8086": INVALID,
            "flags=0": INVALID,
            "flags=10000": INVALID,
            "vendor=8086": "refused 3 BadText",
            "flags=30001&vendor=80": "refused 3 BadText",
        },
    ),
    "blocks of generic subsystems": [
        (
            (
                "import root"
                " file=1af4++Red+Hat%0AS+1AF4%0A%091100++Qemu%0A%090001++Net"
                "%0AC+01++Mass%0A8086++I%0AS+1af4%0A%090002++Blk"
            ),
            "ok added=6 renamed=0 same=0\n",
        ),
        (
            "export",
            HEADER
            + "1af4  Red Hat\n8086  I\nC 01  Mass\nS 1af4\n\t0001  Net\n\t0002  Blk\n\t1100 "
            " Qemu\n",
        ),
        ("import root file=1af4++R%0AS+1af4x", "refused 14 FileFault line=2 kind=4 BadId\n"),
        ("import root file=1af4++R%0AS+1af", "refused 14 FileFault line=2 kind=4 BadId\n"),
        (
            "import root file=1af4++R%0AS+1af4%0A%091100++X%0A%09%091++Y",
            "refused 14 FileFault line=4 kind=2 TooDeep\n",
        ),
        (
            "import root file=1af4++R%0AS+1af4%0A%091100++X%0AS+1af4%0A%091100++Z",
            "refused 14 FileFault line=5 kind=7 Duplicate\n",
        ),
        ("import root file=1af4++R%0AS+8086", "refused 14 FileFault line=2 kind=8 VendorMissing\n"),
        (
            "import root file=S+1af4%0A1af4++Red+Hat%0A",
            "refused 14 FileFault line=1 kind=8 VendorMissing\n",
        ),
        ("import root file=1af4++R%0AS+1af4", "ok added=0 renamed=1 same=0\n"),
        ("read path=PS/1af4/1100", "name Qemu\n"),
        ("read path=PS/1af4/0002", "name Blk\n"),
    ],
    # The URL Standard, section 5.1.
    "fields of a form": [
        ("account root who=bob&rank=2", "ok\n"),
        ("submit root &&p%61th=PC/8086&&name=a=b+%2b%2B&", "ok 1\n"),
        ("approve bob num=1", "ok\n"),
        ("read path=PC/8086", "name a=b ++\n"),
        ("submit root path=PC/10ec&name=%ff", "ok 2\n"),
        ("approve bob num=2", "ok\n"),
        ("read path=PC/10ec", "name \ufffd\n"),
        ("submit root path=PC/8086&name", "refused 2 BadName\n"),
        ("submit root path=PC/8086&name=x&=", "refused 3 BadText\n"),
        ("submit root path=PC/8086&name=x&n%61me=x", "refused 3 BadText\n"),
    ],
    "lines that are not clear": [
        ("# a comment", ""),
        ("", ""),
        ("submit root path=PC/8086&name=Intel", "ok 1\n"),
        ("read path=PC/8086", "refused 25 NoItem\n"),
        ("read path=PC/80A6", "refused 1 BadPath\n"),
        ("read path=PC/8086&key=k", "refused 3 BadText\n"),
        ("read ", "refused 3 BadText\n"),
        ("read", "refused 3 BadText\n"),
        ("export ", "refused 3 BadText\n"),
        ("Export", "refused 3 BadText\n"),
        (" export", "refused 3 BadText\n"),
        ("submit root", "refused 3 BadText\n"),
        ("submit root ", "refused 3 BadText\n"),
        ("submit  path=PC/80A6&name=x", "refused 1 BadPath\n"),
        ("submit  path=PC/8086&name=x", "refused 3 BadText\n"),
        ("submit root path=PC/8086&name=x&remove=no", "refused 3 BadText\n"),
        ("submit root path=PC/80A6&remove=no", "refused 1 BadPath\n"),
        ("submit root path=PC/8086&remove=no", "refused 3 BadText\n"),
        ("submit root path=PC/8086&name=a+b c", "ok 2\n"),
        ("comment root num=1&text=a&key=k1&key=k2", "refused 3 BadText\n"),
        ("comment root num=1&text=a&key=", "refused 3 BadText\n"),
        ("nonsense", "refused 3 BadText\n"),
    ],
}
