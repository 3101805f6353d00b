"""Lines of scripts by the form of their fields: the refusal of a form that breaks a rule (1, 2 or
3), or `good`. `*N` is N times the letter before it."""
import re

TEXT = """\
account root who=bob&rank=0 | good
account root rank=3&who=bob | good
account root who=bob&rank=4 | 3
account root who=bob&rank=01 | 3
account root who=bob | 3
account root rank=1 | 3
account root who=bob&rank=1&rank=1 | 3
account root who=bob&rank=1&note=x | 3
account root who=Bob&rank=1 | 3
account root who=&rank=1 | 3
account root who=a*32&rank=1 | good
account root who=a*33&rank=1 | 3
account root who=alice-2&rank=1 | good
account root who=abcdefghijklmnopqrstuvwxyz012345&rank=1 | good
account root who=6789&rank=1 | good
account root who=a+b&rank=1 | 3
account Root who=bob&rank=1 | 3
account  who=bob&rank=1 | 3
account root who=bob&rank=1&key=k1 | good
account root who=bob&rank=1&key= | 3
account root who=bob&rank=1&key=a*64 | good
account root who=bob&rank=1&key=a*65 | 3
account root who=bob&rank=1&key=!~ | good
account root who=bob&rank=1&key=a+b | 3
account root who=bob&rank=1&key=é | 3
account root who=bob&rank=1&key=k2&key=k2 | 3
Account root who=bob&rank=1 | 3
import root file=8086++I | good
import root file= | good
import root file=#*4194304 | good
import root file=#*4194305 | 3
import root file=#*4194305&key=k1 | 3
import carol file=#*4194305 | 3
import root  | 3
import root file=a&file=a | 3
submit root path=PC/8086&name=Intel | good
submit root remove=yes&path=PC/8086/1237 | good
submit root path=PC/8086/1237/1af41100&name=x&note= | good
submit root path=PD/01&name=x | good
submit root path=PD/01/01&name=x | good
submit root path=PD/01/01/80&name=x | good
submit root path=PS/1af4/1100&name=x | good
submit root path=&name=x | 1
submit root path=PC&name=x | 1
submit root path=PC/&name=x | 1
submit root path=PC/80A6&name=x | 1
submit root path=PC/8086/&name=x | 1
submit root path=PC/8086/1237/1af4&name=x | 1
submit root path=PC/8086/1237/1af4/1100&name=x | 1
submit root path=PC/8086/1237/1af41100/&name=x | 1
submit root path=PD/0101&name=x | 1
submit root path=PS/1af4&name=x | 1
submit root path=pc/8086&name=x | 1
submit root path=PC/8086&name=a*1000 | good
submit root path=PC/8086&name=a*1001 | 2
submit root path=PC/8086&name=Société | good
submit root path=PC/8086&name=a%09b+#++ | good
submit root path=PC/8086&name= | 2
submit root path=PC/8086&name= x | 2
submit root path=PC/8086&name=%09x | 2
submit root path=PC/8086&name=a%0Ab | 2
submit root path=PC/8086&name=a%7F | 2
submit root path=PC/8086&name=x  | good
submit root path=PC/8086&remove=no | 3
submit root path=PC/8086 | 3
submit root name=x | 3
submit root path=PC/8086&name=x&remove=yes | 3
submit root path=PC/8086&name=x&name=x | 3
submit root path=PC/8086&path=PC/8086&name=x | 3
submit root path=PC/8086&name=x&note=a*4000 | good
submit root path=PC/8086&name=x&note=a*4001 | 3
submit root path=PC/8086&name=x&note=+seen%09 | good
submit root path=PC/8086&name=x&note=a%0Ab | 3
submit root path=PC/8086&name=x&note=a&note=a | 3
submit root path=PC/80A6&name=x&text=x | 3
submit Root path=PC/80A6&name= | 1
submit Root path=PC/8086&name= | 2
submit Root path=PC/8086&remove=no | 3
submit root path=PC/80A6&remove=no&key= | 1
comment alice num=1&text=seen | good
comment alice num=1&text= | 3
comment alice num=1&text=a*4000 | good
comment alice num=1&text=a*4001 | 3
comment alice num=1 | 3
comment alice text=seen | 3
comment alice num=1&text=a&text=a | 3
withdraw alice num=1 | good
withdraw alice num=2000000000 | good
withdraw alice num=2000000001 | 3
withdraw alice num=10000000000 | 3
withdraw alice num=0 | 3
withdraw alice num=01 | 3
withdraw alice num=%2B1 | 3
withdraw alice num= | 3
withdraw alice num=1&num=1 | 3
withdraw alice num=1&text=a | 3
approve alice num=1 | good
approve alice num=x | 3
approve alice path=PC/8086 | 3
approve alice num=1&was=a | 3
confirm alice num=1&was=a | good
confirm alice num=1&was= | good
confirm alice was=a&num=2000000000 | good
confirm alice num=1 | 3
confirm alice was=a | 3
confirm alice num=x&was=a | 3
confirm alice num=1&was=a&was=a | 3
confirm alice num=1&was=a*1000 | good
confirm alice num=1&was=a*1001 | 3
confirm alice num=1&name=a | 3
reject alice num=1&reason=no | good
reject alice num=1&reason= | 3
reject alice num=1&reason=a*4000 | good
reject alice num=1&reason=a*4001 | 3
reject alice num=1&text=no | 3
lookup flags=ffffffff | good
lookup size=999999999&flags=0 | good
lookup vendor=8086 | 3
lookup flags= | 3
lookup flags=123456789 | 3
lookup flags=0x1 | 3
lookup flags=%2B1 | 3
lookup flags=1g | 3
lookup flags=1&flags=1 | 3
lookup flags=1&size= | 3
lookup flags=1&size=1234567890 | 3
lookup flags=1&size=1f | 3
lookup flags=1&size=-1 | 3
lookup flags=1&vendor=808 | 3
lookup flags=1&vendor=08086 | 3
lookup flags=1&vendor= | 3
lookup flags=1&vendor=%2B808 | 3
lookup flags=1&device=12 7 | 3
lookup flags=1&vendor=8086&vendor=8086 | 3
lookup flags=1&progif=8 | 3
lookup flags=1&progif=080 | 3
lookup flags=1&Vendor=8086 | 3
lookup flags=1&= | 3
lookup flags=1&key=k | 3
"""


def long_texts(line):
    return re.sub(r"(.)\*(\d+)", lambda it: it[1] * int(it[2]), line)


ROWS = [(long_texts(line), want) for line, want in (it.split(" | ") for it in TEXT.splitlines())]
