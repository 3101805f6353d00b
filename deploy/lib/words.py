"""The search without scripts: nginx puts into `search.html` the names that have a word, from a file
for all words that begin with the same two letters. SSI has no `if` within another."""
import html
import re
import urllib.parse

from items import number_of, shown

WORD = re.compile(r"[^\W_]{2,}")
MOST = 20
FOUND = """<!--# if expr='$pciids_word = /(?i)^{word}(?!.)/' --><!--# set var='found' value='{count}' -->
<ol class="items">
{rows}</ol><!--# endif -->
"""
ROW = '<li><a href="/item/{path}"><code>{number}</code> {name}</a>\n'
PAGE = """<noscript>
<h1>Search</h1>
<p>Without JavaScript the box above finds a number, such as <code>8086:1237</code>, or the names
that have a word.</p>
<!--# include virtual='/names/$pciids_top' wait='yes' -->
<!--# if expr='$name' --><p><a href="/item/<!--# echo var='pciids_item' -->"><code><!--# echo
var='pciids_whole' --></code> <!--# echo var='name' encoding='none' --></a><!--# echo
var='firstname' encoding='none' --></p><!--# endif -->
<!--# set var='asked' value='$pciids_item;$name' -->
<!--# if expr='$asked = /^P.*;(?!.)/' --><p><code><!--# echo
var='pciids_whole' --></code> has no name.</p><!--# endif -->
<!--# include virtual='/words/$pciids_letters' wait='yes' -->
<!--# if expr='$pciids_word' --><p>Found with the first word: <!--# echo var='found'
default='none' -->.</p><!--# endif -->
</noscript>"""


def letters_of(word):
    """The file of a word, which is spelt as in an address."""
    return word[:2] if word[:2].isalnum() else "other"


def row_of(item):
    return ROW.format(path=item.path, number=html.escape(number_of(item.path)),
                      name=shown(item.name))


def items_by_word(items):
    """The items whose names have a word, and vendors, classes and devices by their numbers."""
    found = {}
    for path, item in items.items():
        words = set(WORD.findall(item.name.lower()))
        if path.count("/") == 1 or len(item.number) == 4:
            words.add(item.number)
        for word in words:
            found.setdefault(word, []).append(item)
    return found


def said_of(word, its):
    """What is shown for a word: vendors and classes first."""
    first = sorted(its, key=lambda it: it.path.count("/") > 1)[:MOST]
    count = f"{len(its):,}" if len(its) <= MOST else f"{len(its):,}, the first {MOST} of them here"
    return FOUND.format(word=word, count=count, rows="".join(map(row_of, first)))


def words_of(items):
    """The files of words by their names."""
    parts = {}
    for word, its in sorted(items_by_word(items).items()):
        spelt = urllib.parse.quote(word)
        parts.setdefault(letters_of(spelt), []).append(said_of(spelt, its))
    return {name: "".join(its) for name, its in parts.items()}
