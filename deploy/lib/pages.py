"""The pages of the published folder: what visitors see first, and what those without scripts read.

Vendors, classes and all that others are below have a page. The others are composed by nginx: it has
their names from `names/8086.html`, a file for each vendor and class in its language SSI, and puts
them into `leaf.html`. So it composes the search page, for those without scripts.
"""
import html
import itertools
import os
import re

from files import write_file
from items import number_of, shown
from words import PAGE, words_of

# Without an index.html that has all places, pages are this one.
PLAIN = """<!doctype html>
<html lang="en">
<head>
<meta charset="utf-8">
<title></title>
<meta name="viewport" content="width=device-width, initial-scale=1">
<meta name="description" content="">
</head>
<body>
<main>
<noscript></noscript>
</main>
</body>
</html>
"""
SITE = "PCI ID registry"
# Of a vendor with more items below it, their names are in a file for each first digit.
MOST_BELOW = 100
KINDS = {
    ("PC", 1): "Vendor", ("PC", 2): "Device", ("PC", 3): "Subsystem", ("PD", 1): "Class",
    ("PD", 2): "Subclass", ("PD", 3): "Programming interface", ("PS", 2): "Generic subsystem",
}
# What is in a page, as the application shows it in its place.
CRUMBS = '<nav class="crumbs" aria-label="Where this is"><ol>{steps}</ol></nav>\n'
STEP = '<li><a href="/item/{path}"><code>{number}</code> <bdi>{name}</bdi></a></li>'
TEXT = """<h1 tabindex="-1"><bdi>{name}</bdi></h1>
<dl class="facts"><dt>Kind</dt><dd>{kind}</dd><dt>Path</dt><dd><code>{path}</code></dd>
<dt>In pci.ids</dt><dd class="line"><pre>{front}<bdi>{number}  {name}</bdi></pre></dd></dl>
<p class="buttons"><a class="button" href="/propose?path={path}">Propose another name</a></p>
"""


def kind_of(path):
    return KINDS[path[:2], path.count("/")]


def below_title(item):
    kinds = {"Vendor": "Devices", "Device": "Subsystems", "Class": "Subclasses"}
    return kinds.get(kind_of(item.path), "Programming interfaces")


def rows(items):
    """A list of items."""
    lines = [f'<li><a href="/item/{it.path}"><code>{html.escape(it.number)}</code>'
             f" <bdi>{shown(it.name)}</bdi></a></li>\n" for it in items]
    return f'<ol class="items">\n{"".join(lines)}</ol>\n'


def above(path):
    """The paths of the items that one is below, from the top."""
    parts = path.replace("PS/", "PC/").split("/")
    return ["/".join(parts[: at + 1]) for at in range(1, len(parts) - 1)]


def root_of(path):
    words = "Classes" if path.startswith("PD") else "Vendors"
    return f'<li><a href="/{words.lower()}">{words}</a></li>'


def step_of(item):
    return STEP.format(path=item.path, number=html.escape(item.number), name=shown(item.name))


def item_page(item, items):
    """The title and the text of the page of an item."""
    higher = [items[it] for it in above(item.path)]
    steps = root_of(item.path) + "".join(map(step_of, [*higher, item]))
    text = CRUMBS.format(steps=steps) + TEXT.format(
        name=shown(item.name), kind=kind_of(item.path), path=item.path,
        front=re.match(r"\t*(?:C )?", item.line)[0], number=item.number)
    generic = [it for it in item.below if it.path.startswith("PS/")]
    below = [it for it in item.below if not it.path.startswith("PS/")]
    if below:
        text += f"<h2>{below_title(item)}</h2>\n{rows(below)}"
    if generic:
        text += f"<h2>Generic subsystems</h2>\n{rows(generic)}"
    names = [f"{number_of(item.path)} {shown(item.name)}", *(shown(it.name) for it in higher[::-1])]
    return " · ".join(names), text


def list_page(title, root, items):
    found = [it for it in items.values() if it.path.startswith(root) and it.path.count("/") == 1]
    return title, f'<h1 tabindex="-1">{title}</h1>\n{rows(found)}'


ABSENT = """<h1>No such page</h1>
<p>There is nothing at this address. Try <a href="/">the first page</a>,
<a href="/vendors">the vendors</a> or <a href="/classes">the classes</a>.</p>
"""


def pages_of(items):
    """The places of all pages, each with its title and its text."""
    yield "404.html", ("No such page", ABSENT)
    yield "vendors.html", list_page("Vendors", "PC/", items)
    yield "classes.html", list_page("Classes", "PD/", items)
    for path, item in items.items():
        if item.has_page():
            yield f"item/{path}.html", item_page(item, items)


def put(name, value):
    """A variable of SSI. Its value is markup, in which nginx finds neither ends nor variables."""
    for it in "\\$'":
        value = value.replace(it, f"&#{ord(it)};")
    return f"<!--# set var='{name}' value='{value}' -->"


def names_below(top, below, items):
    """The names of items below a vendor or class, for `leaf.html` and `search.html`."""
    parts = [put("root", root_of(top.path)), put("first", step_of(top)),
             put("firstname", f" · {shown(top.name)}")]
    middle = {it.path.rpartition("/")[0] for it in below if it.path.count("/") == 3}
    parts += [f"<!--# if expr='$pciids_item = /^{path.replace('/', chr(92) + '/')}.+/' -->"
              f"{put('second', step_of(items[path]))}"
              f"{put('secondname', f' · {shown(items[path].name)}')}<!--# endif -->"
              for path in sorted(middle)]
    parts += [f"<!--# if expr='$pciids_item = {it.path}' -->{put('name', shown(it.name))}"
              "<!--# endif -->" for it in below]
    return "".join(parts)


def echo(name):
    return f"<!--# echo var='{name}' encoding='none' default='' -->"


def leaf_page():
    """The title and the text of the page that nginx puts names into, where it has them."""
    place = "pciids_item"
    last = STEP.format(path=echo(place), number=echo("pciids_number"), name=echo("name"))
    text = CRUMBS.format(steps=echo("root") + echo("first") + echo("second") + last)
    text += TEXT.format(name=echo("name"), kind=echo("pciids_kind"), path=echo(place),
                        front=echo("pciids_front"), number=echo("pciids_number"))
    title = f"{echo('pciids_whole')} {echo('name')}{echo('secondname')}{echo('firstname')}"
    return title, f"<!--# if expr='$name' -->{text}<!--# endif -->"


class Template:
    """The site's page with places for a title, a description and what is shown at first."""

    PLACES = (r"(.*<title>).*?(</title>.*)", r'(.*<meta name="description" content=").*?(">.*)',
              r"(.*)(</head>.*)", r"(.*)<noscript>.*?</noscript>(.*)")

    def __init__(self, page):
        self.parts = self.cut(page) or self.cut(PLAIN)

    def cut(self, page):
        """The parts of a page between its places, which are in this order; or None."""
        parts = []
        for form in self.PLACES:
            found = re.fullmatch(form, page, re.S)
            if not found:
                return None
            parts, page = [*parts, found[1]], found[2]
        return [*parts, page]

    def filled(self, title, text, head=""):
        plain = re.sub(r"<(?!!)[^>]*>", "", title)
        values = (f"{title} · {SITE}", f"{plain}: its name in pci.ids, and what it was called before",
                  head, text, "")
        return "".join(part + value for part, value in zip(self.parts, values))


CANONICAL = '<link rel="canonical" href="/{}">\n'


def head_of(place, public):
    """Links of the head of a page: its own address, and the feed of a vendor or class that has
    one."""
    path = place.removesuffix(".html")
    feed = f"feeds/{path.removeprefix('item/')}.atom"
    links = CANONICAL.format(path)
    if path.count("/") == 2 and os.path.exists(os.path.join(public, feed)):
        links += (f'<link rel="alternate" type="application/atom+xml" title="What changed here"'
                  f' href="/{feed}">\n')
    return links


def files_of(items, template, public):
    """The places of all pages, each with its text."""
    for place, (title, text) in pages_of(items):
        head = "" if place == "404.html" else head_of(place, public)
        yield place, template.filled(title, text, head)


def parts_of(items, template):
    """The places of the pages that nginx composes, and of what it puts into them."""
    names = "<!--# include virtual='/names/$pciids_top' wait='yes' -->"
    place = f"item/{echo('pciids_item')}"
    yield "leaf.html", names + template.filled(*leaf_page(), CANONICAL.format(place))
    yield "search.html", template.filled("Search", PAGE)
    for name, below in below_tops(items).items():
        top = above(below[0].path)[0]
        yield f"names/{name}.html", names_below(items[top], below, items)
    for name, text in words_of(items).items():
        yield f"words/{name}.html", text


def below_tops(items):
    """The items below others by the files that have their names: one for a vendor or class, or, of
    many, one for each first digit of what is below."""
    below, found = {}, {}
    for path, item in items.items():
        if path.count("/") > 1:
            below.setdefault(path.split("/")[1], []).append(item)
    for top, its in below.items():
        for it in its:
            digit = f"-{it.path.split('/')[2][0]}" if len(its) > MOST_BELOW else ""
            found.setdefault(top + digit, []).append(it)
    return found


# nginx puts the address of the site in place of this one.
HOST = "https://site.invalid"
MAP = '''<?xml version="1.0" encoding="UTF-8"?>
<{kind} xmlns="http://www.sitemaps.org/schemas/sitemap/0.9">
{places}</{kind}>
'''
# A file of the map has at most 50,000 addresses.
MOST_PLACES = 40_000


def maps_of(items):
    """The map of the site for search engines: its files, and one that lists them."""
    places = ["/", "/vendors", "/classes", "/recent", *(f"/item/{path}" for path in items)]
    parts = [places[at : at + MOST_PLACES] for at in range(0, len(places), MOST_PLACES)]
    for at, part in enumerate(parts, 1):
        rows = "".join(f"<url><loc>{HOST}{it}</loc></url>\n" for it in part)
        yield f"sitemap-{at}.xml", MAP.format(kind="urlset", places=rows)
    rows = "".join(f"<sitemap><loc>{HOST}/sitemap-{at}.xml</loc></sitemap>\n"
                   for at in range(1, len(parts) + 1))
    yield "sitemap.xml", MAP.format(kind="sitemapindex", places=rows)


def write_pages(public, items, template):
    """Returns how many pages were written and how many removed."""
    for place, text in maps_of(items):
        write_file(os.path.join(public, place), text.encode())
    wanted, written = set(), 0
    pages = files_of(items, template, public), parts_of(items, template)
    for place, text in itertools.chain(*pages):
        path = os.path.join(public, place)
        wanted.add(path)
        written += write_file(path, text.encode())
    gone = 0
    for folder, _, names in os.walk(public):
        for path in {os.path.join(folder, it) for it in names if ".html" in it} - wanted:
            os.remove(path)
            gone += path.endswith(".html")
    return written, gone
