"""HTML and SVG put together. Whatever is not markup already is escaped."""

from html import escape

VOID = {"meta"}
BARE = {"circle", "line", "path", "polygon", "rect"}  # elements of SVG that are closed at once where nothing is in them


class Markup(str):
    """Text that is markup."""


def written(part):
    return part if isinstance(part, Markup) else escape(str(part))


def joined(parts):
    return Markup("".join(map(written, parts)))


def tag(name, /, *inside, **attributes):
    """An element. `class_` stands for class, an underscore for a hyphen; an attribute that is None or False is left out."""
    head = [name]
    for key, value in attributes.items():
        if value is None or value is False:
            continue
        key = key.rstrip("_").replace("_", "-")
        head.append(key if value is True else f'{key}="{escape(str(value))}"')
    opening = " ".join(head)
    if name in VOID:
        return Markup(f"<{opening}>")
    if not inside and name in BARE:
        return Markup(f"<{opening}/>")
    return Markup(f"<{opening}>{joined(inside)}</{name}>")


def classes(*names):
    """The names that are there, as a class attribute, or None."""
    return " ".join(name for name in names if name) or None


def svg(width, height, /, *inside, left=0, top=0, **attributes):
    """A picture of so many units; it has the size that its place on the page gives it."""
    return tag("svg", *inside, viewBox=f"{left} {top} {width} {height}", **attributes)


def wide(text, size):
    """The units that a text of this size needs in a picture, a little more than most letters do."""
    return len(text) * size * 65 // 100


def scrolled(*inside, class_=None):
    """What may be wider than a narrow screen: it scrolls by itself, so that the page does not."""
    return tag("div", *inside, class_=classes("scroll", class_))


def table(head, rows, class_=None, **attributes):
    """A table of cells that are markup, or texts to be put in one."""
    def cell(name, one):
        return one if isinstance(one, Markup) and one.startswith(("<td", "<th")) else tag(name, one)
    heads = tag("thead", tag("tr", *(cell("th", one) for one in head)))
    body = tag("tbody", *(row if isinstance(row, Markup) else tag("tr", *(cell("td", one) for one in row)) for row in rows))
    return tag("table", heads, body, class_=class_, **attributes)


def heads(*columns):
    """The heads of columns: a name, or a name and the unit of what stands below it."""
    return [column if isinstance(column, str) else f"{column[0]}, {column[1].name}" if column[1].name else column[0] for column in columns]


def unfolded(words, *inside):
    return tag("details", tag("summary", words), *inside)
