"""Draws how many bits are x over time, as SVG without anything beside it, and writes numbers and tables as a page has them."""
import html
import itertools

from xrepair_lib.nets import KINDS

BOX = (900, 200)  # of the large chart


def escaped(text):
    return html.escape(str(text))


def count(number):
    return f"{number:,}"


def average(number):
    """A number that may be an average."""
    return f"{number:,.1f}".replace(".0", "")


def many(number, word):
    """A number of things, with their word."""
    return f"{count(number)} {word}{'' if number == 1 else 's'}"


def numbers(pairs):
    """Numbers with what they count."""
    yield "<dl>"
    yield from (f"<div><dt>{escaped(word)}</dt><dd>{escaped(value)}</dd></div>" for word, value in pairs)
    yield "</dl>"


def table(heads, rows, rest=""):
    """A table, and what is said of rows left out. A head that begins with # is that of numbers, one that begins with = of names."""
    kinds = [{"#": ' class="n"', "=": ' class="name"'}.get(head[0], "") for head in heads]
    shown = (f"<th{kind}>{escaped(head.lstrip('#='))}</th>" for kind, head in zip(kinds, heads))
    yield f"<table><thead><tr>{''.join(shown)}</tr></thead><tbody>"
    for row in rows:
        yield "<tr>" + "".join(f"<td{kind}>{escaped(cell)}</td>" for kind, cell in zip(kinds, row)) + "</tr>"
    yield "</tbody></table>"
    if rest:
        yield f'<p class="dim">{escaped(rest)}</p>'


def left_out(all_of, shown, word, more=""):
    """What is said of rows that aren't shown."""
    return f"And {many(all_of - shown, word)} more{more}." if all_of > shown else ""


def short(number):
    """A number with one digit after the point, where that isn't 0."""
    return f"{number:.1f}".replace(".0", "")


def steps(edges, levels):
    """The rest of a path that goes from the first edge to the last, at one level between each two."""
    turns = (at for at in range(1, len(levels)) if levels[at] != levels[at - 1])
    return "".join(f"H{short(edges[at])}V{short(levels[at])}" for at in turns) + f"H{short(edges[-1])}"


def area(edges, tops, lows):
    """The path of an area between two rows of levels, in as many pieces as it has columns without any between them."""
    parts, number = [], 0
    for is_any, columns in itertools.groupby(zip(tops, lows), key=lambda pair: pair[0] != pair[1]):
        upper, lower = zip(*columns)
        first, number = number, number + len(upper)
        if is_any:
            between = edges[first : number + 1]
            there, back = steps(between, upper), steps(between[::-1], lower[::-1])
            parts.append(f"M{short(between[0])},{short(upper[0])}{there}V{short(lower[-1])}{back}Z")
    return "".join(parts)


def areas(heights, edges, scale, bottom):
    """The areas of the kinds, one on the other."""
    base = [0] * len(heights[0])
    for kind, row in zip(KINDS, heights):
        top = [sum(pair) for pair in zip(base, row)]
        if any(row):
            levels = ([bottom - value * scale for value in values] for values in (top, base))
            yield f'<path class="{kind}" d="{area(edges, *levels)}"/>'
        base = top


def large_chart(bits):
    """The x bits over time: unknown, undecided and repaired ones on each other, and as a line what was recorded."""
    width, height = BOX
    moments, heights = bits.moments, bits.heights()
    left, right, bottom = 56, width - 8, height - 24
    recorded = [sum(column) for column in zip(*heights)]
    most = max(recorded) or 1
    starts = moments.starts()
    edges = [left + (right - left) * (time - starts[0]) / (starts[-1] - starts[0]) for time in starts]
    scale = (bottom - 10) / most
    levels = [bottom - value * scale for value in recorded]
    yield f'<svg viewBox="0 0 {width} {height}" role="img" aria-label="x bits over time: at most {average(most)} recorded">'
    for value in round_numbers(0, int(most), 3) or [0]:
        at = bottom - value * scale
        yield f'<path class="grid" d="M{left},{at:.1f}H{right}"/>'
        yield f'<text x="{left - 6}" y="{at + 4:.1f}" text-anchor="end">{count(value)}</text>'
    yield from areas(heights, edges, scale, bottom)
    yield f'<path class="recorded" d="M{left},{short(levels[0])}{steps(edges, levels)}"/>'
    for time in round_numbers(moments.times[0], moments.times[-1], 8):
        at = left + (right - left) * (time - starts[0]) / (starts[-1] - starts[0])
        yield f'<path class="grid" d="M{at:.1f},{bottom}v4"/><text x="{at:.0f}" y="{height - 6}" text-anchor="middle">{time}</text>'
    yield "</svg>"


def round_numbers(first, last, most):
    """Round numbers from the first to the last, about as many of them."""
    step = 1
    while (last - first) / step > most:
        step = step * 5 // 2 if str(step)[0] == "2" else step * 2
    return range(-(-first // step) * step, last + 1, step)


def small_chart(bits, most):
    """The same of a scope, without its axes."""
    moments = bits.moments
    starts = moments.starts()
    edges = [200 * (time - starts[0]) // (starts[-1] - starts[0]) for time in starts]
    yield '<svg class="small" viewBox="0 0 200 24" preserveAspectRatio="none" aria-hidden="true">'
    yield from areas(bits.heights(), edges, 24 / max(most, 1), 24)
    yield "</svg>"
