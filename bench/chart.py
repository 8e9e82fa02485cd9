"""Draws some rows of a table of bench/calls.c as a bar chart, in SVG."""

# The rows of the chart, by their first two cells.
ROWS = [
    ("checksum", 1500),
    ("read ARP", 0),
    ("read UDP/IPv4", 64),
    ("read TCP/IPv4 data", 64),
    ("read TCP/IPv6 SYN", 0),
    ("emit UDP/IPv4", 64),
    ("emit TCP/IPv4 data", 64),
    ("emit frame TCP/IPv6 SYN", 0),
    ("rebuild UDP/IPv6", 64),
    ("rebuild TCP/IPv4 data", 64),
    ("parse IPv6 full", 38),
    ("print IPv6 full", 38),
]
SERIES = [("ours", "ip_wire", "#0b6e99"), ("reference", "smoltcp", "#b8bec4"), ("floor", "C by hand", "#e0a030")]
LEFT, BARS, RIGHT, TOP = 230, 380, 90, 40
GREY = 'font-size="10" fill="#666"'
BAR, GAP = 11, 12  # height of a bar, and space between rows


def cells_of(table):
    """The cells of each line of a Markdown table that has a number of bytes."""
    for line in table:
        cells = [cell.strip() for cell in line.strip().strip("|").split("|")]
        if len(cells) == 10 and cells[1].isdigit():
            yield cells


def times(table):
    """{(call, bytes): ({series: nanoseconds}, instructions)} of the lines of a Markdown table."""
    rows = {}
    for call, size, *cells in cells_of(table):
        named = zip(("ours", "reference", "floor"), cells)
        rows[call, int(size)] = {name: float(cell) for name, cell in named if cell}, cells[-1]
    return rows


def text(x, y, words, extra=""):
    return f'<text x="{x}" y="{y}" {extra}>{words}</text>'


def bars(row, y):
    """The bars of a row, one below another; the longest takes the whole width."""
    longest = max(row.values())
    for name, _, colour in SERIES:
        if name in row:
            width = BARS * row[name] / longest
            yield f'<rect x="{LEFT}" y="{y}" width="{width:.1f}" height="{BAR}" fill="{colour}"/>'
            yield text(f"{LEFT + width + 5:.1f}", y + BAR - 2, f"{row[name]:.1f} ns", 'font-size="10"')
            y += BAR


def draw(table, commit):
    """The chart of those ROWS that the table has. tests/docs/speed.py finds the instructions in it."""
    rows = times(table)
    shown = [key for key in ROWS if key in rows]
    parts, y = [], TOP
    for call, size in shown:
        row, count = rows[call, size]
        middle = y + BAR * len(row) / 2
        parts += [text(LEFT - 10, middle, f"{call}, {size} bytes", 'text-anchor="end"'),
                  text(LEFT - 10, middle + 12, f"{count} instructions", f'text-anchor="end" {GREY}'), *bars(row, y)]
        y += BAR * len(row) + GAP
    x = LEFT
    for name, title, colour in SERIES:
        if any(name in rows[key][0] for key in shown):
            parts += [f'<rect x="{x}" y="14" width="12" height="12" fill="{colour}"/>', text(x + 17, 24, title)]
            x += 110
    width = LEFT + BARS + RIGHT
    parts.append(text(width - 10, 24, commit, f'text-anchor="end" {GREY}'))
    head = (f'<svg xmlns="http://www.w3.org/2000/svg" width="{width}" height="{y}" viewBox="0 0 {width} {y}" '
            'font-family="sans-serif" font-size="12" fill="#222">')
    return "\n".join([head, f'<rect width="{width}" height="{y}" fill="#fff"/>', *parts, "</svg>", ""])
