"""Draws the shares of the servers of pools, which bench/scale.py writes to docs/scale_shares.svg.

Each pool is a column, and each server in it two dots: its share of the keys, and its share of the requests, as multiples of an even
share. The picture has colours for a light ground and for a dark one.
"""

WIDTH, HEIGHT = 760, 420
LEFT, RIGHT, TOP, BOTTOM = 70, 740, 60, 360
APART = 22  # from the middle of a pool's column to its dots

STYLE = """
text { font: 13px system-ui, 'DejaVu Sans', sans-serif; fill: #1b1f24 }
.ground { fill: #ffffff }
.middle { text-anchor: middle }
.end { text-anchor: end }
.line { stroke: #d5d9de; stroke-width: 1 }
.even { stroke: #6b737c; stroke-width: 1.5 }
.keys { fill: #0b5cad }
.requests { fill: #b15c00 }
circle { fill-opacity: 0.55 }
@media (prefers-color-scheme: dark) {
text { fill: #e6e9ed }
.ground { fill: #14171b }
.line { stroke: #343a42 }
.even { stroke: #8d96a1 }
.keys { fill: #6db3f8 }
.requests { fill: #f0a04b }
}
"""


def height_of(share, most):
    """The height of a share, from the top."""
    return BOTTOM - (BOTTOM - TOP) * share / most


def text(x, y, words, kind=""):
    return f'<text x="{x:.0f}" y="{y:.0f}" class="{kind}">{words}</text>'


def scale_lines(most):
    for share in range(most + 1):
        y = height_of(share, most)
        kind = "even" if share == 1 else "line"
        yield f'<line class="{kind}" x1="{LEFT}" y1="{y:.1f}" x2="{RIGHT}" y2="{y:.1f}"/>'
        yield text(LEFT - 10, y + 4, "even" if share == 1 else f"{share} times" if share else "0", "end")


def legend():
    for x, kind, words in ((LEFT, "keys", "share of the keys"), (LEFT + 190, "requests", "share of the requests, keys by Zipf's law")):
        yield f'<circle class="{kind}" cx="{x + 6}" cy="30" r="5"/>'
        yield text(x + 18, 34, words)


def column(x, kind, ratios, most):
    for ratio in sorted(ratios):
        yield f'<circle class="{kind}" cx="{x:.1f}" cy="{height_of(ratio, most):.1f}" r="4"/>'


def picture(pools):
    """The picture of some pools: of each its number of servers, and these servers' shares of keys and of requests."""
    most = 1 + int(max(ratio for shares in pools.values() for ratios in shares for ratio in ratios))
    step = (RIGHT - LEFT) / len(pools)
    out = [
        f'<svg xmlns="http://www.w3.org/2000/svg" width="{WIDTH}" height="{HEIGHT}" viewBox="0 0 {WIDTH} {HEIGHT}" role="img">',
        "<title>Each server's share of the keys and of the requests, as a multiple of an even share</title>",
        f"<style>{STYLE}</style>",
        f'<rect class="ground" width="{WIDTH}" height="{HEIGHT}"/>',
        *scale_lines(most),
        *legend(),
    ]
    for number, (count, (keys, requests)) in enumerate(pools.items()):
        x = LEFT + step * (number + 0.5)
        out += column(x - APART, "keys", keys, most)
        out += column(x + APART, "requests", requests, most)
        out.append(text(x, BOTTOM + 24, f"{count}", "middle"))
    out.append(text((LEFT + RIGHT) / 2, BOTTOM + 46, "servers of the pool", "middle"))
    return "\n".join([*out, "</svg>", ""])
