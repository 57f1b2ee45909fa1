"""The benchmark's table as a picture: time a gate against the bond cap, and the ratio of port to Rust, both on log scales."""
import math

WIDE, HIGH, LEFT, TOP, GAP = 300, 220, 56, 30, 76
LINES = [("port", "#1f5fa8", ""), ("Rust", "#c0552b", ""), ("Rust, our root", "#c0552b", "4 3")]


def place(value, low, high, length):
    return length * (math.log(value) - math.log(low)) / (math.log(high) - math.log(low))


def panel(x0, title, caps, series, ticks):
    """One panel: for each line the points over the caps, with the ticks of the vertical axis."""
    low, high = ticks[0], ticks[-1]
    x = lambda d: x0 + place(d, caps[0], caps[-1], WIDE)
    y = lambda v: TOP + HIGH - place(v, low, high, HIGH)
    out = [f'<text x="{x0}" y="{TOP - 12}" font-weight="bold">{title}</text>']
    for t in ticks:
        out.append(f'<path d="M{x0} {y(t):.1f}H{x0 + WIDE}" stroke="#ddd"/><text x="{x0 - 6}" y="{y(t) + 4:.1f}" text-anchor="end">{t:,}</text>')
    for d in caps:
        out.append(f'<text x="{x(d):.1f}" y="{TOP + HIGH + 18}" text-anchor="middle">D {d}</text>')
    for values, (_, colour, dash) in series:
        points = " ".join(f"{x(d):.1f},{y(v):.1f}" for d, v in zip(caps, values))
        out.append(f'<polyline points="{points}" fill="none" stroke="{colour}" stroke-width="2" stroke-dasharray="{dash}"/>')
    return "\n".join(out)


def picture(rows):
    """The SVG of the rows (circuit, microseconds of port, Rust, and Rust with our root) of brickwork on 16 qubits."""
    rows = [(int(name.split()[-1]), *times) for name, *times in rows if name.startswith("brickwork n 16 ")]
    caps, port, rust, rooted = (list(column) for column in zip(*rows))
    times = [(port, LINES[0]), (rust, LINES[1]), (rooted, LINES[2])]
    ratios = [([a / b for a, b in zip(port, rust)], ("", LINES[0][1], "")), ([a / b for a, b in zip(port, rooted)], ("", LINES[0][1], "4 3"))]
    right = LEFT + WIDE + GAP
    keys = "".join(
        f'<path d="M{LEFT + 150 * k} {TOP + HIGH + 42}h24" stroke="{c}" stroke-width="2" stroke-dasharray="{dash}"/><text x="{LEFT + 150 * k + 30}" y="{TOP + HIGH + 46}">{name}</text>'
        for k, (name, c, dash) in enumerate(LINES)
    )
    return (
        f'<svg xmlns="http://www.w3.org/2000/svg" width="{right + WIDE + 20}" height="{TOP + HIGH + 60}" font-family="sans-serif" font-size="12">\n'
        '<rect width="100%" height="100%" fill="white"/>\n'
        + panel(LEFT, "brickwork n 16: µs a gate", caps, times, [1, 10, 100, 1000, 10000, 100000])
        + "\n"
        + panel(right, "port / Rust (dashed: equal roots)", caps, ratios, [0.5, 1, 2])
        + f"\n{keys}\n</svg>\n"
    )
