"""A plot of lines through points, as SVG text."""

WIDE, HIGH, LEFT, RIGHT, LOW = 790, 460, 90, 230, 50
COLOURS = ("#1b6ca8", "#c0392b", "#2e8b57", "#8e44ad", "#d68910", "#16a085", "#7f8c8d", "#5d4037", "#d81b60", "#212121")


def steps(most, count=5):
    """Round numbers from 0 up, about `count` of them."""
    raw = max(most, 1) / count
    size = 10 ** (len(str(int(raw))) - 1)
    step = next(factor * size for factor in (1, 2, 5, 10) if factor * size >= raw)
    return range(0, int(most) + 1, int(step))


def svg(title, across, up, lines):
    """lines: (name, dashed, points as (x, y)); lines of one name share a colour."""
    most_x = max(x for _, _, points in lines for x, _ in points) or 1
    most_y = max(y for _, _, points in lines for _, y in points) or 1
    names = list(dict.fromkeys(name.split(",")[0] for name, _, _ in lines))

    def at(x, y):
        return LEFT + x / most_x * (WIDE - LEFT - RIGHT), HIGH - LOW - y / most_y * (HIGH - LOW - 40)

    out = [f'<svg xmlns="http://www.w3.org/2000/svg" width="{WIDE}" height="{HIGH}" font-family="sans-serif" font-size="12">',
           f'<rect width="{WIDE}" height="{HIGH}" fill="white"/>', f'<text x="{LEFT}" y="22" font-size="15">{title}</text>']
    right, top = at(most_x, most_y)
    for x in steps(most_x):
        px, py = at(x, 0)
        out += [f'<path d="M{px:.1f} {py:.1f}V{top:.1f}" stroke="#ddd"/>', f'<text x="{px:.1f}" y="{py + 16:.1f}" text-anchor="middle">{x:,}</text>']
    for y in steps(most_y):
        px, py = at(0, y)
        out += [f'<path d="M{px:.1f} {py:.1f}H{right:.1f}" stroke="#ddd"/>', f'<text x="{px - 6:.1f}" y="{py + 4:.1f}" text-anchor="end">{y:,}</text>']
    out += [f'<text x="{(LEFT + right) / 2:.1f}" y="{HIGH - 12}" text-anchor="middle">{across}</text>',
            f'<text transform="translate(14 {HIGH / 2:.1f}) rotate(-90)" text-anchor="middle">{up}</text>']
    for number, (name, dashed, points) in enumerate(lines):
        colour = COLOURS[names.index(name.split(",")[0]) % len(COLOURS)]
        path = " ".join(f"{px:.1f},{py:.1f}" for px, py in (at(*point) for point in points))
        dash = ' stroke-dasharray="5 4"' if dashed else ""
        out.append(f'<polyline points="{path}" fill="none" stroke="{colour}" stroke-width="1.6"{dash}/>')
        out += [f'<circle cx="{px:.1f}" cy="{py:.1f}" r="3" fill="{colour}"/>' for px, py in (at(*point) for point in points)]
        row = 50 + 18 * number
        out += [f'<path d="M{right + 16:.1f} {row - 4}h26" stroke="{colour}" stroke-width="1.6"{dash}/>', f'<text x="{right + 48:.1f}" y="{row}">{name}</text>']
    return "\n".join(out + ["</svg>"]) + "\n"
