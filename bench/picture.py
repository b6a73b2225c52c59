"""Bars as an SVG picture, readable on light and on dark ground."""

COLOURS = ["#4e79a7", "#e08a2e", "#59a14f"]
GREY = "#7b7b7b"  # stands out from white and from black
LEFT, WIDTH, BAR, GAP, TOP = 220, 480, 13, 14, 46


def text(x, y, words, anchor="start"):
    return '<text x="%.1f" y="%.1f" text-anchor="%s">%s</text>' % (x, y, anchor, words)


def bars(title, groups, series):
    """`groups` is a list of (name, values), one value for each name in `series`; a line stands at 1."""
    most = max(value for _, values in groups for value in values)
    scale = WIDTH / most
    height = TOP + len(groups) * (len(series) * BAR + GAP) + 8
    out = [
        '<svg xmlns="http://www.w3.org/2000/svg" width="760" height="%d" viewBox="0 0 760 %d" role="img">' % (height, height),
        "<title>%s</title>" % title,
        "<style>text { font: 12px sans-serif; fill: %s } line { stroke: %s; stroke-dasharray: 3 3 }</style>" % (GREY, GREY),
        text(8, 18, title),
    ]
    for i, name in enumerate(series):
        out.append('<rect x="%d" y="28" width="10" height="10" fill="%s"/>' % (LEFT + 110 * i, COLOURS[i]))
        out.append(text(LEFT + 14 + 110 * i, 37, name))
    y = TOP
    for name, values in groups:
        out.append(text(LEFT - 8, y + len(series) * BAR / 2 + 4, name, "end"))
        for colour, value in zip(COLOURS, values):
            out.append('<rect x="%d" y="%d" width="%.1f" height="%d" fill="%s"/>' % (LEFT, y, value * scale, BAR - 2, colour))
            out.append(text(LEFT + value * scale + 5, y + BAR - 3, "%.2f" % value))
            y += BAR
        y += GAP
    out.append('<line x1="%.1f" y1="%d" x2="%.1f" y2="%d"/>' % (LEFT + scale, TOP - 4, LEFT + scale, height - 8))
    out.append("</svg>")
    return "\n".join(out) + "\n"
