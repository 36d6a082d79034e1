#!/usr/bin/env python3
"""Draws the tree that the program prints: its lines on standard input, an SVG picture on standard output."""
import sys

WIDE, HIGH, BOX = 172, 78, 40


def read(lines):
    """The entries in printed order: slot, depth, cut field, numbers by field name."""
    nodes = []
    for line in lines:
        pairs = [p.split("=", 1) for p in line.split()]
        if pairs and pairs[0][0] == "slot":
            head = dict(pairs[:3])
            numbers = [int(v) for _, v in pairs[3:]]
            nodes.append({"slot": head["slot"], "depth": int(head["depth"]), "cut": head["cut"], "numbers": numbers, "sides": [None, None]})
    return nodes


def key(node, cut):
    """The super key: the cut field first, the others after it in turn."""
    at = "abcd".index(cut)
    return node["numbers"][at:] + node["numbers"][:at]


def link(nodes):
    """Gives every node its two sides; an only child's side is told by the order."""
    path = []
    for node in nodes:
        del path[node["depth"]:]
        if path:
            above = path[-1]
            above["sides"][int(key(node, above["cut"]) > key(above, above["cut"]))] = node
        path.append(node)
    return nodes[0] if nodes else None


def place(node, column):
    """Columns in the order left side, entry, right side; returns the next free one."""
    if node is None:
        return column
    column = place(node["sides"][0], column)
    node["column"] = column
    return place(node["sides"][1], column + 1)


def draw(nodes):
    x = lambda n: 20 + n["column"] * WIDE // 2 + WIDE // 2
    y = lambda n: 20 + n["depth"] * HIGH
    deep = max((n["depth"] for n in nodes), default=0)
    width, height = 40 + (len(nodes) + 1) * WIDE // 2, 40 + deep * HIGH + BOX
    out = [f'<svg xmlns="http://www.w3.org/2000/svg" width="{width}" height="{height}" font-family="monospace" font-size="12">']
    for n in nodes:
        for side in n["sides"]:
            if side:
                out.append(f'<line x1="{x(n)}" y1="{y(n) + BOX}" x2="{x(side)}" y2="{y(side)}" stroke="#777"/>')
    for n in nodes:
        text = " ".join(f"{f}={v}" for f, v in zip("abcd", n["numbers"]))
        out.append(f'<rect x="{x(n) - WIDE // 2 + 4}" y="{y(n)}" width="{WIDE - 8}" height="{BOX}" rx="6" fill="#f4f1e8" stroke="#444"/>')
        out.append(f'<text x="{x(n)}" y="{y(n) + 16}" text-anchor="middle">{text}</text>')
        out.append(f'<text x="{x(n)}" y="{y(n) + 32}" text-anchor="middle" fill="#777">slot {n["slot"]}, cut {n["cut"]}</text>')
    out.append("</svg>")
    return "\n".join(out)


def main():
    nodes = read(sys.stdin)
    place(link(nodes), 0)
    print(draw(nodes))


main()
