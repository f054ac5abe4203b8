"""Section texts that tests make: boxes, stacks, and texts at the limits of what a text may hold."""

HEAD = "SECTIONS 1\nCOST span\nPAIR {}\n"


def text(sections, rule="overlap", links=""):
    """Gives a section text of these sections, as bytes."""
    return (HEAD.format(rule) + "".join(sections) + links + "END\n").encode()


def contour(name, points):
    """Gives the lines of a contour."""
    return f"CONTOUR {name} {len(points)}\n" + "".join(f"{x} {y}\n" for x, y in points)


def section(height, *contours):
    """Gives the lines of a section."""
    return f"SECTION {height}\n" + "".join(contours)


def square(name):
    """Gives the lines of a square of side 10."""
    return contour(name, [(0, 0), (10, 0), (10, 10), (0, 10)])


def squares(names, apart=10):
    """Gives equal squares of these names, one above the other."""
    return text(section(apart * k, square(name)) for k, name in enumerate(names))


def flat(name, count, left, low, high, apart=1):
    """Gives a flat contour: points along its lower side, so far apart, and two above its ends."""
    right = left + (count - 3) * apart
    side = [(left + k * apart, low) for k in range(count - 2)]
    return contour(name, [*side, (right, high), (left, high)])


def rectangle(side):
    """Gives a ring of so many points on each of its long sides, 10 apart; these sides lie 1,000 from one another."""
    along = [10 * k for k in range(side)]
    return [(x, 0) for x in along] + [(x, 1000) for x in reversed(along)]


def box(sections, side):
    """Gives so many sections of such a rectangle, 10 apart, named `c0` and on."""
    ring = rectangle(side)
    return text(section(10 * k, contour(f"c{k}", ring)) for k in range(sections))


def dense_box(sections, side):
    """Gives what `densify` writes of such a box: between two rectangles one with the middles of its edges."""
    ring = rectangle(side)
    middles = [((x + u) // 2, (y + v) // 2) for (x, y), (u, v) in zip(ring, ring[1:] + ring[:1])]
    between = [point for pair in zip(ring, middles) for point in pair]
    lines = [section(0, contour("c0", ring))]
    for k in range(1, sections):
        lines += [section(10 * k - 5, contour(f"m{k}", between)), section(10 * k, contour(f"c{k}", ring))]
    return text(lines, "links", "".join(f"LINK c{k - 1} m{k}\nLINK m{k} c{k}\n" for k in range(1, sections)))


def demo(seed, sections, vertices):
    """Gives the stack that `demo` makes of these numbers, by the words of docs/formats.md."""
    lines, state = [], seed
    for s in range(sections):
        points = []
        for t in range(vertices):
            state = (1103515245 * state + 12345) % 2**31
            x, y = border(8000 * t // vertices)
            radius = 100 + state // 65536 % 100
            points.append((radius * x, radius * y))
        lines.append(section(1000 * s, contour(f"c{s}", points)))
    return text(lines)


def border(place):
    """Gives the point at a place of the border of a square of side 2,000 round the origin, from (1000, -1000) on."""
    side, rest = divmod(place, 2000)
    return [(1000, rest - 1000), (1000 - rest, 1000), (-1000, 1000 - rest), (rest - 1000, -1000)][side]


def comb(height, contours, points, last):
    """Gives a section of flat contours beside one another, of so many points each; the last one has other points."""
    lines = []
    for place in range(contours):
        count = last if place + 1 == contours else points
        left = place * points
        along = [(left + step, 0) for step in range(1, count)]
        lines.append(contour(f"c{height}_{place}", [*along, (left + 1, 1)]))
    return section(height, *lines)


def combs(sections, contours, points, last):
    """Gives so many such sections, without links; the very last contour has another number of points."""
    return text(
        (comb(z, contours, points, last if z + 1 == sections else points) for z in range(sections)),
        "links",
    )


def triangles(sections, contours, last):
    """Gives so many sections of so many equal triangles; the last one has another number of them."""
    lines = []
    for z in range(sections):
        count = last if z + 1 == sections else contours
        lines.append(section(z, *(contour(f"c{z}_{k}", [(0, 0), (1, 0), (0, 1)]) for k in range(count))))
    return text(lines)


def all_linked(more=""):
    """Gives 256 triangles, each linked to each of 512 above: 131,072 links and one pair."""
    links = "".join(f"LINK c0_{below} c1_{above}\n" for below in range(256) for above in range(512))
    return text([comb(0, 256, 3, 3), comb(1, 512, 3, 3)], "links", links + more)


def objects_of_triangles(count):
    """Gives so many objects of one triangle each."""
    lines = [f"OBJECT o{k}\n" + section(0, contour(f"c{k}", [(0, 0), (1, 0), (0, 1)])) for k in range(count)]
    return text(lines).replace(b"SECTIONS 1", b"SECTIONS 2", 1)


def objects(*sections):
    """Gives a text of objects `p`, `q` and on, each of such sections."""
    lines = [f"OBJECT {name}\n" + "".join(own) for name, own in zip("pqrstuvw", sections)]
    return ("SECTIONS 2\nCOST span\nPAIR overlap\n" + "".join(lines) + "END\n").encode()


def parts(name, sections, contours, points, links):
    """Gives an object: so many sections, of so many contours of so many points in a row, and so many links of one."""
    row = "".join(f"{x} 0\n" for x in range(points))
    names = [[f"{name}{z}_{k}" for k in range(contours)] for z in range(sections)]
    lines = [section(z, *(f"CONTOUR {it} {points}\n{row}" for it in own)) for z, own in enumerate(names)]
    return f"OBJECT {name}\n" + "".join(lines) + links * "LINK a b\n"


def two_objects(first, second):
    """Gives a text of two such objects, which is at fault if it is read to its end."""
    return ("SECTIONS 2\nCOST area\nPAIR links\n" + parts("p", *first) + parts("q", *second) + "END\n").encode()


def addition(name, left, count):
    """Gives the edit that adds such a contour as `combs` has to the lowest section, right of it."""
    along = [(left + step, 0) for step in range(1, count)]
    points = "".join(f" {x} {y}" for x, y in [*along, (left + 1, 1)])
    return f"ADD 0 {name} {count}{points}\n".encode()
