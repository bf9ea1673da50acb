"""Draws natural deduction trees, as lines of text and as an SVG picture that has the same texts at the same places.

A tree is drawn with its premisses over a line and the rule beside the line. The unit is a cell: the place of one character of a
text, and the same share of a picture. Each step takes two rows of cells, so the conclusions of all premisses of a step stand on
one row. A premiss too wide or too deep for its drawing is folded: in its place stands the number of its step, and its own
tree is drawn below.
"""

from collections import namedtuple

# A step of a deduction: its number; the text of its conclusion; what stands beside its line, (style, text) each; and the
# numbers of its premisses, which are all lower.
Step = namedtuple("Step", "number conclusion beside premisses")

# A text in a drawing: its row and its first cell, how it is set, and itself. A line is a text of BAR alone.
Item = namedtuple("Item", "row cell style text")

BAR = "─"
FOLDED = "⋮ step"
GAP = 3  # cells between two trees side by side
BESIDE = 2  # cells between a line's notes
LEVELS = 36  # so many steps above one another fit a page

class Tree:
    """A tree that has been laid out: its items, and how far each of its rows reaches, from the conclusion upwards.

    Its parts are other trees, each with the cell and the row at which its own first ones stand.
    """

    def __init__(self, items, left, right, parts=()):
        self.items, self.left, self.right, self.parts = items, left, right, parts

    @property
    def width(self):
        return max(self.right) - min(self.left)

    def placed(self):
        """All items, counted from the leftmost cell and from the uppermost row."""
        found, waiting = [], [(-min(self.left), len(self.left) - 1, self)]
        while waiting:
            cell, row, tree = waiting.pop()
            found += [item._replace(cell=cell + item.cell, row=row - item.row) for item in tree.items]
            waiting += [(cell + across, row - up, part) for across, up, part in tree.parts]
        return sorted(found)

def row_of(cell, texts):
    """The items of texts on row 1 from a cell on, and the cell after them."""
    items = []
    for style, text in texts:
        items.append(Item(1, cell, style, text))
        cell += len(text) + BESIDE
    return items, cell - BESIDE if texts else cell

def side_by_side(trees):
    """How far each tree moves to the right to stand beside those before it, and how far the rows of all reach."""
    moves, left, right = [], [], []
    for tree in trees:
        move = max([reach + GAP - start for reach, start in zip(right, tree.left)], default=0)
        moves.append(move)
        left += [start + move for start in tree.left[len(left):]]
        right = [end + move for end in tree.right] + right[len(tree.right):]
    return moves, left, right

def over_line(step, trees):
    """The tree of a step over the trees of its premisses."""
    moves, left, right = side_by_side(trees)
    start, end = (left[0], right[0]) if trees else (0, 0)
    own = len(step.conclusion)
    length = max(end - start, own) + 2
    line = start - (length - (end - start)) // 2
    cell = line + (length - own) // 2
    beside, reach = row_of(line + length + 1, step.beside)
    items = [Item(0, cell, "conclusion", step.conclusion), Item(1, line, "line", BAR * length)]
    parts = [(move, 2, tree) for move, tree in zip(moves, trees)]
    return Tree(items + beside, [cell, line] + left, [cell + own, max(reach, line + length)] + right, parts)

def stub(step):
    """What stands for a tree that is drawn by itself: its conclusion under the number of its step."""
    number, own = f"{FOLDED} {step.number}", len(step.conclusion)
    cell = own // 2
    items = [Item(0, 0, "conclusion", step.conclusion), Item(1, cell, "folded", number)]
    return Tree(items, [0, 0], [own, max(own, cell + len(number))])

def name_alone(text):
    """What stands for a tree where its conclusion is too wide as well. Over it no other tree reaches on the row of its line."""
    return Tree([Item(0, 0, "folded", text)], [0, 0], [len(text)] * 2)

class Fold:
    """The trees of a deduction, folded to a width: `drawn` has those that are drawn, by the numbers of their steps."""

    def __init__(self, steps, roots, width):
        self.steps, self.width, self.drawn = steps, width, {}
        self.trees = []
        for step in steps:
            self.trees.append(self.fitted(step))
        self.drawn.update((root, self.trees[root]) for root in roots)

    def fits(self, tree):
        return tree.width <= self.width and len(tree.left) <= 2 * LEVELS

    def fitted(self, step):
        """The tree of a step, with as few of its premisses folded as its width and its depth allow."""
        trees = [self.trees[number] for number in step.premisses]
        for shorter in (stub, lambda premiss: name_alone(f"step {premiss.number}")):
            tree = self.folded(step, trees, shorter)
            if self.fits(tree):
                return tree
        if len(trees) < 2:
            return tree
        names = f"{len(trees)} premisses, steps {step.premisses[0]} to {step.premisses[-1]}"
        return over_line(step, [name_alone(names)])

    def folded(self, step, trees, shorter):
        """The widest premisses give way first, and of a tree that is too deep the deepest; each is drawn by itself then."""
        tree = over_line(step, trees)
        left = set(range(len(trees)))
        while left and not self.fits(tree):
            wide = tree.width > self.width
            chosen = max(sorted(left), key=lambda index: trees[index].width if wide else len(trees[index].left))
            left.remove(chosen)
            premiss = self.steps[step.premisses[chosen]]
            short = shorter(premiss)
            if (short.width, len(short.left)) < (trees[chosen].width, len(trees[chosen].left)):
                self.drawn[premiss.number] = self.trees[premiss.number]
                trees[chosen] = short
                tree = over_line(step, trees)
        return tree

def wrapped(text, width):
    """The lines of a text, cut between words where that can be done, and within a word where it cannot."""
    lines = []
    for line in text.split("\n"):
        while len(line) > width:
            cut = line.rfind(" ", 1, width + 1)
            cut = cut if cut > 0 else width
            lines.append(line[:cut])
            line = line[cut:].removeprefix(" ")
        lines.append(line)
    return lines

def drawing(steps, roots, notes, width):
    """The items of a whole drawing: each tree, under its step's number where it is not alone, and then the notes, (style, text).

    A folded tree has a higher number than all that are folded within it, so those numbers fall from tree to tree.
    """
    items, row = [], 0
    drawn = Fold(steps, roots, width).drawn
    for number in list(roots) + sorted(drawn.keys() - set(roots), reverse=True):
        if len(drawn) > 1:
            items.append(Item(row, 0, "heading", f"step {number}:"))
            row += 1
        placed = drawn[number].placed()
        items += [item._replace(row=item.row + row) for item in placed]
        row += len(drawn[number].left) + 1
    for style, note in notes:
        lines = wrapped(note, width)
        items += [Item(row + index, 0, style, line) for index, line in enumerate(lines) if line]
        row += len(lines)
    return items

def text(items):
    """A drawing as lines."""
    rows = {}
    for item in sorted(items):
        rows.setdefault(item.row, []).append(item)
    lines = []
    for row in range(max(rows, default=-1) + 1):
        line = ""
        for item in rows.get(row, ()):
            line = line.ljust(item.cell) + item.text
        lines.append(line.rstrip() + "\n")
    return "".join(lines)

# ---- The picture

ACROSS, DOWN, MARGIN = 8, 16, 16  # the size of a cell and the margin, in pixels
BASELINE, STROKE = 12, 8.5  # of a text and of a line, below the top of its row; at a half a line of one pixel is sharp
STYLE = """\
text { font: 13.3px "DejaVu Sans Mono", "Menlo", "Consolas", "Liberation Mono", monospace; fill: #111; white-space: pre }
line { stroke: #111; stroke-width: 1 }
.rule, .folded { fill: #456 }
.heading { fill: #456; font-weight: bold }
.place, .label { fill: #05a }
.refused { fill: #b00 }
"""

def escape(text):
    return text.replace("&", "&amp;").replace("<", "&lt;").replace(">", "&gt;")

def svg(items, title):
    """A drawing as a picture: each text as long as its cells, whatever the font, and each line as a stroke."""
    width = 2 * MARGIN + ACROSS * max([item.cell + len(item.text) for item in items], default=0)
    height = 2 * MARGIN + DOWN * (max([item.row for item in items], default=-1) + 1)
    lines = [f'<svg xmlns="http://www.w3.org/2000/svg" width="{width}" height="{height}" viewBox="0 0 {width} {height}" '
             f'role="img">', f"<title>{escape(title)}</title>", f"<style>\n{STYLE}</style>",
             f'<rect width="{width}" height="{height}" fill="#fff"/>']
    for item in sorted(items):
        x, y, length = MARGIN + ACROSS * item.cell, MARGIN + DOWN * item.row, ACROSS * len(item.text)
        if item.style == "line":
            lines.append(f'<line x1="{x}" y1="{y + STROKE}" x2="{x + length}" y2="{y + STROKE}"/>')
        else:
            lines.append(f'<text class="{item.style}" x="{x}" y="{y + BASELINE}" textLength="{length}" '
                         f'lengthAdjust="spacingAndGlyphs">{escape(item.text)}</text>')
    return "\n".join(lines + ["</svg>"]) + "\n"
