"""Two pictures of README: bars of what this library takes beside other programs, from the figures that
`tools/bench` kept, and a still of a terminal, from README's own commands and what they print.

`tools/pictures` draws them.
"""
import re

from figures import figures
from repo import TOP, read
from svg import framed, text

SPEED = "docs/SPEED.md"

# Groups of bars: what is said above one, and which figures it has. A group without a figure is left
# out.
GROUPS = [
    ("Time of a sorted walk, beside ripgrep on one thread", "time", "ig ls --files", "rg --files -j1 --sort path"),
    ("Time of an unsorted walk, beside the same", "time", "ig ls --files --sort none", "rg --files -j1"),
    ("Time of an unsorted walk, beside fd on one thread", "time", "ig ls --files --sort none",
     "fd --type f --threads 1"),
    ("Time of a walk without rules, beside find", "time", "ig ls --files -I -H --sort none", "find . -type f"),
    ("Peak memory of a sorted walk, beside ripgrep", "memory", "ig ls --files", "rg --files -j1 --sort path"),
    ("Time of questions, beside git check-ignore", "time", "bench list", "git check-ignore --stdin"),
    ("Time of questions from Python, beside pathspec", "time", "ignore_proved.pathspec", "pathspec"),
]
# Of the figures on pathspec the picture has those of one question alone.
LEFT_OUT = "to make it, ", "one of a list, "
# The walks without rules, of which only the least and the greatest ratio to ripgrep's are said.
BARE = "ig ls --files -I -H", "ig ls --files -I -H --sort none"

WIDTH, LABELS, ONE, ROW = 760, 252, 330, 21

STYLE = """
  text { font-family: system-ui, sans-serif; fill: #1f2328; font-size: 12px; }
  .group { font-size: 13px; font-weight: 600; }
  .small { font-size: 11px; fill: #59636e; }
  .less { fill: #1a7f37; } .more { fill: #bc4c00; }
  .other { stroke: #59636e; stroke-dasharray: 3 3; }
  @media (prefers-color-scheme: dark) {
    text { fill: #f0f6fc; } .small { fill: #9198a1; }
    .less { fill: #3fb950; } .more { fill: #f0883e; }
    .other { stroke: #9198a1; }
  }
"""


# Bars


def shown(group):
    """The figures of a group, in the order in which they were kept, but for those with a note: of an
    earlier version."""
    _, *key = group
    found = [it for it in figures() if [it["of"], it["ours"], it["beside"]] == key and "note" not in it]
    return [it for it in found if not it["what"].startswith(LEFT_OUT)]


def said(ratio):
    """A ratio as the page on speed has it."""
    return f"{ratio:.2f}" if ratio >= 0.1 else f"{ratio:.3f}"


def bar(figure, y, scale):
    """A figure: what it is of, its bar, and the ratio, which doesn't cross the line of the other one."""
    ratio, one = figure["ratio"], LABELS + scale
    end, kind = LABELS + ratio * scale, "less" if ratio <= 1 else "more"
    label = figure["what"].removeprefix("a question, ")
    at = max(end, one) if 0 <= one - end < 40 else end
    return [
        text(20, y + 12, "", label),
        f'<rect x="{LABELS}" y="{y + 2}" width="{end - LABELS:.1f}" height="13" rx="3" class="{kind}"/>',
        text(f"{at + 6:.1f}", y + 13, "", said(ratio)),
    ]


def note(groups):
    """What is said below the bars."""
    walks = [it for it in figures() if it["of"] == "time" and it["beside"].startswith("rg ")]
    bare = [it["ratio"] for it in walks if it["ours"] in BARE]
    less = ", or less memory" if any(it["of"] == "memory" for _, found in groups for it in found) else ""
    return (f"Shorter is faster{less}. Walks that go by no rules take {said(min(bare))} to "
            f"{said(max(bare))} of ripgrep's time.")


def speed():
    """The picture of all groups, with a line at what the other program takes."""
    groups = [(group[0], found) for group in GROUPS if (found := shown(group))]
    most = max(it["ratio"] for _, found in groups for it in found)
    scale = min(ONE, (WIDTH - LABELS - 50) / most)
    drawn, y = [text(LABELS + scale + 5, 14, "small", "the other program: 1")], 10
    for head, found in groups:
        drawn.append(text(8, y + 18, "group", head))
        y += 26
        for it in found:
            drawn += bar(it, y, scale)
            y += ROW
        y += 6
    line = f'<line x1="{LABELS + scale}" y1="4" x2="{LABELS + scale}" y2="{y}" class="other"/>'
    y += 18
    drawn.append(text(8, y, "small", note(groups)))
    title = "What this library takes, as a part of what other programs take for the same"
    return framed(WIDTH, y + 10, title, STYLE, [line, *drawn])


def unsaid():
    """The figures whose ratio stands nowhere in the page on speed."""
    there = {float(it) for it in re.findall(r"\d+\.\d+", read(f"{TOP}/{SPEED}"))}
    return [it for it in figures() if it["ratio"] not in there]


# A still of a terminal

CHAR, LINE, EDGE = 7.83, 19, 18
DOTS = "red", "yellow", "green"

TERMINAL = """
  .window { fill: #ffffff; stroke: #d1d9e0; }
  text { font-family: ui-monospace, "DejaVu Sans Mono", monospace; font-size: 13px; fill: #1f2328; }
  .prompt { fill: #1a7f37; font-weight: 700; } .command { font-weight: 600; } .aside { fill: #59636e; }
  .red { fill: #ff5f57; } .yellow { fill: #febc2e; } .green { fill: #28c840; }
  @media (prefers-color-scheme: dark) {
    .window { fill: #151b23; stroke: #3d444d; } text { fill: #f0f6fc; }
    .prompt { fill: #3fb950; } .aside { fill: #9198a1; }
  }
"""


def session():
    """The commands of README's first block that print something, each with its lines."""
    block = re.search(r"(?:^    .*\n)+", read(f"{TOP}/README.md"), re.M)[0]
    steps = re.findall(r"^    \$ (.*)\n((?:    (?!\$ ).*\n)+)", block, re.M)
    return [(command, [line[4:] for line in printed.split("\n")[:-1]]) for command, printed in steps]


def command_line(command, y):
    """A command with its prompt, and what is said beside it."""
    does, space, aside = re.fullmatch(r"(.*?)(\s*)(#.*)?", command).groups()
    at = EDGE + (2 + len(does) + len(space)) * CHAR
    drawn = [text(EDGE, y, "prompt", "$"), text(EDGE + 2 * CHAR, y, "command", does)]
    return [*drawn, text(f"{at:.1f}", y, "aside", aside)] if aside else drawn


def screen():
    """The picture of a terminal with these commands."""
    drawn, y, most = [], 52, 0
    for command, printed in session():
        drawn += command_line(command, y)
        lines = [it.expandtabs(8) for it in printed]
        most = max(most, 2 + len(command), *map(len, lines))
        for line in lines:
            y += LINE
            drawn.append(text(EDGE, y, "", line))
        y += LINE
    wide = max(560, round(most * CHAR + 2 * EDGE))
    dots = [f'<circle cx="{20 + 18 * at}" cy="19" r="6" class="{it}"/>' for at, it in enumerate(DOTS)]
    window = f'<rect x="1" y="1" width="{wide - 2}" height="{y - 4}" rx="9" class="window"/>'
    title = "A terminal: which files the rules keep, why, and which rules are wrong"
    return framed(wide, y - 2, title, TERMINAL, [window, *dots, *drawn])
