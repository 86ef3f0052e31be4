"""The parts that pictures have in common, as SVG."""
import html


def text(x, y, kind, words):
    """A line of text, by its left end and its base."""
    named = f' class="{kind}"' if kind else ""
    return f'<text x="{x}" y="{y}"{named} xml:space="preserve">{html.escape(words, quote=False)}</text>'


def framed(width, height, title, style, drawn):
    """A picture of this size, which says what it shows."""
    head = (f'<svg xmlns="http://www.w3.org/2000/svg" width="{width}" height="{height}" '
            f'viewBox="0 0 {width} {height}" role="img" aria-label="{title}">')
    return "\n".join([head, f"<title>{title}</title>", f"<style>{style}</style>", *drawn, "</svg>", ""])
