"""Plots as SVG: columns by year, and the bar of a rule."""
from __future__ import annotations

import html
from collections import Counter

# how many columns a plot has at most
MOST = 60


def framed(width: int, height: int, title: str, inside: list[str]) -> str:
    """A plot with its title, which readers of the screen say."""
    size = f'viewBox="0 0 {width} {height}" width="{width}" height="{height}"'
    return (
        f'<svg {size} role="img" aria-label="{html.escape(title)}"><title>{html.escape(title)}</title>{"".join(inside)}</svg>'
    )


def years_of(counts: Counter[str]) -> list[str]:
    """The years that are shown: all from the first to the last, or if these are too many, the latest that have something."""
    first, last = int(min(counts)), int(max(counts))
    if last - first < MOST:
        return [f"{year:04}" for year in range(first, last + 1)]
    return sorted(counts)[-MOST:]


def columns(counts: Counter[str], title: str) -> str:
    """A column for each year, with its number above it."""
    years, most, step, high = years_of(counts), max(counts.values()), 0, 180
    step = max(18, min(64, 960 // len(years)))
    parts = [f'<line class="axis" x1="0" x2="{step * len(years)}" y1="{high + 20.5}" y2="{high + 20.5}"/>']
    for at, year in enumerate(years):
        tall = high * counts[year] / most
        left, middle = at * step + 2, at * step + step / 2
        parts.append(f'<rect class="bar" x="{left}" y="{20 + high - tall:.1f}" width="{step - 4}" height="{tall:.1f}">')
        parts.append(f"<title>{year}: {counts[year]:,}</title></rect>")
        if step >= 40:
            parts.append(f'<text x="{middle}" y="{15 + high - tall:.1f}" text-anchor="middle">{counts[year]:,}</text>')
        if step >= 34 or int(year) % 5 == 0:
            parts.append(f'<text x="{middle}" y="{high + 36}" text-anchor="middle">{year}</text>')
    return framed(step * len(years), high + 44, title, parts)


def bar(part: float, kind: str) -> str:
    """A bar over this part of the width, in the class of its colour; the number that it shows stands beside it as text."""
    rest = 'preserveAspectRatio="none" aria-hidden="true"'
    return f'<svg class="rule" viewBox="0 0 100 1" {rest}><rect class="{html.escape(kind)}" width="{100 * part:.2f}" height="1"/></svg>'
