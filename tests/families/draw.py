#!/usr/bin/env python3
"""Draws `docs/families.svg` from the table of families in `docs/performance.md`: the time of each family by its number,
both on scales of powers of ten."""
import math
import os
import re

DOCS = os.path.join(os.path.dirname(os.path.abspath(__file__)), '..', '..', 'docs')
SECTION = '## Families of schemas'
ROW = re.compile(r'^\| `(chain|tree|wide|patterns)` \| (\d+) \| \d+ \| \d+ \| [^|]+ \| ([\d.]+) (ms|s) \|')
COLOURS = {'chain': '#1b6ca8', 'tree': '#3a8f4f', 'wide': '#b8472a', 'patterns': '#7b4fa3'}
WIDTH, HEIGHT, LEFT, TOP, RIGHT, BOTTOM = 640, 400, 70, 20, 110, 50


def points():
    """The times of each family in the first table of its section."""
    with open(os.path.join(DOCS, 'performance.md'), encoding='utf-8') as page:
        section = page.read().split(SECTION, 1)[1].split('\n## ', 1)[0]
    table = section.split('\n| Family', 1)[1].split('\n\n', 1)[0]
    found = {}
    for row in filter(None, map(ROW.match, table.split('\n'))):
        seconds = float(row[3]) / (1000 if row[4] == 'ms' else 1)
        found.setdefault(row[1], []).append((int(row[2]), max(seconds, 0.001)))
    if set(found) != set(COLOURS):
        raise SystemExit('docs/performance.md has no rows of: %s' % ', '.join(sorted(set(COLOURS) - set(found))))
    return found


def across(number):
    return LEFT + (WIDTH - LEFT - RIGHT) * math.log10(number) / 3


def down(seconds):
    return TOP + (HEIGHT - TOP - BOTTOM) * (1 - (math.log10(seconds) + 3) / 4)


def text(x, y, words, anchor='middle', colour='#333'):
    return '<text x="%.1f" y="%.1f" text-anchor="%s" fill="%s">%s</text>' % (x, y, anchor, colour, words)


def picture(found):
    yield ('<svg xmlns="http://www.w3.org/2000/svg" width="%d" height="%d" font-family="sans-serif" font-size="13">'
           % (WIDTH, HEIGHT))
    yield '<rect width="%d" height="%d" fill="white"/>' % (WIDTH, HEIGHT)
    for power in range(4):
        x = across(10 ** power)
        yield '<line x1="%.1f" y1="%d" x2="%.1f" y2="%d" stroke="#ddd"/>' % (x, TOP, x, HEIGHT - BOTTOM)
        yield text(x, HEIGHT - BOTTOM + 18, '{:,}'.format(10 ** power))
    for power in range(-3, 2):
        y = down(10 ** power)
        yield '<line x1="%d" y1="%.1f" x2="%d" y2="%.1f" stroke="#ddd"/>' % (LEFT, y, WIDTH - RIGHT, y)
        yield text(LEFT - 8, y + 4, '%g s' % 10 ** power if power >= 0 else '%d ms' % 10 ** (power + 3), 'end')
    yield text((LEFT + WIDTH - RIGHT) / 2, HEIGHT - 12, 'the number of the family')
    for family, measured in found.items():
        line = ' '.join('%.1f,%.1f' % (across(number), down(seconds)) for number, seconds in measured)
        yield '<polyline points="%s" fill="none" stroke="%s" stroke-width="2"/>' % (line, COLOURS[family])
        for number, seconds in measured:
            yield '<circle cx="%.1f" cy="%.1f" r="3" fill="%s"/>' % (across(number), down(seconds), COLOURS[family])
        number, seconds = measured[-1]
        yield text(across(number) + 8, down(seconds) + 4, family, 'start', COLOURS[family])
    yield '</svg>'


def main():
    with open(os.path.join(DOCS, 'families.svg'), 'w', encoding='utf-8') as file:
        file.write('\n'.join(picture(points())) + '\n')


if __name__ == '__main__':
    main()
