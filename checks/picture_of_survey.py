#!/usr/bin/env python3
"""Compares a picture that `dvdcap draw` made with the survey that it was made of: picture_of_survey.py SURVEY WIDTH PICTURE.

It reads the survey by itself, shares its blocks among the columns, and looks for each column, mark, number and word in
the picture, which it reads with an XML parser. It ends with 1 and the first difference."""
import re
import sys
import xml.etree.ElementTree as tree

SVG = '{http://www.w3.org/2000/svg}'


def survey(name):
    """The counts of each block, and whether there is a line of totals."""
    blocks, whole = [], False
    for line in open(name, encoding='latin-1').read().split('\n')[:-1]:
        words = line.split(' ')
        if words[0] == 'blocks':
            whole = True
        else:
            blocks.append((int(words[7]), int(words[9]), words[12] != 'whole', int(words[5])))
    return blocks, whole


def same(what, found, wanted):
    """Ends the run where two values differ."""
    if found != wanted:
        sys.exit('%s: %r, and not %r' % (what, found, wanted))


def main(name, most, picture):
    """Looks for all of the survey in the picture."""
    blocks, whole = survey(name)
    sums = [sum(block[0] for block in blocks[max(0, k - 7):k + 1]) for k in range(len(blocks))]
    text = open(picture, 'rb').read()
    same('at most 2,000,000 bytes', len(text) <= 2000000, True)
    root = tree.fromstring(text)
    width = most * -(-1000 // most)
    same('the size', root.get('viewBox'), '0 0 %d 800' % (width + 108))
    peak = max(sums, default=0)
    rows = 1 if peak <= 420 else 2 if peak <= 840 else 4
    count = min(most, len(blocks))
    columns = []
    for c in range(count):
        first, end = c * len(blocks) // count, (c + 1) * len(blocks) // count
        x, right = c * width // count, (c + 1) * width // count
        part = blocks[first:end]
        columns.append((x, right - x, max(sums[first:end]), max(block[1] for block in part), sum(block[2] for block in part)))
    plot, lower = root.findall(SVG + 'svg')
    same('the plot', plot.get('viewBox'), '0 0 %d %d' % (width, 440 * rows))
    bars = [(int(r.get('x')), int(r.get('width')), int(r.get('height')), r.get('class')) for r in plot.iter(SVG + 'rect')]
    same('the bars', bars, [(x, w, s, 'o' if s > 280 else None) for x, w, s, _, _ in columns])
    paths = [p.get('d') for p in plot.iter(SVG + 'path')]
    marks = ['M%d %dh%dv-%dh-%dz' % (x, 440 * rows, w, 14 * rows, w) for x, w, s, _, _ in columns if s > 280]
    same('the marks above 280 and the limit', paths, marks + ['M0 280h%d' % width])
    failed = [(int(r.get('x')), int(r.get('width')), int(r.get('height'))) for r in lower.iter(SVG + 'rect')]
    same('the failed rows', failed, [(x, w, f) for x, w, _, f, _ in columns if f])
    refused = [p.get('d') for p in root.findall(SVG + 'g')[0].iter(SVG + 'path')]
    same('the refused blocks', refused, ['M%d 0l5 14h-10z' % (x + w // 2) for x, w, _, _, r in columns if r])
    words = [t.text for t in root.iter(SVG + 'text')]
    totals = [len(blocks), count, sum(b[0] for b in blocks), sum(b[1] for b in blocks), sum(b[2] for b in blocks)]
    same('the totals', [int(n) for n in re.findall(r'\d+', words[1])], totals)
    over = sum(s > 280 for s in sums)
    same('the peak', [int(n) for n in re.findall(r'\d+', words[2])], [8, peak, sums.index(peak) if sums else 0, 8, 280, over])
    cut = ['The survey is cut before block %d. The totals are of the blocks before it.' % len(blocks)]
    same('that it is cut', [w for w in words if 'cut' in w], [] if whole else cut)
    same('layer 1', 'layer 1' in words, any(block[3] for block in blocks))


if __name__ == '__main__':
    main(sys.argv[1], int(sys.argv[2]), sys.argv[3])
