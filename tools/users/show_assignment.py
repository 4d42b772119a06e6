#!/usr/bin/env python3
"""Draws the answer of `gco energy` for a picture, one variable for each pixel, as a PNG.

    show_assignment.py picture.pgm [--scale 4] < answer.txt > answer.png

On the left the picture, on the right the same picture with the pixels of value 1 tinted and the border
between the two values drawn. The picture is a P5 file of one byte a sample; variable x + y * width is the
pixel in column x of row y. Only Python's own library is used.
"""
import argparse
import struct
import sys
import zlib


def read_pgm(data):
    """The width, the height and the samples of a P5 picture of one byte a sample."""
    words, at = [], 0
    while len(words) < 4:
        while data[at:at + 1].isspace() or data[at:at + 1] == b'#':
            if data[at:at + 1] == b'#':
                while data[at:at + 1] not in (b'\n', b'\r', b''):
                    at += 1
            else:
                at += 1
        end = at
        while data[end:end + 1] and not data[end:end + 1].isspace():
            end += 1
        words.append(data[at:end])
        at = end
    if words[0] != b'P5' or int(words[3]) > 255:
        sys.exit('show_assignment: a P5 picture of one byte a sample is needed')
    width, height = int(words[1]), int(words[2])
    return width, height, data[at + 1:at + 1 + width * height]


def read_assignment(text):
    """The digits of the line `assignment`, as a list of 0 and 1."""
    for line in text.splitlines():
        if line.startswith('assignment'):
            return [int(digit) for digit in line[len('assignment'):].strip()]
    sys.exit('show_assignment: no line `assignment` on standard input')


def colours(width, height, samples, ones):
    """The rows of both halves: the picture, and the picture with its segments shown."""
    rows = []
    for y in range(height):
        left, right = [], []
        for x in range(width):
            at = x + y * width
            grey = samples[at]
            left.append((grey, grey, grey))
            border = (x + 1 < width and ones[at] != ones[at + 1]) or \
                     (y + 1 < height and ones[at] != ones[at + width])
            if border:
                right.append((255, 210, 0))
            elif ones[at]:
                right.append((grey // 2 + 20, grey // 2 + 70, grey // 2 + 127))
            else:
                right.append((grey, grey, grey))
        rows.append(left + [(255, 255, 255)] * 2 + right)
    return rows


def png(rows, scale):
    """A PNG of the rows of colours, each pixel a square of this many pixels a side."""
    lines = b''
    for row in rows:
        line = b'\0' + b''.join(bytes(colour) * scale for colour in row)
        lines += line * scale
    def chunk(kind, body):
        return struct.pack('>I', len(body)) + kind + body + struct.pack('>I', zlib.crc32(kind + body))
    head = struct.pack('>IIBBBBB', len(rows[0]) * scale, len(rows) * scale, 8, 2, 0, 0, 0)
    return b'\x89PNG\r\n\x1a\n' + chunk(b'IHDR', head) + chunk(b'IDAT', zlib.compress(lines, 9)) + chunk(b'IEND', b'')


def main():
    parser = argparse.ArgumentParser(description='Draws the answer of `gco energy` for a picture.')
    parser.add_argument('picture')
    parser.add_argument('--scale', type=int, default=4)
    options = parser.parse_args()
    with open(options.picture, 'rb') as file:
        width, height, samples = read_pgm(file.read())
    ones = read_assignment(sys.stdin.read())
    if len(ones) != width * height:
        sys.exit('show_assignment: %d digits for %d pixels' % (len(ones), width * height))
    sys.stdout.buffer.write(png(colours(width, height, samples, ones), options.scale))


if __name__ == '__main__':
    main()
