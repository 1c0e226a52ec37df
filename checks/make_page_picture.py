#!/usr/bin/env python3
"""Makes docs/page.png: the page of a small made-up review, as a browser shows it.

usage: make_page_picture.py [PROGRAM] [--reference]

With --reference the page is that of reference_page.py, made of the program's JSON lines. The picture has 64 colours at the most,
so that it is small. Needs chromium and the built program."""
import argparse
import base64
import collections
import pathlib
import struct
import sys
import tempfile
import zlib

sys.dont_write_bytecode = True
import browser
import page
from page_fleet import ed25519, rsa, text_of, write
from program import Program

PICTURE = pathlib.Path(__file__).resolve().parent.parent / "docs" / "page.png"
TITLE = "Access review of SSH keys, first quarter of 2026"
WIDTH, HEIGHT, SCALE = 1060, 1190, 0.8
COLOURS = 64
SIGNATURE = b"\x89PNG\r\n\x1a\n"


def line(name, options="", comment=None):
    return f"{options} ".lstrip().encode() + ed25519(name) + b" " + (comment or name).encode()


FILES = {
    b"fleet/web1/ann/authorized_keys": [
        line("ann@laptop"),
        line("backup@vault", 'from="10.0.0.0/8",restrict,command="/usr/bin/borg serve"'),
        line("deploy@ci", 'command="/usr/local/bin/deploy"'),
        line("ann@laptop", "restrict", "ann@laptop, limited in March"),
        line("bob@desk", 'expiry-time="20260101Z"'),
        line("carol@desk", "no-ptty"),
    ],
    b"fleet/db1/root/authorized_keys": [line("ann@laptop"), rsa(1024, "old") + b" root@old-storage", line("backup@vault", "restrict")],
    b"fleet/db2/root/authorized_keys": None,
}


# ---- a picture with few colours


def chunk(kind, data):
    return struct.pack(">I", len(data)) + kind + data + struct.pack(">I", zlib.crc32(kind + data))


def chunks(picture):
    """The chunks of a PNG, by kind; the data of the image as one."""
    found, at = {}, len(SIGNATURE)
    while at < len(picture):
        length, kind = struct.unpack(">I4s", picture[at : at + 8])
        found[kind] = found.get(kind, b"") + picture[at + 8 : at + 8 + length]
        at += 12 + length
    return found


def unfiltered(line, above, kind, step):
    """A line of an image without its filter (PNG, section 9)."""
    line = bytearray(line)
    for at, byte in enumerate(line):
        left, up, corner = (line[at - step] if at >= step else 0), above[at], (above[at - step] if at >= step else 0)
        if kind == 4:
            guess = left + up - corner
            near = min((abs(guess - left), 0, left), (abs(guess - up), 1, up), (abs(guess - corner), 2, corner))[2]
        else:
            near = (0, left, up, (left + up) // 2)[kind]
        line[at] = (byte + near) & 255
    return bytes(line)


def pixels(picture):
    """The width, and the lines of an image of 8 bits a channel, each a list of colours."""
    found = chunks(picture)
    width, height, depth, colour = struct.unpack(">IIBB", found[b"IHDR"][:10])
    step = {2: 3, 6: 4}[colour]
    assert depth == 8
    data, above, lines = zlib.decompress(found[b"IDAT"]), bytes(width * step), []
    for number in range(height):
        start = number * (width * step + 1)
        above = unfiltered(data[start + 1 : start + 1 + width * step], above, data[start], step)
        lines.append([above[at : at + 3] for at in range(0, width * step, step)])
    return width, lines


def with_few_colours(picture):
    """The same picture with the colours that are most used, and the nearest of them in place of each other one."""
    width, lines = pixels(picture)
    used = collections.Counter(colour for line in lines for colour in line)
    palette = [colour for colour, _ in used.most_common(COLOURS)]
    nearest = {colour: min(range(len(palette)), key=lambda number: sum((a - b) ** 2 for a, b in zip(palette[number], colour))) for colour in used}
    data = b"".join(b"\0" + bytes(nearest[colour] for colour in line) for line in lines)
    head = struct.pack(">IIBBBBB", width, len(lines), 8, 3, 0, 0, 0)
    return SIGNATURE + chunk(b"IHDR", head) + chunk(b"PLTE", b"".join(palette)) + chunk(b"IDAT", zlib.compress(data, 9)) + chunk(b"IEND", b"")


def shot(path):
    """The picture of a page, as the browser shows it to who prefers light."""
    opened = browser.Browser()
    try:
        opened.call("Emulation.setDeviceMetricsOverride", width=WIDTH, height=HEIGHT, deviceScaleFactor=SCALE, mobile=False)
        opened.scheme("light")
        opened.open(path)
        opened.ask("new Promise(drawn => requestAnimationFrame(() => requestAnimationFrame(drawn)))")
        return base64.b64decode(opened.call("Page.captureScreenshot", format="png")["data"])
    finally:
        opened.close()


def main():
    parser = argparse.ArgumentParser(description=__doc__, formatter_class=argparse.RawDescriptionHelpFormatter)
    parser.add_argument("program", nargs="?", default=str(page.DEFAULT), type=pathlib.Path)
    parser.add_argument("--reference", action="store_true")
    args = parser.parse_args()
    with tempfile.TemporaryDirectory() as folder:
        room = pathlib.Path(folder)
        write(room, {name: lines and text_of(lines) for name, lines in FILES.items()})
        asked = page.Review(Program(args.program.resolve(), room), "auth", list(FILES), None, TITLE, args.reference)
        (room / "page.html").write_bytes(asked.page)
        picture = with_few_colours(shot(room / "page.html"))
    PICTURE.write_bytes(picture)
    print(f"{PICTURE.name}: {len(picture)} bytes")


if __name__ == "__main__":
    main()
