"""The texts of a PDF that Chromium printed, page by page, without any white space. Plain Python 3, no other packages.

    pages_of(data)          a list of texts

Letters come in the order in which they are drawn: text of one element stays together, and line breaks say nothing.
"""

import re
import zlib

OBJECT = re.compile(rb"(\d+) 0 obj\s*(.*?)\s*endobj", re.DOTALL)
DRAWN = re.compile(rb"/F(\d+) [0-9.]+ Tf|<([0-9A-Fa-f]*)> ?Tj|\[(.*?)\] ?TJ|/X(\d+) Do", re.DOTALL)
NAMED = re.compile(rb"/ToUnicode (\d+) 0 R")
CONTENTS = re.compile(rb"/Contents (\d+) 0 R")


def stream_of(body):
    """The bytes of an object that is a stream, unpacked; else none."""
    found = re.search(rb"stream\r?\n", body)
    if not found:
        return b""
    length = int(re.search(rb"/Length (\d+)", body)[1])
    data = body[found.end() : found.end() + length]
    return zlib.decompress(data) if b"/FlateDecode" in body[: found.start()] else data


def letters_of(table):
    """What the glyphs of a font stand for, by its table ToUnicode."""
    letters = {}
    for part in re.findall(rb"beginbfchar\s(.*?)endbfchar", table, re.DOTALL):
        for glyph, letter in re.findall(rb"<(\w+)> <(\w+)>", part):
            letters[int(glyph, 16)] = bytes.fromhex(letter.decode()).decode("utf-16-be")
    for part in re.findall(rb"beginbfrange\s(.*?)endbfrange", table, re.DOTALL):
        for first, last, letter in re.findall(rb"<(\w+)> <(\w+)> <(\w+)>", part):
            for glyph in range(int(first, 16), int(last, 16) + 1):
                letters[glyph] = chr(int(letter, 16) + glyph - int(first, 16))
    return letters


class Pdf:
    """Its objects by number, and the letters of its fonts."""

    def __init__(self, data):
        self.objects = {int(number): body for number, body in OBJECT.findall(data)}
        self.fonts = {}

    def letters(self, font):
        if font not in self.fonts:
            table = NAMED.search(self.objects.get(font, b""))
            self.fonts[font] = letters_of(stream_of(self.objects[int(table[1])])) if table else {}
        return self.fonts[font]

    def text(self, number):
        """What a stream draws, with what it draws of other streams."""
        letters, parts = {}, []
        for font, shown, array, form in DRAWN.findall(stream_of(self.objects.get(number, b""))):
            if font:
                letters = self.letters(int(font))
            elif form:
                parts.append(self.text(int(form)))
            else:
                glyphs = shown or b"".join(re.findall(rb"<(\w+)>", array))
                parts.append("".join(letters.get(int(glyphs[at : at + 4], 16), "") for at in range(0, len(glyphs), 4)))
        return "".join(parts)


def pages_of(data):
    pdf = Pdf(data)
    pages = [body for body in pdf.objects.values() if re.search(rb"/Type /Page\b", body)]
    contents = [CONTENTS.search(body) for body in pages]
    return ["".join(pdf.text(int(found[1])).split()) if found else "" for found in contents]
