"""Sheets of paper as PDF (reportlab): text that flows over pages, tables, and the pictures of oe-draw, drawn as they are in their SVG. Lengths are points."""
import io
import re
import xml.etree.ElementTree as Xml
from collections.abc import Sequence
from dataclasses import dataclass
from pathlib import Path
from xml.sax.saxutils import escape

from office.faults import Fault
from office.letters import Look, Part
from office.picture import Svg, stacked

try:
    import PIL.Image
    from reportlab.lib.colors import HexColor
    from reportlab.lib.pagesizes import landscape, letter
    from reportlab.lib.styles import ParagraphStyle
    from reportlab.pdfbase import pdfmetrics
    from reportlab.pdfbase.ttfonts import TTFError, TTFont
    from reportlab.pdfgen.canvas import FILL_EVEN_ODD, Canvas
    from reportlab.pdfgen.pathobject import PDFPathObject
    from reportlab.platypus import BaseDocTemplate, Flowable, Frame, Image, KeepTogether, NextPageTemplate, PageBreak, PageTemplate, Paragraph, Spacer, Table
except ImportError as error:
    raise Fault("the library reportlab is missing (on Debian: apt-get install python3-reportlab)") from error

FONTS = Path("/usr/share/fonts/truetype/liberation")
FACES = {"Sans": "LiberationSans-Regular", "Sans-Bold": "LiberationSans-Bold", "Sans-Italic": "LiberationSans-Italic", "Sans-BoldItalic": "LiberationSans-BoldItalic"}
INK, SOFT, RULE = "#1f2933", "#5b6875", "#c9c4b8"
UPRIGHT, WIDE = "upright", "wide"  # the two sorts of pages
MARGIN, WIDE_MARGIN, FOOT = 68, 34, 30
LABEL = 130  # the first column of a table of facts
SIGNED = 220  # the length of a line to sign on
ABOVE = 14  # below the head, and above the line at a page's foot
SIGNING = 42  # the height of a line to sign on
LOGO = 64  # the height of a picture in the head, at most
SVG = "{http://www.w3.org/2000/svg}"
ROUND = 1  # of joined lines
STROKED = 1  # of text


def style(name: str, size: float, colour: str = INK, **more: object) -> ParagraphStyle:
    return ParagraphStyle(name, fontName="Sans", fontSize=size, leading=size * 1.36, textColor=HexColor(colour), **more)


TITLE, HEADING = style("title", 15, spaceBefore=10, spaceAfter=6), style("heading", 10.6, spaceBefore=6, spaceAfter=2, keepWithNext=1)
TEXT, SMALL = style("text", 10), style("small", 8.6, SOFT, spaceBefore=6)
CELL, LABELLED = style("cell", 9.6), style("label", 9.6, SOFT)
HEAD_FIRST, HEAD_MORE = style("head first", 13), style("head more", 9.2, SOFT)
BOXED = style("boxed", 9.2, borderWidth=0.8, borderColor=HexColor(SOFT), borderPadding=6, leftIndent=6, rightIndent=6, spaceBefore=8, spaceAfter=8)


def load_fonts() -> None:
    for name, file in FACES.items():
        try:
            pdfmetrics.registerFont(TTFont(name, str(FONTS / f"{file}.ttf")))
        except (TTFError, OSError) as error:
            raise Fault(f"the font {file} is missing (on Debian: apt-get install fonts-liberation)") from error
    pdfmetrics.registerFontFamily("Sans", *FACES)


def checked(text: str) -> str:
    """A text that the font has every letter of."""
    known = pdfmetrics.getFont("Sans").face.charToGlyph
    for one in text:
        if ord(one) not in known:
            raise Fault(f'"{text[:60]}": the font of the letter has no {one!r} (U+{ord(one):04X})')
    return text


def text_of(words: str, look: ParagraphStyle = TEXT, is_bold: bool = False) -> Paragraph:
    plain = escape(checked(words))
    return Paragraph(f"<b>{plain}</b>" if is_bold else plain, look)


def facts(rows: Sequence[tuple[str, str]]) -> Table:
    """Names and values, a line each."""
    table = Table([[text_of(name, LABELLED), text_of(value, CELL)] for name, value in rows], colWidths=[LABEL, letter[0] - 2 * MARGIN - LABEL])
    table.setStyle([("VALIGN", (0, 0), (-1, -1), "TOP"), ("LINEBELOW", (0, 0), (-1, -1), .4, HexColor(RULE)),
                    *[(side, (0, 0), (-1, -1), room) for side, room in (("LEFTPADDING", 0), ("RIGHTPADDING", 0), ("TOPPADDING", 1), ("BOTTOMPADDING", 2))]])
    return table


def lines_of(content: bytes, path: str) -> list[str]:
    try:
        return content.decode("utf-8-sig").rstrip().splitlines()
    except UnicodeDecodeError as error:
        raise Fault(f"{path}: it is neither a text in UTF-8 nor a picture (PNG or JPEG)") from error


def size_of(content: bytes, path: str) -> tuple[int, int]:
    """The width and the height of a picture, which is read to its end."""
    try:
        with PIL.Image.open(io.BytesIO(content)) as picture:
            picture.load()
            return picture.size
    except (OSError, SyntaxError, ValueError, PIL.Image.DecompressionBombError) as error:
        raise Fault(f"{path}: no picture that can be read ({error})") from error


def head_of(content: bytes, path: str) -> list[Flowable]:
    """An office's head: a picture (PNG or JPEG), or lines of text, of which the first is large."""
    if content.startswith((b"\x89PNG", b"\xff\xd8\xff")):
        wide, high = size_of(content, path)
        scale = min(LOGO / high, (letter[0] - 2 * MARGIN) / wide)
        return [Image(io.BytesIO(content), wide * scale, high * scale, hAlign="LEFT")]
    first, *more = lines_of(content, path) or [""]
    return [text_of(first, HEAD_FIRST, True), *[text_of(line, HEAD_MORE) for line in more]]


class Signature(Flowable):
    """A line to sign on, with words below."""
    def __init__(self, words: str):
        super().__init__()
        self.words = words

    def wrap(self, wide: float, high: float) -> tuple[float, float]:
        return wide, SIGNING

    def draw(self) -> None:
        self.canv.setStrokeColor(HexColor(INK))
        self.canv.line(0, 14, SIGNED, 14)
        self.canv.setFont("Sans", 8.6)
        self.canv.setFillColor(HexColor(SOFT))
        self.canv.drawString(0, 3, checked(self.words))


def printed(part: Part) -> Flowable:
    match part.look:
        case Look.FACTS:
            return facts(part.rows)
        case Look.SIGNATURE:
            return Signature(part.words)
        case Look.TITLE | Look.HEADING:
            return text_of(part.words, TITLE if part.look is Look.TITLE else HEADING, True)
    return text_of(part.words, {Look.BOXED: BOXED, Look.TEXT: TEXT, Look.SMALL: SMALL}[part.look])


class Painter:
    """Draws an SVG of office.picture. What it does not know it refuses, so nothing of a picture is left out."""
    def __init__(self, canvas: Canvas):
        self.canvas, self.clips = canvas, {}

    def draw(self, element: Xml.Element, opacity: float = 1) -> None:
        name, get = element.tag.removeprefix(SVG), element.get
        opacity *= float(get("opacity", "1"))
        if name == "clipPath":
            self.clips[get("id")] = self.outline(element[0])
        if name in ("title", "clipPath"):
            return
        self.canvas.saveState()
        if get("clip-path"):
            self.canvas.clipPath(self.clips[get("clip-path")[5:-1]], stroke=0, fill=0, fillMode=FILL_EVEN_ODD)
        if name in ("svg", "g"):
            self.move(get("transform"))
            for part in element:
                self.draw(part, opacity)
        elif name == "text":
            self.draw_text(element, opacity)
        else:
            self.set_looks(element, opacity)
            has_fill, has_line = get("fill", "black") != "none", get("stroke", "none") != "none"
            self.canvas.drawPath(self.outline(element), stroke=int(has_line), fill=int(has_fill), fillMode=FILL_EVEN_ODD)
        self.canvas.restoreState()

    def move(self, transform: str | None) -> None:
        if not transform:
            return
        moved = re.fullmatch(r"translate\((\S+) (\S+)\)", transform)
        if not moved:
            raise Fault(f"a picture has the transform {transform}, which the letter cannot draw")
        self.canvas.translate(float(moved[1]), float(moved[2]))

    def set_looks(self, element: Xml.Element, opacity: float) -> None:
        get, canvas = element.get, self.canvas
        for colour, set_colour in ((get("fill", "#000000"), canvas.setFillColor), (get("stroke", "none"), canvas.setStrokeColor)):
            if colour != "none":
                set_colour(HexColor(colour if len(colour) == 7 else "#" + "".join(2 * digit for digit in colour[1:])))
        canvas.setFillAlpha(opacity * float(get("fill-opacity", "1")))
        canvas.setStrokeAlpha(opacity * float(get("stroke-opacity", "1")))
        canvas.setLineWidth(float(get("stroke-width", "1")))
        canvas.setLineJoin(ROUND if get("stroke-linejoin") == "round" else 0)
        if get("stroke-dasharray"):
            canvas.setDash([float(part) for part in get("stroke-dasharray").split()])

    def outline(self, element: Xml.Element) -> PDFPathObject:
        """The path of an element that is no text."""
        path, name = self.canvas.beginPath(), element.tag.removeprefix(SVG)

        def number(attribute: str) -> float:
            return float(element.get(attribute, "0"))
        if name == "rect":
            path.rect(number("x"), number("y"), number("width"), number("height"))
        elif name == "circle":
            path.circle(number("cx"), number("cy"), number("r"))
        elif name in ("polyline", "polygon"):
            places = element.get("points").split()
            trace(path, "M" + " ".join(places) + ("Z" if name == "polygon" else ""))
        elif name == "path":
            trace(path, element.get("d"))
        else:
            raise Fault(f"a picture has a <{name}>, which the letter cannot draw")
        return path

    def draw_text(self, element: Xml.Element, opacity: float) -> None:
        get, canvas, words = element.get, self.canvas, checked(element.text or "")
        face = "Sans" + {(False, False): "", (True, False): "-Bold", (False, True): "-Italic", (True, True): "-BoldItalic"}[
            get("font-weight") == "bold", get("font-style") == "italic"]
        size = float(get("font-size"))
        self.set_looks(element, opacity)
        canvas.translate(float(get("x")), float(get("y")))
        turned = re.match(r"rotate\((\S+) ", get("transform", ""))
        canvas.rotate(float(turned[1]) if turned else 0)
        canvas.scale(1, -1)  # letters stand upright where y goes down
        canvas.setFont(face, size)
        left = {"start": 0, "middle": .5, "end": 1}[get("text-anchor", "start")] * pdfmetrics.stringWidth(words, face, size)
        canvas.drawString(-left, 0, words, mode=STROKED if get("fill") == "none" else None)


def trace(path: PDFPathObject, steps: str) -> None:
    """The steps of an SVG's path: M with the points after it, H, V and Z."""
    x = y = 0.0
    for command, rest in re.findall(r"([A-Za-z])([^A-Za-z]*)", steps):
        numbers = [float(part) for part in re.split(r"[\s,]+", rest.strip()) if part]
        match command:
            case "M":
                for place, (x, y) in enumerate(zip(numbers[::2], numbers[1::2])):
                    (path.lineTo if place else path.moveTo)(x, y)
            case "H":
                x = numbers[0]
                path.lineTo(x, y)
            case "V":
                y = numbers[0]
                path.lineTo(x, y)
            case "Z":
                path.close()
            case _:
                raise Fault(f"a picture has the step {command} in a path, which the letter cannot draw")


class Drawing(Flowable):
    """A picture as wide and high as there is room."""
    def __init__(self, svg: Svg):
        super().__init__()
        self.svg = svg

    def wrap(self, wide: float, high: float) -> tuple[float, float]:
        self.scale = min(wide / self.svg.width, high / self.svg.height)
        self.left = (wide - self.svg.width * self.scale) / 2
        return wide, self.svg.height * self.scale

    def draw(self) -> None:
        self.canv.translate(self.left, self.svg.height * self.scale)
        self.canv.scale(self.scale, -self.scale)
        Painter(self.canv).draw(Xml.fromstring(stacked([self.svg])))


@dataclass(frozen=True)
class Letter:
    """What is printed: the office's head (a file's bytes and its name), the day, the address, the letter's parts, its pictures, and what stands on every page."""
    head: bytes
    head_name: str
    day: str
    address: Sequence[str]
    parts: Sequence[Part]
    pictures: Sequence[Svg]
    title: str
    foot: str

    def content(self) -> list[Flowable]:
        out = head_of(self.head, self.head_name) if self.head else []
        out += [Spacer(1, ABOVE), text_of(self.day, CELL)]
        out += [Spacer(1, ABOVE), *[text_of(line, CELL) for line in self.address]] if self.address else []
        *before, last, signature = [printed(part) for part in self.parts]
        out += [*before, KeepTogether([last, signature])]  # no page has a signature alone
        return out + [flowable for svg in self.pictures for flowable in (NextPageTemplate(WIDE), PageBreak(), Drawing(svg))]

    def pages(self, total: int) -> list[PageTemplate]:
        """The two sorts of pages, with a line at the foot."""
        def put_foot(canvas: Canvas, document: BaseDocTemplate) -> None:
            size = canvas._pagesize
            margin = WIDE_MARGIN if size[0] > size[1] else MARGIN
            canvas.setFont("Sans", 8)
            canvas.setFillColor(HexColor(SOFT))
            canvas.drawString(margin, FOOT, checked(self.foot))
            canvas.drawRightString(size[0] - margin, FOOT, f"page {document.page} of {total}")
        out = []
        for name, size, margin in ((UPRIGHT, letter, MARGIN), (WIDE, landscape(letter), WIDE_MARGIN)):
            bottom = FOOT + ABOVE
            room = Frame(margin, bottom, size[0] - 2 * margin, size[1] - bottom - margin * .75, leftPadding=0, rightPadding=0, topPadding=0, bottomPadding=0)
            out.append(PageTemplate(name, [room], onPage=put_foot, pagesize=size))
        return out

    def built(self, total: int) -> tuple[bytes, int]:
        """The bytes of the PDF, the same each time, and how many pages it has."""
        out = io.BytesIO()
        document = BaseDocTemplate(out, title=self.title, subject="14 CFR Part 77", creator="oe-letter", author="", invariant=1, pageTemplates=self.pages(total))
        document.build(self.content())
        return out.getvalue(), document.page

    def pdf(self) -> bytes:
        """It is built twice, since each page says how many there are."""
        load_fonts()
        _, total = self.built(0)
        return self.built(total)[0]
