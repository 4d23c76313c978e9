"""Runs the tests of the tools: run.py [--oe PROGRAM] [NAME ..]. What is missing here is said in a line, and its tests are skipped."""
import argparse
import importlib.util
import os
import shutil
import sys
import unittest
from pathlib import Path

TOOLS = Path(__file__).resolve().parent.parent
MISSING = {
    "pyproj": "pyproj is missing (Debian: python3-pyproj): the positions of oe-from-points are not tested",
    "shapely": "shapely is missing (Debian: python3-shapely): the outline of the horizontal surface is not compared with its own, and oe-map is not tested",
    "osgeo": "GDAL is missing (Debian: python3-gdal): the files of oe-map are not read back by it",
    "openpyxl": "openpyxl is missing (Debian: python3-openpyxl): the sheets of oe-list are not read back",
    "reportlab": "reportlab is missing (Debian: python3-reportlab): the letters of oe-letter are not tested",
    "contourpy": "contourpy is missing (Debian: python3-contourpy): the contours of oe-high are not compared with its own",
}
FILES = {
    "/usr/share/javascript/leaflet": "Leaflet is missing (Debian: libjs-leaflet): the page of oe-map is not tested",
    "/usr/share/fonts/truetype/liberation": "Liberation's fonts are missing (Debian: fonts-liberation): the letters of oe-letter are not tested",
    "pdftotext": "pdftotext is missing (Debian: poppler-utils): the words of oe-letter are not read back",
    "rsvg-convert": "rsvg-convert is missing (Debian: librsvg2-bin): the pictures of oe-letter are not compared with its own",
    "chromium": "chromium is missing: what the page of oe-map says of a place is not tested",
}
MISSING_PROGRAMS = {
    "dh_python3": "debhelper or dh-python is missing (Debian: debhelper, dh-python): no package is made",
    "man": "man is missing (Debian: man-db): the form of the manual pages is not tested",
}


def main() -> int:
    parser = argparse.ArgumentParser(prog="tools/test", description=__doc__)
    parser.add_argument("--oe", metavar="PROGRAM", help="the program to ask too (else the variable OE_TESTED); without it stored replies are used alone")
    parser.add_argument("names", metavar="NAME", nargs="*", help="tests to run, as tests.test_words (default: all)")
    args = parser.parse_args()
    program = args.oe or os.environ.get("OE_TESTED")
    if program:
        os.environ["OE_TESTED"] = os.path.abspath(program)
    sys.dont_write_bytecode = True
    sys.path.insert(0, str(TOOLS))
    said = [text for name, text in MISSING.items() if importlib.util.find_spec(name) is None]
    said += [text for name, text in FILES.items() if not (os.path.exists(name) or shutil.which(name))]
    said += [text for name, text in MISSING_PROGRAMS.items() if shutil.which(name) is None]
    said += [] if program else ["no program is named (--oe PROGRAM): what asks the desk is not tested"]
    for text in said:
        print(f"tools/test: skipped: {text}")
    loader = unittest.defaultTestLoader
    tests = loader.loadTestsFromNames(args.names) if args.names else loader.discover(str(TOOLS / "tests"), top_level_dir=str(TOOLS))
    return 0 if unittest.TextTestRunner().run(tests).wasSuccessful() else 1


sys.exit(main())
