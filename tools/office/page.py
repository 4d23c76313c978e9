"""One HTML page with the map in it: Leaflet of Debian's libjs-leaflet, the features and the styles all inlined, so that it wants nothing from the network."""
import base64
import html
import json
import re
from collections.abc import Sequence
from dataclasses import dataclass
from pathlib import Path
from urllib.parse import urlsplit

from office.faults import Fault
from office.shapes import ABOUT, Feature
from office.geojson import member
from office.grids import Grid
from office.picture import CIRCLE_LINE, INK, LOOKS, MARKS, NOTICE_LINE

LEAFLET = Path("/usr/share/javascript/leaflet")
LICENSE = """Leaflet, (c) 2010-2019 Vladimir Agafonkin, (c) 2010-2011 CloudMade. All rights reserved.
Redistribution and use in source and binary forms, with or without modification, are permitted provided that the following conditions are met:
1. Redistributions of source code must retain the above copyright notice, this list of conditions and the following disclaimer.
2. Redistributions in binary form must reproduce the above copyright notice, this list of conditions and the following disclaimer in the documentation
and/or other materials provided with the distribution.
THIS SOFTWARE IS PROVIDED BY THE COPYRIGHT HOLDERS AND CONTRIBUTORS "AS IS" AND ANY EXPRESS OR IMPLIED WARRANTIES, INCLUDING, BUT NOT LIMITED TO, THE
IMPLIED WARRANTIES OF MERCHANTABILITY AND FITNESS FOR A PARTICULAR PURPOSE ARE DISCLAIMED. IN NO EVENT SHALL THE COPYRIGHT HOLDER OR CONTRIBUTORS BE
LIABLE FOR ANY DIRECT, INDIRECT, INCIDENTAL, SPECIAL, EXEMPLARY, OR CONSEQUENTIAL DAMAGES (INCLUDING, BUT NOT LIMITED TO, PROCUREMENT OF SUBSTITUTE
GOODS OR SERVICES; LOSS OF USE, DATA, OR PROFITS; OR BUSINESS INTERRUPTION) HOWEVER CAUSED AND ON ANY THEORY OF LIABILITY, WHETHER IN CONTRACT, STRICT
LIABILITY, OR TORT (INCLUDING NEGLIGENCE OR OTHERWISE) ARISING IN ANY WAY OUT OF THE USE OF THIS SOFTWARE, EVEN IF ADVISED OF THE POSSIBILITY OF SUCH DAMAGE."""


@dataclass(frozen=True)
class Tiles:
    """A server of map pictures to lay below all, with its credit."""
    url: str
    credit: str

    @property
    def server(self) -> str:
        parts = urlsplit(self.url.replace("{s}.", "*."))
        if parts.scheme not in ("http", "https") or not parts.netloc:
            raise Fault(f"--tiles {self.url}: write an address as https://tiles.example/{{z}}/{{x}}/{{y}}.png")
        return f"{parts.scheme}://{parts.netloc}"


def leaflet() -> tuple[str, str]:
    """The script and the style of Leaflet, with its pictures in the style."""
    try:
        script, style = ((LEAFLET / name).read_text("utf-8") for name in ("leaflet.min.js", "leaflet.css"))
        for name in set(re.findall(r"url\((images/[\w.-]+)\)", style)):
            style = style.replace(f"url({name})", f"url(data:image/png;base64,{base64.b64encode((LEAFLET / name).read_bytes()).decode()})")
    except OSError as error:
        raise Fault("the library Leaflet is missing (on Debian: apt-get install libjs-leaflet)") from error
    return re.sub(r"//# sourceMappingURL=\S+", "", script), re.sub(r"/\*# sourceMappingURL=.*?\*/", "", style)


def in_script(value: object) -> str:
    """A value as JSON that ends no script."""
    return json.dumps(value, ensure_ascii=False, separators=(",", ":")).replace("<", "\\u003c")


def paints() -> dict[str, dict[str, object]]:
    """How each look is painted, in Leaflet's words."""
    out = {look.value: {"color": paint.line, "weight": 1, "fillColor": paint.fill, "fillOpacity": paint.opacity, "dashArray": paint.dash or None}
           for look, paint in LOOKS.items()}
    out["runway"] = {"color": INK, "weight": 4, "lineCap": "butt"}
    out["notice"] = {"color": NOTICE_LINE, "weight": 2, "fill": False, "dashArray": "10 5"}
    out["circle"] = {"color": CIRCLE_LINE, "weight": 1.5, "fill": False, "dashArray": "2 4"}
    return out


def marks() -> dict[str, dict[str, object]]:
    return {finding.value: {"color": mark.symbol, "text": mark.text, "words": mark.words, "corners": mark.corners} for finding, mark in MARKS.items()}


def page(features: Sequence[Feature], grid: Grid, title: str, tiles: Tiles | None) -> str:
    script, style = leaflet()
    data = {"features": [member(one, grid) for one in features], "paints": paints(), "marks": marks(), "tiles": vars(tiles) if tiles else None}
    pictures = " ".join(["data:", *([tiles.server] if tiles else [])])
    policy = f"default-src 'none'; script-src 'unsafe-inline'; style-src 'unsafe-inline'; img-src {pictures}"
    note = f"{ABOUT} {grid.about_earth()}."
    return f"""<!DOCTYPE html>
<html lang="en"><head><meta charset="utf-8"><meta name="viewport" content="width=device-width, initial-scale=1">
<meta http-equiv="Content-Security-Policy" content="{html.escape(policy)}">
<title>{html.escape(title)}</title>
<!-- {LICENSE} -->
<style>{style}{STYLE}</style></head>
<body><main id="map" aria-label="Map"></main>
<aside><h1>{html.escape(title)}</h1><p class="note">{html.escape(note)}</p><div id="list"></div></aside>
<script type="application/json" id="data">{in_script(data)}</script>
<script>{script}</script>
<script>{SCRIPT}</script>
</body></html>
"""


STYLE = """
html, body { height: 100%; margin: 0; font: 14px/1.35 Helvetica Neue, Helvetica, Arial, Liberation Sans, DejaVu Sans, sans-serif; color: #1f2933 }
body { display: flex }
#map { flex: 1; background: #f4f2ec }
aside { width: 21em; overflow-y: auto; padding: 0 1em; background: #fcfbf8; border-left: 1px solid #c9c4b8 }
h1 { font-size: 1.25em }
.note { font-size: .85em; color: #5b6875 }
#list button { display: block; width: 100%; padding: .4em .2em; border: 0; border-top: 1px solid #c9c4b8; background: none; font: inherit; text-align: left; cursor: pointer }
#list button:hover, #list button:focus-visible { background: #f4f2ec }
#list svg, .swatch { vertical-align: middle; margin-right: .4em }
.popup h2 { font-size: 1em; margin: 0 0 .3em }
.popup table { border-collapse: collapse }
.popup td { padding: .1em .6em .1em 0; vertical-align: top; border-top: 1px solid #eee }
.popup td.ft { text-align: right; white-space: nowrap }
.place { background: #fcfbf8; padding: .1em .5em }
@media (max-width: 700px) { body { flex-direction: column } aside { width: auto; max-height: 35%; border-left: 0; border-top: 1px solid #c9c4b8 } }
"""

SCRIPT = """
"use strict";
const { features, paints, marks, tiles } = JSON.parse(document.getElementById("data").textContent);
const FEET = 3937 / 1200, NARROW = 700;
const map = L.map("map", { zoomSnap: .5 });
if (tiles) L.tileLayer(tiles.url, { attribution: tiles.credit, maxZoom: 19 }).addTo(map);
map.attributionControl.setPrefix("Leaflet");

function element(name, text, parent) {
  const out = document.createElement(name);
  if (text !== undefined) out.textContent = text;
  if (parent) parent.append(out);
  return out;
}
function feet(value) { return value.toLocaleString("en-US", { minimumFractionDigits: 1, maximumFractionDigits: 1 }) + " ft"; }

// A symbol as the pictures have it: each finding has a shape of its own.
function symbol(mark, size) {
  const shape = mark.corners.length
    ? `<polygon points="${mark.corners.map(([x, y]) => `${x * size},${y * size}`).join(" ")}"`
    : `<circle r="${size * .82}"`;
  return `<svg width="${size * 3}" height="${size * 3}" viewBox="${-1.5 * size} ${-1.5 * size} ${size * 3} ${size * 3}">${shape} fill="${mark.color}" stroke="#fff" stroke-width="1.4"/></svg>`;
}

// What lies within a ring, by the edges east of it.
function contains(ring, [x, y]) {
  let inside = false;
  for (let i = 1; i < ring.length; i++) {
    const [ax, ay] = ring[i - 1], [bx, by] = ring[i];
    if ((ay > y) !== (by > y) && x < ax + (bx - ax) * (y - ay) / (by - ay)) inside = !inside;
  }
  return inside;
}

// The height of a plane over a point within its edge, from the heights of the corners (mean value coordinates).
function heightWithin(ring, [x, y], stretch) {
  const turns = [], ways = [];
  for (const [px, py] of ring) ways.push([(px - x) * stretch, py - y]);
  for (let i = 1; i < ring.length; i++) {
    const [a, b] = [ways[i - 1], ways[i]];
    turns.push(Math.tan(Math.atan2(a[0] * b[1] - a[1] * b[0], a[0] * b[0] + a[1] * b[1]) / 2));
  }
  let sum = 0, all = 0;
  for (let i = 0; i < turns.length; i++) {
    const far = Math.hypot(...ways[i]);
    if (far === 0) return ring[i][2];
    const weight = (turns[i] + turns[(i + turns.length - 1) % turns.length]) / far;
    sum += weight * ring[i][2];
    all += weight;
  }
  return sum / all;
}

// The height of a polygon over a point, in feet, or nothing where it does not cover it. A conical surface is taken face by face.
function heightOver(rings, at, stretch) {
  if (!contains(rings[0], at) || rings.slice(1).some(hole => contains(hole, at))) return null;
  if (rings.length === 1) return heightWithin(rings[0], at, stretch) * FEET;
  const outer = rings[0], inner = [...rings[1]].reverse();
  for (let i = 1; i < outer.length; i++) {
    const face = [outer[i - 1], outer[i], inner[i], inner[i - 1], outer[i - 1]];
    if (contains(face, at)) return heightWithin(face, at, stretch) * FEET;
  }
  return null;
}

// The surfaces over a place with their heights there, the lowest first; and the reaches that it lies in.
function surfacesAt(lat, lng) {
  const at = [lng, lat], stretch = Math.cos(lat * Math.PI / 180), out = [];
  for (const { properties, geometry } of features) {
    if (properties.layer !== "surface") continue;
    for (const rings of geometry.coordinates) {
      const height = heightOver(rings, at, stretch);
      if (height !== null) out.push({ ...properties, height });
    }
  }
  return out.sort((a, b) => a.height - b.height);
}
function reachesAt(lat, lng) {
  return features.filter(one => one.properties.layer === "reach" && one.geometry.coordinates.some(rings =>
    contains(rings[0], [lng, lat]) && !rings.slice(1).some(hole => contains(hole, [lng, lat])))).map(one => one.properties);
}

function placeWords(lat, lng) {
  return `${Math.abs(lat).toFixed(5)} ${lat < 0 ? "S" : "N"}, ${Math.abs(lng).toFixed(5)} ${lng < 0 ? "W" : "E"}`;
}
function placePopup(lat, lng) {
  const out = element("div");
  out.className = "popup";
  element("h2", placeWords(lat, lng), out);
  const table = element("table", undefined, out), found = surfacesAt(lat, lng);
  for (const one of found) {
    const row = element("tr", undefined, table);
    const height = element("td", feet(one.height), row);
    height.className = "ft";
    element("td", `${one.name} (${one.section})`, row);
  }
  for (const one of reachesAt(lat, lng)) {
    const row = element("tr", undefined, table);
    element("td", "within", row);
    element("td", `${one.name} (${one.section})`, row);
  }
  element("p", found.length ? "Feet above mean sea level, to within a foot; the desk's replies are exact." : "No surface of 77.19 or 77.23 lies over this place.", out);
  return out;
}
function structurePopup(one) {
  const out = element("div");
  out.className = "popup";
  element("h2", one.name, out);
  element("p", `${feet(one.height_ft)} on ground of ${feet(one.ground_ft)}, top ${feet(one.top_ft)}`, out);
  for (const text of one.words.split("; ")) element("div", text, out);
  return out;
}
function runwayPopup(one) {
  return element("div", one.layer === "runway"
    ? `${one.airfield} ${one.runway}: ${feet(one.length_ft)}, ${one.use}, ${one.pavement}; ${one.end_1} ${one.approach_1} ${feet(one.elevation_1_ft)}, ${one.end_2} ${one.approach_2} ${feet(one.elevation_2_ft)}`
    : `${one.airfield}: ${one.sort}, ${one.category}, ${feet(one.elevation_ft)}`);
}

// What is shown and hidden together, each with its line of the legend.
const groups = new Map();
function group(label, swatch) {
  if (!groups.has(label)) groups.set(label, { layer: L.layerGroup(), swatch });
  return groups.get(label).layer;
}
const SHARP = { smoothFactor: .2, interactive: false };
function box(paint) {
  return `<svg class="swatch" width="22" height="12"><rect x="1" y="1" width="20" height="10" fill="${paint.fill === false ? "none" : paint.fillColor || paint.color}" fill-opacity="${paint.fillOpacity ?? 1}" stroke="${paint.color}" stroke-dasharray="${paint.dashArray || ""}"/></svg>`;
}
function putSurface(one) {
  const { properties } = one, paint = paints[properties.surface];
  L.geoJSON(one, { ...SHARP, style: { ...paint, className: "surface" } }).addTo(group(properties.surface, box(paint)));
}
function putReach(one) {
  const isCircle = one.properties.rule === "17a2", paint = paints[isCircle ? "circle" : "notice"];
  L.geoJSON(one, { ...SHARP, style: { ...paint, className: "reach" } })
    .addTo(group(isCircle ? "height near an airport, 77.17(a)(2)" : "notice slope ends, 77.9(b)", box(paint)));
}
function putField(one) {
  const layer = one.geometry.type === "Point"
    ? L.marker(L.GeoJSON.coordsToLatLng(one.geometry.coordinates), { icon: L.divIcon({ className: "airfield", html: "", iconSize: [8, 8] }), title: one.properties.airfield, alt: one.properties.airfield })
        .bindTooltip(one.properties.airfield, { permanent: true, direction: "right" })
    : L.geoJSON(one, { style: { ...paints.runway, className: "runway" } });
  layer.bindPopup(() => runwayPopup(one.properties)).addTo(group("runways and airfields", box(paints.runway)));
}
function putStructure(one) {
  const { properties } = one, mark = marks[properties.finding];
  const layer = L.marker(L.GeoJSON.coordsToLatLng(one.geometry.coordinates), {
    icon: L.divIcon({ className: "structure", html: symbol(mark, 7), iconSize: [21, 21] }), title: properties.name, alt: `${properties.name}: ${mark.words}` });
  layer.bindPopup(() => structurePopup(properties), { maxWidth: 420 }).addTo(group(mark.words, symbol(mark, 6)));
  const button = element("button", undefined, document.getElementById("list"));
  button.innerHTML = symbol(mark, 6);
  element("strong", properties.name, button);
  for (const text of properties.words.split("; ")) element("div", text, button).style.color = mark.text;
  button.addEventListener("click", () => { layer.openPopup(); map.panTo(layer.getLatLng()); });
}

for (const one of features) ({ surface: putSurface, reach: putReach, runway: putField, airfield: putField, structure: putStructure })[one.properties.layer](one);
const legend = {};
for (const [label, { layer, swatch }] of groups) {
  legend[swatch + label] = layer;
  layer.addTo(map);
}
L.control.layers(null, legend, { collapsed: innerWidth < NARROW }).addTo(map);
L.control.scale({ maxWidth: 200 }).addTo(map);
const place = L.control({ position: "bottomleft" });
place.onAdd = () => { const out = L.DomUtil.create("div", "place"); out.textContent = "Click for the surfaces over a place."; return out; };
place.addTo(map);
map.on("mousemove", event => { place.getContainer().textContent = placeWords(event.latlng.lat, event.latlng.lng); });

function openAt(lat, lng) { L.popup({ maxWidth: 460 }).setLatLng([lat, lng]).setContent(placePopup(lat, lng)).openOn(map); }
map.on("click", event => openAt(event.latlng.lat, event.latlng.lng));
const bounds = L.latLngBounds([]);
for (const { properties, geometry } of features) {
  const isWide = properties.layer === "reach" || (properties.surface || "").includes("past") || (properties.surface || "").includes("second");
  if (!isWide) bounds.extend(L.geoJSON(geometry).getBounds());
}
map.fitBounds(bounds.isValid() ? bounds : [[-60, -170], [70, 170]]);
const [lat, lng] = decodeURIComponent(location.hash.slice(1)).split(",").map(Number);
if (Number.isFinite(lat) && Number.isFinite(lng)) { map.setView([lat, lng], map.getZoom()); openAt(lat, lng); }
"""
