"""picture.py PICTURE TABLE: whether the SVG is well formed, has nothing but numbers in its places, and shows the checks that the table names."""
import re
import sys
import xml.etree.ElementTree as tree

SVG = "{http://www.w3.org/2000/svg}"
root = tree.parse(sys.argv[1]).getroot()
table = open(sys.argv[2]).read()
wrong = []

if (root.get("width"), root.get("height"), root.get("viewBox")) != ("800", "400", "0 0 800 400"):
    wrong.append("not 800 by 400")
number = r"\s*-?\d+(\.\d+)?\s*"
for path in root.iter(SVG + "path"):
    if not re.fullmatch(rf"\s*([MLHVhv]({number}){{1,2}}|Z\s*)*", path.get("d")):
        wrong.append("a path with something else than numbers: " + path.get("d")[:80])
for circle in root.iter(SVG + "circle"):
    if not all(re.fullmatch(number, circle.get(a)) for a in ("cx", "cy", "r")):
        wrong.append("a circle with something else than numbers")

# Each mark stands in the legend once. A doubtful check is a cross in a ring.
def place(circle):
    return float(circle.get("cx")), float(circle.get("cy"))


def middle(cross):
    x, y, to_x, to_y = [float(n) for n in re.findall(r"-?[\d.]+", cross.get("d"))][:4]
    return (x + to_x) / 2, (y + to_y) / 2


circles = {r: [place(c) for c in root.iter(SVG + "circle") if c.get("r") == r] for r in ("2.6", "4.5", "7.5")}
crosses = [middle(p) for p in root.iter(SVG + "path") if p.get("stroke") == "#c0002a"]
for ring in circles["7.5"]:
    if not any(abs(x - ring[0]) < 0.02 and abs(y - ring[1]) < 0.02 for x, y in crosses):
        wrong.append(f"a ring at {ring} with no cross in it")
drawn = (("taken", len(circles["2.6"])), ("first news", len(circles["4.5"])), ("doubtful", len(circles["7.5"])), ("adds nothing|only rounding", len(crosses) - len(circles["7.5"])))
for name, marks in drawn:
    named = len(re.findall(rf"  ({name})\b", table))
    if marks - 1 != named:
        wrong.append(f"{named} checks are {name}, and {marks - 1} are drawn")

words = " ".join(t.text for t in root.iter(SVG + "text"))
for word in ("offset, ", "time, ", "filtered", "smoothed", "check taken", "taken as first news", "passed over: no news", "passed over: doubtful", "no check"):
    if word not in words:
        wrong.append(f"'{word}' is not said")
for line in wrong:
    print(sys.argv[1] + ": " + line)
sys.exit(bool(wrong))
