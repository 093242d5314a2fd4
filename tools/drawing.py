"""A picture as SVG, for pages that are light or dark: boxes, texts, lines and arrows on a page."""

STYLE = """<style>
.page { fill: #fff } .box { fill: #dce9f7; stroke: #1a5fb4 } .other { fill: #e3f1e1; stroke: #2e7d32 } .empty { fill: #fff; stroke: #9aa7b4 }
.unsure { fill: #f9e3c8; stroke: #b26a00 } text { fill: #222 } .name { font-weight: bold } .small { font-size: 13px } .loss { fill: #b3261e }
.arrow { stroke: #5e6a75; stroke-width: 1.5; fill: none } .cut { stroke: #5e6a75; stroke-dasharray: 3 4 } .head { fill: #5e6a75 }
@media (prefers-color-scheme: dark) {
.page { fill: #0d1117 } .box { fill: #1b2a3d; stroke: #6ea8e6 } .other { fill: #17301b; stroke: #7cc47f } .empty { fill: #0d1117; stroke: #5e6a75 }
.unsure { fill: #3a2a12; stroke: #e0a85a } text { fill: #e6edf3 } .loss { fill: #ff8a80 } .arrow, .cut { stroke: #9aa7b4 } .head { fill: #9aa7b4 }
}
</style>"""


class Page:
    """A page of this size in pixels, which grows by what is put on it, in order."""

    def __init__(self, title, wide, high):
        self.out = [
            f'<svg xmlns="http://www.w3.org/2000/svg" viewBox="0 0 {wide} {high}" width="{wide}" font-family="sans-serif" font-size="14">',
            f"<title>{title}</title>",
            STYLE,
            '<marker id="end" viewBox="0 0 8 8" refX="8" refY="4" markerWidth="8" markerHeight="8" orient="auto">',
            '<path class="head" d="M0 0 L8 4 L0 8 Z"/></marker>',
            f'<rect class="page" width="{wide}" height="{high}" rx="8"/>',
        ]

    def box(self, x, y, wide, high, kind="box"):
        self.out.append(f'<rect class="{kind}" x="{x}" y="{y}" width="{wide}" height="{high}" rx="3"/>')

    def text(self, x, y, words, kind="", anchor="middle"):
        of_kind = f' class="{kind}"' if kind else ""
        self.out.append(f'<text{of_kind} x="{x}" y="{y}" text-anchor="{anchor}">{words}</text>')

    def cut(self, x, top, bottom):
        """A dashed line from above to below."""
        self.out.append(f'<line class="cut" x1="{x}" y1="{top}" x2="{x}" y2="{bottom}"/>')

    def arrow(self, *points):
        """An arrow through points, each with its x and y."""
        ends = " L".join(f"{x} {y}" for x, y in points)
        self.out.append(f'<path class="arrow" d="M{ends}" marker-end="url(#end)"/>')

    def write(self, path):
        with open(path, "w", encoding="utf-8") as file:
            file.write("\n".join([*self.out, "</svg>\n"]))
