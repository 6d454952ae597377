#!/usr/bin/env python3
"""Draws the pictures of README and ARCHITECTURE: `docs/architecture.py` writes `architecture.svg` and `library.svg` next to itself."""
import os
from xml.sax.saxutils import escape

HERE = os.path.dirname(os.path.abspath(__file__))
FONT = "DejaVu Sans, Verdana, Helvetica, Arial, sans-serif"
INK, PALE, LINE = "#1b1f24", "#57606a", "#8c959f"
# The colours of a layer: its ground, and the boxes on it.
GREY, BLUE, GREEN, AMBER, ROSE = ("#f3f4f6", "#ffffff"), ("#e3eefb", "#ffffff"), ("#e4f4e8", "#ffffff"), ("#fdf1d8", "#ffffff"), ("#fbe6e6", "#ffffff")


class Picture:
    """An SVG of boxes, lines of text and arrows."""

    def __init__(self, width, height, title):
        self.head = (
            f'<svg xmlns="http://www.w3.org/2000/svg" width="{width}" height="{height}" viewBox="0 0 {width} {height}" '
            f'role="img" font-family="{FONT}">\n<title>{escape(title)}</title>\n'
            '<defs><marker id="tip" viewBox="0 0 10 10" refX="9" refY="5" markerWidth="7" markerHeight="7" orient="auto-start-reverse">'
            f'<path d="M0 0 L10 5 L0 10 z" fill="{PALE}"/></marker></defs>\n')
        self.parts = []
        self.rect(0, 0, width, height, "#ffffff", None, 0)

    def rect(self, x, y, width, height, fill, stroke=LINE, radius=6):
        edge = f' stroke="{stroke}"' if stroke else ""
        self.parts.append(f'<rect x="{x}" y="{y}" width="{width}" height="{height}" rx="{radius}" fill="{fill}"{edge}/>')

    def text(self, x, y, words, size=12, weight="normal", fill=INK, anchor="middle"):
        self.parts.append(
            f'<text x="{x}" y="{y}" font-size="{size}" font-weight="{weight}" fill="{fill}" text-anchor="{anchor}">{escape(words)}</text>')

    def box(self, x, y, width, height, head, lines=(), fill="#ffffff"):
        """A box with a head in bold, and lines below it, in its middle."""
        self.rect(x, y, width, height, fill)
        top = y + (height - 15 * len(lines)) / 2 + 4
        self.text(x + width / 2, top, head, 12, "bold")
        for place, line in enumerate(lines, 1):
            self.text(x + width / 2, top + 15 * place, line, 11, fill=PALE)

    def arrow(self, x1, y1, x2, y2, both=True):
        start = ' marker-start="url(#tip)"' if both else ""
        self.parts.append(f'<line x1="{x1}" y1="{y1}" x2="{x2}" y2="{y2}" stroke="{PALE}" stroke-width="1.4"{start} marker-end="url(#tip)"/>')

    def path(self, points):
        """An arrow by way of points."""
        corners = " ".join(f"{x},{y}" for x, y in points)
        self.parts.append(f'<polyline points="{corners}" fill="none" stroke="{PALE}" stroke-width="1.4" marker-end="url(#tip)"/>')

    def write(self, name):
        with open(os.path.join(HERE, name), "w", encoding="utf-8") as file:
            file.write(self.head + "\n".join(self.parts) + "\n</svg>\n")


def architecture():
    """The layers, from hosts to files. A command goes down, its reply goes up."""
    picture = Picture(1000, 926, "The layers of vtl, from hosts down to saved media")
    left, right = 150, 984

    def layer(y, height, names, colours):
        picture.rect(12, y, right - 12 + 4, height, colours[0], None)
        for place, name in enumerate(names):
            picture.text(22, y + height / 2 + 4 + 15 * (place - (len(names) - 1) / 2), name, 12, "bold", anchor="start")

    layer(12, 66, ["Hosts"], GREY)
    layer(100, 66, ["Places"], GREY)
    layer(188, 76, ["Sessions"], BLUE)
    layer(286, 70, ["Server"], BLUE)
    layer(378, 76, ["Library"], GREEN)
    layer(476, 122, ["Logical units"], AMBER)
    layer(620, 70, ["Devices and", "tapes"], AMBER)
    layer(712, 66, ["Saving"], ROSE)
    layer(800, 112, ["On disk, and", "standard output"], ROSE)

    # Three columns: a script, the Unix socket, the portals.
    script, socket, portal = (left + 6, 204), (374, 276), (664, 314)
    for (x, width), (host, place) in zip((script, socket, portal), (
            (("a script", ["lines: nexus, LUN, CDB, data"]), ("standard input", ["script_input, script_lines"])),
            (("vtl client, or another client", ["frames of vtl's own protocol"]), ("Unix socket", ["--socket PATH"])),
            (("iSCSI initiators", ["PDUs of RFC 7143"]), ("iSCSI portals, up to 4", ["--iscsi ADDRESS:PORT"])))):
        picture.box(x, 21, width, 48, *host)
        picture.box(x, 109, width, 48, *place)
        picture.arrow(x + width / 2, 69, x + width / 2, 109, both=x != script[0])
    picture.box(socket[0], 197, socket[1], 58, "session", ["frames, read_buffer"])
    picture.box(portal[0], 197, portal[1], 58, "iscsi_session", ["iscsi_login, iscsi_chap, iscsi_keys,", "iscsi_pdu, iscsi_tasks, iscsi_answers"])
    picture.box(374, 295, 604, 52, "server: a worker for each session", ["live_sessions; library_server opens the library, serves it and has it closed"])
    picture.box(374, 387, 604, 58, "library_service, lun_router", ["a seat for each worker; a lock for each unit; kept_unit counts each record", "in the unit's book and in the seat's share"])
    picture.box(script[0], 387, script[1], 58, "replay, target_core", ["all units, one event after another,", "without locks"])
    for x, width in (socket, portal):
        middle = x + width / 2
        picture.arrow(middle, 157, middle, 197)
        picture.arrow(middle, 255, middle, 295)
    picture.arrow(676, 347, 676, 387)
    picture.arrow(script[0] + script[1] / 2, 157, script[0] + script[1] / 2, 387, both=False)
    picture.arrow(676, 445, 676, 484)
    picture.arrow(script[0] + script[1] / 2, 445, script[0] + script[1] / 2, 484)

    # A unit has its trail, its stages, and what it knows of nexuses.
    picture.rect(left + 6, 484, 822, 106, AMBER[1])
    picture.text(left + 417, 503, "logical_unit: LUN 0 is the changer, LUN 1 to 4 are drives", 12, "bold")
    picture.box(left + 16, 514, 190, 66, "audit trail", ["audit_log: a record", "of each event"], AMBER[0])
    picture.box(left + 234, 514, 270, 66, "judgement", ["the stages; the first that applies", "answers the command"], AMBER[0])
    picture.box(left + 532, 514, 286, 66, "reservations and attentions", ["pr_core, pr_params, permit_tables,", "unit_attention"], AMBER[0])
    picture.arrow(left + 234, 547, left + 206, 547, both=False)
    picture.arrow(left + 504, 547, left + 532, 547)
    picture.box(374, 629, 290, 52, "changer_server", ["element_map: volumes in elements"])
    picture.box(688, 629, 290, 52, "tape_server", ["tape_medium: blocks and filemarks"])
    picture.arrow(519, 590, 519, 629)
    picture.arrow(833, 590, 833, 629)
    picture.box(374, 721, 604, 48, "saved_media, tape_flush", ["threads take what is new under the unit's lock, part by part, and write each part afterwards"])
    picture.arrow(519, 681, 519, 721, both=False)
    picture.arrow(833, 681, 833, 721, both=False)
    for x, head, lines in (
            (374, "library.toml", ["library_inventory:", "where each volume is"]),
            (584, "TAG.tap", ["tape_image: the image", "of a volume"]),
            (794, "TAG.synced", ["how much of the image", "is on the disk"])):
        picture.box(x, 809, 184, 66, head, lines)
        picture.arrow(x + 92, 769, x + 92, 809, both=False)
    picture.text(676, 898, "media_folder: one directory, with a lock", 11, fill=PALE)
    picture.box(script[0], 809, script[1], 66, "lines", ["output_lines: records,", "and replies to a script"])
    picture.arrow(261, 580, 261, 809, both=False)
    picture.path([(script[0], 416), (145, 416), (145, 842), (script[0], 842)])
    picture.write("architecture.svg")


def library():
    """Hosts, the places where they come in, the units, and the volumes."""
    picture = Picture(860, 322, "Hosts, places, units and tapes of a vtl library")
    for y, head, line, place, option in (
            (20, "Linux, Windows hosts", "iSCSI initiators", "iSCSI portals", "--iscsi"),
            (96, "your programs", "frames, or vtl client", "Unix socket", "--socket"),
            (172, "a script", "vtl replay", "standard input", "one nexus a line")):
        picture.box(14, y, 168, 54, head, [line])
        picture.box(214, y, 142, 54, place, [option])
        picture.arrow(182, y + 27, 214, y + 27, both=head != "a script")
        picture.arrow(356, y + 27, 388, y + 27, both=head != "a script")
    picture.rect(388, 12, 458, 222, BLUE[0])
    picture.text(617, 32, "vtl", 13, "bold")
    picture.box(404, 44, 200, 54, "LUN 0: medium changer", ["moves volumes"], AMBER[0])
    picture.box(630, 44, 200, 54, "LUN 1 to 4: tape drives", ["a volume in each, or none"], AMBER[0])
    picture.arrow(604, 71, 630, 71)
    picture.text(617, 119, "each unit: reservations, attentions, a record of each command", 11, fill=PALE)
    picture.box(404, 132, 200, 54, "storage elements", ["--slots (filled: a volume)"], GREEN[0])
    picture.box(630, 132, 200, 54, "import/export elements", ["--portals"], GREEN[0])
    for place in range(8):
        for x in (404, 630):
            picture.rect(x + 12 + 22.5 * place, 196, 18, 26, GREEN[0] if place < (6 if x == 404 else 2) else "#ffffff", radius=3)
    picture.box(404, 262, 200, 46, "lines of records", ["and replies to a script"], ROSE[0])
    picture.box(630, 262, 200, 46, "a directory of images", ["--media: TAG.tap, library.toml"], ROSE[0])
    picture.arrow(504, 234, 504, 262, both=False)
    picture.arrow(730, 234, 730, 262)
    picture.write("library.svg")


if __name__ == "__main__":
    architecture()
    library()
