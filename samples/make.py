"""Writes the sample packets, always with the same bytes.

python3 make.py [FOLDER] writes them into FOLDER, or else into its own folder. README.md says what each file holds.
The flight is made up: snowmobiles on the sea ice of Van Mijenfjorden, Svalbard.
"""
import random
import sys
from pathlib import Path

DWELL_WIDTHS = [2, 2, 1, 2, 4, 4, 4, 4, 4, 4, 4, 4, 2, 2, 4, 1, 1, 2, 2, 2, 2, 2, 4, 4, 2, 2, 2, 2, 2, 1]  # D2 to D31
TARGET_WIDTHS = [2, 4, 4, 2, 2, 2, 2, 2, 1, 1, 1, 2, 2, 1, 2, 1, 4, 1]  # D32.1 to D32.18
HRR_WIDTHS = [2, 2, 1, 2, 2, 2, 2, 1, 1, 2, 2, 4, 4, 4, 1, 1, 1, 2, 1, 2, 4, 1, 1, 1, 1, 1, 4, 1, 4, 4]  # H2 to H31
CENTRE = (77.83, 16.50)  # of the dwells' area, in degrees north and east
SCATTER = random.Random(4607)


def number(value, width):
    return (value % 256**width).to_bytes(width, "big")


def text(words, width):
    return words.encode("ascii").ljust(width)


def signed_angle(degrees, bits=32):  # SA32, SA16
    return round(degrees * 2**bits / 180)


def angle(degrees, bits=32):  # BA32, BA16
    return round(degrees * 2**bits / 360)


def packet(version, *segments, platform="LN-ICE"):
    body = b"".join(segments)
    owner = b"NO" + number(5, 1) + b"  " + number(0, 2) + number(129, 1)  # not classified; an exercise, simulated data
    return version + number(32 + len(body), 4) + owner + text(platform, 10) + number(17, 4) + number(3, 4) + body


def segment(type_number, body):
    return number(type_number, 1) + number(5 + len(body), 4) + body


def dwell(fields, targets=()):
    """The fields by the n of Dn, the targets by the j of D32.j. The mask announces just these; D5 is worked out."""
    fields = {**fields, 5: len(targets)}
    announced = targets[0] if targets else {}
    body = number(sum(1 << 65 - n for n in fields) + sum(1 << 34 - j for j in announced), 8)
    body += b"".join(number(fields[n], DWELL_WIDTHS[n - 2]) for n in sorted(fields))
    for target in targets:
        body += b"".join(number(target[j], TARGET_WIDTHS[j - 1]) for j in sorted(target))
    return segment(2, body)


def place(index, more={}):
    """What every dwell has: time, the sensor at 3,000 m, an area of 4 km and 10 degrees to either side of its centre."""
    sensor = {6: 37_867_250 + 1200 * index, 7: signed_angle(77.70), 8: angle(16.20), 9: 300_000}
    area = {24: signed_angle(CENTRE[0]), 25: angle(CENTRE[1]), 26: 4 * 128, 27: angle(10, 16)}
    return {2: 1, 3: index, 4: 0, **sensor, **area, **more}


def points(count):
    """Points scattered about a line over the ice, in degrees north and east."""
    for i in range(count):
        part = (i + 1) / (count + 1)
        yield 77.82 + 0.02 * part + 0.001 * SCATTER.random(), 16.40 + 0.2 * part + 0.004 * SCATTER.random()


def targets(count, more={}):
    """Targets with position, speed, its ambiguity, signal to noise, class (tracked vehicle, simulated) and its probability."""
    where = [{2: signed_angle(north), 3: angle(east)} for north, east in points(count)]
    return [{**at, 7: 900 + int(200 * SCATTER.random()), 8: 2500, 9: 14, 10: 129, 11: 85, **more} for at in where]


def split_dwell():
    """One dwell in two segments, with three targets and with two: D2 and D3 are the same, and D32.1 counts on."""
    found = [{1: k, **target} for k, target in enumerate(targets(5))]
    return dwell(place(7), found[:3]), dwell(place(7), found[3:])


def long_sheet(count):
    """One dwell with so many targets by deltas, text of spaces and all else zero: what gmti_longest writes for this count."""
    found = dwell({n: 0 for n in [*range(2, 12), *range(24, 28)]}, [{4: 0, 5: 0}] * count)
    owner = text("", 2) + number(0, 1) + text("", 2) + number(0, 2) + number(0, 1) + text("", 10)
    return b"30" + number(32 + len(found), 4) + owner + number(0, 4) + number(0, 4) + found


def dwell_every_field(count):
    """A dwell with every field that Edition 1 allows beside deltas from the centre, here in units of 64 steps."""
    flight = {10: 64, 11: 64, 12: 250, 13: 250, 14: 300, 15: angle(92.5, 16), 16: 62_000, 17: -3, 18: 1, 19: 150, 20: 20}
    attitude = {21: angle(91, 16), 22: signed_angle(1.5, 16), 23: signed_angle(-0.5, 16), 31: 12}
    sensor = {28: angle(90, 16), 29: signed_angle(-12, 16), 30: 0}
    report = {6: 31, 7: -840, 8: 2500, 9: 17, 10: 129, 11: 75, 12: 400, 13: 60, 14: 5, 15: 45, 16: 1, 17: 70_001}
    found = []
    for north, east in points(count):
        delta = {4: signed_angle(north - CENTRE[0]) // 64, 5: angle(east - CENTRE[1]) // 64}
        found.append({1: len(found), **delta, **report})
    return dwell(place(1, {**flight, **attitude, **sensor}), found)


def lesson_cross_section(count):
    """A dwell with deltas in units of 16 steps, none of which leads out of the area, and D32.18, so that each target has 5 bytes."""
    found = []
    for north, east in points(count):
        # Such a delta reaches 0.044 degrees east, so the line is drawn in to two fifths of its length.
        delta = {4: signed_angle(0.4 * (north - CENTRE[0])) // 16, 5: angle(0.4 * (east - CENTRE[1])) // 16}
        found.append({**delta, 18: 4 + int(12 * SCATTER.random())})
    return dwell(place(9, {10: 16, 11: 16}), found)


def job(radar_mode):
    corners = [(77.88, 16.2), (77.88, 16.9), (77.79, 16.9), (77.79, 16.2)]  # clockwise from the north-west
    body = number(3, 4) + number(255, 1) + text("ICE-2", 6) + number(0, 1) + number(1, 1)
    body += b"".join(number(signed_angle(north), 4) + number(angle(east), 4) for north, east in corners)
    body += number(radar_mode, 1) + number(100, 2)  # J14, and J15: ten seconds
    body += number(50, 2) + number(50, 2) + number(100, 2) + number(1, 1) + number(200, 2)  # J16 to J20
    body += number(500, 2) + number(angle(0.05, 16), 2) + number(30, 2) + bytes([10, 90, 60, 0, 1])  # J21 to J28; J26 is 60
    return segment(5, body)


def plain_segments():
    """Mission, free text, test and status, platform location, and a processing history, which is kept opaque."""
    names = text("SEA ICE 2024", 12) + text("VANMIJEN-03", 12) + number(39, 1) + text("RADAR 2.1", 10)
    mission = segment(1, names + number(2024, 2) + number(4, 1) + number(18, 1))
    words = b"Ice firm from Svea to the mouth of the fjord, wind 4 m/s from NE.\r\nTwo groups of snowmobiles after 10:30 UTC."
    free_text = segment(6, text("STATION-04", 10) + text("ARCHIVE", 10) + words)
    status = segment(10, number(3, 4) + number(1, 2) + number(6, 2) + number(37_874_450, 4) + bytes([0, 0x80]))
    where = number(signed_angle(77.70), 4) + number(angle(16.05), 4) + number(300_000, 4)
    location = segment(13, number(37_800_000, 4) + where + number(angle(92.5, 16), 2) + number(62_000, 4) + number(0, 1))
    first, then = b"NO" + text("LN-ICE", 10) + number(17, 4), b"NO" + text("ARCHIVE", 10) + number(17, 4)
    history = number(1, 1) + first + number(3, 4) + number(1, 1) + then + number(4, 4) + number(0x0400, 2)
    return mission, free_text, status, location, segment(12, history)


def hrr(fields, scatterers):
    """An HRR segment as Edition 3 lays it out: the fields by the n of Hn, the scatterers by the j of H32.j."""
    body = number(sum(1 << 41 - n for n in fields) + sum(1 << 10 - j for j in scatterers[0]), 5)
    body += b"".join(number(fields[n], HRR_WIDTHS[n - 2]) for n in sorted(fields))
    widths = {1: fields[25], 2: fields[26], 3: 1, 4: 1}
    for scatterer in scatterers:
        body += b"".join(number(scatterer[j], widths[j]) for j in sorted(scatterer))
    return segment(3, body)


def range_profile():
    """The fields of a profile of twelve samples in one Doppler bin, of the target whose D32.1 is 0: one byte each, no phase."""
    dwell_and_report = {2: 1, 3: 2, 4: 0, 5: 0, 7: 12, 8: 1, 10: 80}
    resolution = {11: 30 * 128, 12: 25 * 128, 13: 5 << 16, 14: 2000 << 16}
    return {**dwell_and_report, **resolution, 16: 0, 17: 1, 18: 0, 19: 0, 23: 1, 24: 0, 25: 1, 26: 0}


def sparse_chip(count):
    """A sparse chip: each scatterer with a magnitude of two bytes, a phase of one, and the range and Doppler bins that it lies in."""
    found = [{1: 40 * k, 2: int(256 * SCATTER.random()), 3: 3 + 2 * k, 4: 6 + k % 4} for k in range(count)]
    fields = {n: value for n, value in range_profile().items() if n != 7}
    return hrr({**fields, 3: 8, 6: count, 8: 16, 9: 160, 23: 3, 25: 2, 26: 1, 27: 24}, found)


def samples():
    mission, free_text, status, location, history = plain_segments()
    trial = {n: 0 for n in [*range(2, 10), *range(24, 28)]}
    three = targets(3, {6: 31})
    bad = [*three[:2], {**three[2], 6: -1001}]
    made = {
        "header_only": packet(b"30"),
        "printed_trial": packet(b"30", dwell({**trial, 10: 65536, 11: 65536}, [{4: -128, 5: -64}])),
        "mission": packet(b"30", mission),
        "dwell_absolute": packet(b"30", dwell(place(0), three)),
        "dwell_every_field": packet(b"30", dwell_every_field(4)),
        "job_definition": packet(b"30", job(1)),
        "free_text": packet(b"30", free_text),
        "test_and_status": packet(b"30", status),
        "platform_location": packet(b"30", location),
        "opaque_processing_history": packet(b"30", history),
    }
    seen, profile = dwell(place(2), targets(1, {1: 0})), range_profile()
    magnitudes = [{1: int(200 * SCATTER.random())} for _ in range(12)]
    made |= {
        "new_range_profile": packet(b"30", seen, hrr(profile, magnitudes)),
        "new_heading_alone": packet(b"30", dwell(place(3, {28: angle(90, 16)}), targets(2))),
        "new_cross_section": packet(b"30", dwell(place(4), targets(2, {18: 20}))),
        "new_radar_mode": packet(b"30", mission, job(101)),
        "version_1_dwell_and_job": packet(b"10", dwell(place(0), three), job(1)),
        "version_3_dwell_and_job": packet(b"30", dwell(place(0), three), job(1)),
        "long_sheet": long_sheet(1453),
        "damaged_platform_name": packet(b"30", mission, platform="LN-ICE\n"),
        "damaged_height": packet(b"30", dwell(place(5), bad)),
        "damaged_cut_short": packet(b"30", dwell(place(0), three))[:-10],
        "damaged_profile_mask": packet(b"30", seen, hrr({n: profile[n] for n in profile if n != 24}, magnitudes)),
        "damaged_profile_count": packet(b"30", seen, hrr({**profile, 7: 13}, magnitudes)),
        # What came later is last, so that the others keep what they drew of SCATTER.
        "split_dwell": packet(b"30", *split_dwell()),
        "new_profile_with_indices": packet(b"30", dwell(place(8), targets(1, {1: 0})), sparse_chip(6)),
        "lesson_cross_section": packet(b"30", lesson_cross_section(6)),
    }
    names = ["dwell_every_field", "damaged_height", "new_cross_section", "version_1_dwell_and_job"]
    last = packet(b"30", dwell(place(6, {4: 1})), status, location, free_text)
    return {**made, "recording": b"".join([packet(b"30", mission, job(1)), *(made[name] for name in names), last])}


if __name__ == "__main__":
    folder = Path(sys.argv[1]) if len(sys.argv) > 1 else Path(__file__).parent
    for name, content in samples().items():
        (folder / f"{name}.gmti").write_bytes(content)
