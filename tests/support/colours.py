"""The contrast of two colours, and how far apart they are for the eye: CIEDE2000 (Sharma, Wu and Dalal, 2005), for eyes
with all cones and for those without the red ones (protanopia) or the green ones (deuteranopia), as Machado, Oliveira
and Fernandes (2009) compute what these see."""
import math
from collections.abc import Iterable
from typing import Any

import numpy as np

# Lightness, and how far from grey towards red and towards yellow (CIELAB).
Lab = tuple[float, float, float]

# On linear parts of red, green and blue.
EYES = {
    "all cones": np.eye(3),
    "protanopia": np.array([[0.152286, 1.052583, -0.204868], [0.114503, 0.786281, 0.099216],
                            [-0.003882, -0.048116, 1.051998]]),
    "deuteranopia": np.array([[0.367322, 0.860646, -0.227968], [0.280085, 0.672501, 0.047413],
                              [-0.011820, 0.042940, 0.968881]]),
}
# From linear sRGB to XYZ.
XYZ = np.array([[0.4124564, 0.3575761, 0.1804375], [0.2126729, 0.7151522, 0.0721750],
                [0.0193339, 0.1191920, 0.9503041]])


def hexadecimal(parts: Iterable[float]) -> str:
    """A colour of parts from 0 to 1 as #rrggbb."""
    return "#" + "".join(f"{round(255 * float(part)):02x}" for part in parts)


def seen(colour: str, eyes: str) -> Lab:
    """What these eyes see of a colour, which is written as #rrggbb."""
    parts = XYZ @ np.clip(EYES[eyes] @ linear(colour), 0, 1) / XYZ.sum(axis=1)
    f, g, h = np.where(parts > 216 / 24389, np.cbrt(parts), (24389 / 27 * parts + 16) / 116).tolist()
    return 116 * g - 16, 500 * (f - g), 200 * (g - h)


def linear(colour: str) -> Any:
    """The linear parts of red, green and blue of a colour."""
    parts = np.array([int(colour[at:at + 2], 16) / 255 for at in (1, 3, 5)])
    return np.where(parts <= 0.04045, parts / 12.92, ((parts + 0.055) / 1.055) ** 2.4)


def turn(first: float, second: float) -> float:
    """From one hue to another, in degrees, by the shorter way."""
    return (second - first + 180) % 360 - 180


def difference(first: Lab, second: Lab) -> float:
    """CIEDE2000."""
    mean = (math.hypot(*first[1:]) + math.hypot(*second[1:])) / 2
    stretch = 1.5 - 0.5 * math.sqrt(mean ** 7 / (mean ** 7 + 25.0 ** 7))
    one, other = (stretch * first[1], first[2]), (stretch * second[1], second[2])
    chromas = math.hypot(*one), math.hypot(*other)
    hues = [math.degrees(math.atan2(along, across)) % 360 for across, along in (one, other)]
    across = turn(*hues) if chromas[0] * chromas[1] else 0.0
    hue = hues[0] + across / 2 if chromas[0] * chromas[1] else sum(hues)
    lightness, chroma = (first[0] + second[0]) / 2, sum(chromas) / 2
    cosines = ((-0.17, 1, -30), (0.24, 2, 0), (0.32, 3, 6), (-0.20, 4, -63))
    weight = 1 + sum(factor * math.cos(math.radians(many * hue + by)) for factor, many, by in cosines)
    turned = -2 * math.sqrt(chroma ** 7 / (chroma ** 7 + 25.0 ** 7))
    turned *= math.sin(math.radians(60 * math.exp(-(((hue % 360) - 275) / 25) ** 2)))
    by_lightness = (second[0] - first[0]) / (1 + 0.015 * (lightness - 50) ** 2 / math.sqrt(20 + (lightness - 50) ** 2))
    by_chroma = (chromas[1] - chromas[0]) / (1 + 0.045 * chroma)
    by_hue = 2 * math.sqrt(chromas[0] * chromas[1]) * math.sin(math.radians(across / 2)) / (1 + 0.015 * chroma * weight)
    return math.sqrt(by_lightness ** 2 + by_chroma ** 2 + by_hue ** 2 + turned * by_chroma * by_hue)


def least_difference(first: str, second: str) -> float:
    """Of two colours, for those eyes which see the least one."""
    return min(difference(seen(first, eyes), seen(second, eyes)) for eyes in EYES)


def contrast(first: str, second: str) -> float:
    """The contrast ratio of two colours, from 1 to 21 (WCAG)."""
    less, more = sorted(float(XYZ[1] @ linear(colour)) for colour in (first, second))
    return (more + 0.05) / (less + 0.05)
