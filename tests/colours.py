"""Contrast, and how colour-blind readers see colours, of colours as a browser tells them: `rgb(0, 114, 178)`."""
import re


def linear(words):
    """A colour as parts of light."""
    numbers = [int(number) / 255 for number in re.findall(r"\d+", words)[:3]]
    return [number / 12.92 if number <= 0.04045 else ((number + 0.055) / 1.055) ** 2.4 for number in numbers]


def luminance(light):
    return 0.2126 * light[0] + 0.7152 * light[1] + 0.0722 * light[2]


def contrast(one, other):
    low, high = sorted((luminance(linear(one)), luminance(linear(other))))
    return (high + 0.05) / (low + 0.05)


# How colour-blind eyes see light, after Machado, Oliveira and Fernandes (2009): red, green and blue lacking.
EYES = {
    "all": [[1, 0, 0], [0, 1, 0], [0, 0, 1]],
    "without red": [[0.152286, 1.052583, -0.204868], [0.114503, 0.786281, 0.099216], [-0.003882, -0.048116, 1.051998]],
    "without green": [[0.367322, 0.860646, -0.227968], [0.280085, 0.672501, 0.047413], [-0.011820, 0.042940, 0.968881]],
    "without blue": [[1.255528, -0.076749, -0.178779], [-0.078411, 0.930809, 0.147602], [0.004733, 0.691367, 0.303900]],
}
TOLD_APART = 12  # in CIELAB; 2 to 3 are just seen side by side


def seen_by(eyes, words):
    """A colour in CIELAB, as these eyes see it."""
    light = [min(max(sum(a * b for a, b in zip(row, linear(words))), 0), 1) for row in EYES[eyes]]
    x = (0.4124 * light[0] + 0.3576 * light[1] + 0.1805 * light[2]) / 0.9505
    z = (0.0193 * light[0] + 0.1192 * light[1] + 0.9505 * light[2]) / 1.089
    root = lambda part: part ** (1 / 3) if part > 0.008856 else 7.787 * part + 16 / 116
    return 116 * root(luminance(light)) - 16, 500 * (root(x) - root(luminance(light))), 200 * (root(luminance(light)) - root(z))
