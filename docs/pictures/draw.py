"""draw.py FILE.geojson PICTURE.png: draws a map file on a plate carree map of the whole world, two pixels and a half to a degree: every polygon filled, its shade by its cell's number, its rim
dark; a line for every 30 degrees. It reads the file as any reader does and needs nothing beside Python."""
import colorsys
import json
import struct
import sys
import zlib

WIDE, HIGH = 900, 450


def pixel(p):
    return (p[0] + 180) * (WIDE - 1) / 360, (90 - p[1]) * (HIGH - 1) / 180


def inside(x, y, t):
    """how far the point lies inside the triangle, in pixels, or less than 0"""
    least = 1e9
    for (ax, ay), (bx, by) in zip(t, t[1:] + t[:1]):
        length = ((bx - ax) ** 2 + (by - ay) ** 2) ** 0.5
        least = min(least, ((ax - bx) * (y - ay) - (ay - by) * (x - ax)) / length)
    return least


def main():
    features = json.load(open(sys.argv[1]))["features"]
    picture = [[(255, 255, 255)] * WIDE for _ in range(HIGH)]
    for k in range(-180, 181, 30):
        x = round(pixel((k, 0))[0])
        for y in range(HIGH):
            picture[y][x] = (215, 215, 215)
        if -90 <= k <= 90:
            picture[round(pixel((0, k))[1])] = [(215, 215, 215)] * WIDE
    for f in features:
        t = [pixel(p) for p in f["geometry"]["coordinates"][0][:3]]
        shade = tuple(int(255 * c) for c in colorsys.hls_to_rgb(0.55 + 0.3 * f["id"] / len(features), 0.78 if f["id"] % 2 else 0.68, 0.5))
        for y in range(int(min(p[1] for p in t)), int(max(p[1] for p in t)) + 2):
            for x in range(int(min(p[0] for p in t)), int(max(p[0] for p in t)) + 2):
                far = inside(x, y, t) if 0 <= x < WIDE and 0 <= y < HIGH else -1
                if far >= 0:
                    picture[y][x] = shade if far > 1 else (60, 60, 90)
    rows = b"".join(b"\0" + bytes(c for p in row for c in p) for row in picture)
    chunk = lambda kind, data: struct.pack(">I", len(data)) + kind + data + struct.pack(">I", zlib.crc32(kind + data))
    open(sys.argv[2], "wb").write(b"\x89PNG\r\n\x1a\n" + chunk(b"IHDR", struct.pack(">IIBBBBB", WIDE, HIGH, 8, 2, 0, 0, 0)) + chunk(b"IDAT", zlib.compress(rows, 9)) + chunk(b"IEND", b""))


if __name__ == "__main__":
    main()
