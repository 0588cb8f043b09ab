"""maps.py TIME: a band of 4,096 cells written by our call, by Python's json and by GDAL's GeoJSON writer, CPU time of each; TIME is the program that bench/run builds from bench/time.c.
Ours takes the grid and measures and writes the file; Python is handed the features and only turns them into text; GDAL's ogr2ogr reads a file, 12 features' time taken off, and writes it."""
import json
import os
import resource
import shutil
import subprocess
import sys
import tempfile
import time

sys.path.insert(0, sys.path[0] + "/../compare")
import maps

ROUNDS = 9


def median(times):
    return sorted(times)[len(times) // 2]


def ours(program, columns, rows):
    line = "geojson 2 0 4 %d 256 %d 0 2 1 2 0 0 0\n" % (columns, rows)
    return float(subprocess.run([program], input=line, capture_output=True, text=True, check=True).stdout) / 1e6


def python(path):
    value, times = json.load(open(path)), []
    for _ in range(ROUNDS):
        start = time.process_time()
        json.dumps(value, separators=(",", ":"))
        times.append((time.process_time() - start) * 1e3)
    return median(times)


def gdal(path, folder):
    times = []
    for k in range(ROUNDS):
        before = resource.getrusage(resource.RUSAGE_CHILDREN)
        subprocess.run(["ogr2ogr", "-f", "GeoJSON", "-lco", "RFC7946=YES", "-lco", "COORDINATE_PRECISION=6", os.path.join(folder, "out%d.geojson" % k), path], check=True)
        after = resource.getrusage(resource.RUSAGE_CHILDREN)
        times.append((after.ru_utime + after.ru_stime - before.ru_utime - before.ru_stime) * 1e3)
        os.remove(os.path.join(folder, "out%d.geojson" % k))
    return median(times)


def main():
    with tempfile.TemporaryDirectory() as folder:
        small, path = os.path.join(folder, "small.geojson"), os.path.join(folder, "band.geojson")
        open(small, "wb").write(maps.band_file(6, 1, -90, 90))
        for columns, rows in ((2048, 1), (64, 32)):
            open(path, "wb").write(maps.band_file(columns, rows, -90, 90))
            mine, theirs = ours(sys.argv[1], columns, rows), python(path)
            line = "geojson %d x %d: ours %.2f ms, Python's json.dumps %.1f ms (%.1f times)" % (columns, rows, mine, theirs, theirs / mine)
            if shutil.which("ogr2ogr"):
                other = gdal(path, folder) - gdal(small, folder)
                line += ", GDAL's ogr2ogr %.1f ms (%.1f times)" % (other, other / mine)
            print(line)


if __name__ == "__main__":
    main()
