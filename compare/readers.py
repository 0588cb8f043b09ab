"""readers.py FILE...: map files handed to readers that are not ours, those of them that are there: Python's json, jsonschema (an RFC 7946 schema of its own), GDAL's ogrinfo, shapely, geopandas. Every
ring must be closed, counterclockwise and inside -180 to 180; the areas must sum to the band's. One line a reader; the last names those that are missing."""
import json
import shutil
import subprocess
import sys
from fractions import Fraction

NUMBER = {"type": "number"}
POSITION = {"type": "array", "items": NUMBER, "minItems": 2, "maxItems": 2}
RING = {"type": "array", "items": POSITION, "minItems": 4}
SCHEMA = {
    "type": "object", "required": ["type", "features"], "additionalProperties": False,
    "properties": {"type": {"const": "FeatureCollection"}, "features": {"type": "array", "minItems": 1, "items": {
        "type": "object", "required": ["type", "id", "properties", "geometry"], "additionalProperties": False,
        "properties": {"type": {"const": "Feature"}, "id": {"type": "integer"}, "properties": {"type": "object", "required": ["cell"]},
                       "geometry": {"type": "object", "required": ["type", "coordinates"], "additionalProperties": False,
                                    "properties": {"type": {"const": "Polygon"}, "coordinates": {"type": "array", "items": RING, "minItems": 1}}}}}}}}


def exact(path):
    """the file with its numbers as exact fractions"""
    return json.load(open(path), parse_float=Fraction)


def rings(path):
    for f in exact(path)["features"]:
        (ring,) = f["geometry"]["coordinates"]
        yield f, ring


def by_json(path):
    twice, ids, ups = 0, [], []
    for f, ring in rings(path):
        assert ring[0] == ring[-1] and len(ring) == 4, "a ring does not close"
        area = sum(a[0] * b[1] - b[0] * a[1] for a, b in zip(ring, ring[1:]))
        assert area > 0, "a ring is not counterclockwise"
        assert all(-180 <= x <= 180 and -90 <= y <= 90 for x, y in ring), "a position is off the map"
        twice += area
        ids.append(f["id"])
        ups += [y for _, y in ring]
        assert f["id"] == f["properties"]["cell"]
    assert sorted(ids) == list(range(len(ids))), "the ids are not the cells"
    assert twice == 2 * 360 * (max(ups) - min(ups)), "the areas do not sum to the band"
    return len(ids)


def by_schema(path):
    import jsonschema
    jsonschema.validate(json.load(open(path)), SCHEMA)
    return len(json.load(open(path))["features"])


def by_ogrinfo(path):
    said = subprocess.run(["ogrinfo", "-ro", "-al", "-so", path], capture_output=True, text=True, check=True).stdout
    fields = dict(line.split(":", 1) for line in said.split("\n") if line.startswith(("Feature Count", "Geometry", "Extent")))
    assert fields["Geometry"].strip() == "Polygon", said
    assert fields["Extent"].strip().startswith("(-180.000000, "), said
    assert ") - (180.000000, " in fields["Extent"], said
    return int(fields["Feature Count"])


def by_shapely(path):
    from shapely.geometry import shape
    from shapely.ops import unary_union
    polygons = [shape(f["geometry"]) for f in json.load(open(path))["features"]]
    assert all(p.is_valid and p.exterior.is_ccw for p in polygons)
    whole = unary_union(polygons)
    west, south, east, north = whole.bounds
    assert (west, east) == (-180, 180) and abs(whole.area - 360 * (north - south)) < 1e-6 and abs(sum(p.area for p in polygons) - whole.area) < 1e-6
    return len(polygons)


def by_geopandas(path):
    import geopandas
    frame = geopandas.read_file(path)
    assert frame.is_valid.all()
    return len(frame)


READERS = [("json", by_json, None), ("jsonschema", by_schema, "jsonschema"), ("ogrinfo", by_ogrinfo, None), ("shapely", by_shapely, "shapely"), ("geopandas", by_geopandas, "geopandas")]


def there(name, module):
    if name == "ogrinfo":
        return shutil.which(name) is not None
    if module:
        try:
            __import__(module)
        except ImportError:
            return False
    return True


def main():
    paths, missing = sys.argv[1:], []
    for name, reader, module in READERS:
        if not there(name, module):
            missing.append(name)
            continue
        print("geojson: %s read %d files, %d features" % (name, len(paths), sum(reader(p) for p in paths)))
    if missing:
        print("geojson: not run, missing: " + ", ".join(missing))


if __name__ == "__main__":
    main()
