"""Programs of others load our OBJ text: python3 tests/model/loaders.py [--program PATH] [--model]

Parts are printed by the program from the scripts that build them, with --model by the model. Each text is then loaded
by every loader that is here, and has to have the vertices, triangles, bounds and volume of the part:

    our own reader  always
    assimp          package assimp-utils; its triangles are measured as it exports them to STL
    admesh          package admesh; it is handed assimp's STL, and has to find one closed part with nothing to mend
    pywavefront     package python3-pywavefront, for any Python 3 that is found

A loader that is not installed is named, and only what was tested is counted. A block turned inside out goes along,
which each of them has to find turned. Prints 'N passed, M failed' as its last line.
"""

import functools
import json
import os
import re
import shutil
import subprocess
import sys
import tempfile
from collections import namedtuple

from compare_obj import script_for
from programs import built, path_given, printed
from tally import Tally
from wavefront import Mesh, determinant, mesh_of, read_text, text_of
from wavefront_parts import parts

SECONDS = 60
# The Python that runs this need not be the one that packages are installed for.
PYTHONS = (sys.executable, shutil.which("python3"), shutil.which("python3", path=os.defpath))

# What a loader finds: how many vertices and triangles, the least and the largest coordinates in hundredths of a
# millimetre, and six times the volume in cubic hundredths. None where it does not tell.
Found = namedtuple("Found", "vertices triangles low high volumes")


# Measuring

def hundredths(millimetres):
    """A loader's number, which is near to one of two decimals."""
    return round(100 * float(millimetres))


def bounds(points):
    return tuple(map(min, zip(*points))), tuple(map(max, zip(*points)))


def found_in(points, triangles):
    return Found(len(points), len(triangles), *bounds(points), sum(determinant(*corners) for corners in triangles))


def wanted_of(mesh, volumes):
    """What has to be found of a mesh that is meant to have this volume."""
    return Found(len(mesh.points), sum(len(face) - 2 for face in mesh.faces), *bounds(mesh.points), volumes)


# Loaders: each answers what it finds in the file, or says how it failed

def output_of(command, **options):
    done = subprocess.run(command, stdout=subprocess.PIPE, stderr=subprocess.STDOUT, text=True, errors="replace",
                          timeout=SECONDS, check=False, **options)
    if done.returncode != 0:
        raise ValueError(f"exit status {done.returncode}: {done.stdout[-300:]}")
    return done.stdout


def by_own_reader(path):
    with open(path, "rb") as file:
        mesh = read_text(file.read())
    fans = [(face[0], *pair) for face in mesh.faces for pair in zip(face[1:], face[2:])]
    return found_in(mesh.points, [[mesh.points[place - 1] for place in fan] for fan in fans])


def by_assimp(path):
    """Counts and bounds as it tells them, the volume of the triangles that it exports."""
    told = output_of(["assimp", "info", path])
    counts = [int(re.search(rf"^{name}: +(\d+)$", told, re.MULTILINE).group(1)) for name in ("Vertices", "Faces")]
    ends = [re.search(rf"^{name} point +\((.*)\)$", told, re.MULTILINE).group(1) for name in ("Minimum", "Maximum")]
    low, high = (tuple(map(hundredths, end.split())) for end in ends)
    return Found(*counts, low, high, stl_volumes(stl_of(path)))


def stl_of(path):
    """The file that assimp makes of it, whose text begins with the word solid."""
    stl = path + ".stl"
    if not os.path.exists(stl):
        output_of(["assimp", "export", path, stl])
    return stl


def stl_volumes(stl):
    with open(stl, encoding="ascii") as file:
        corners = [tuple(map(hundredths, line.split()[1:])) for line in file if line.split()[:1] == ["vertex"]]
    return sum(determinant(*corners[place:place + 3]) for place in range(0, len(corners), 3))


PYWAVEFRONT = """
import json, sys, pywavefront
scene = pywavefront.Wavefront(sys.argv[1], strict=True, collect_faces=True)
print(json.dumps([scene.vertices, [face for mesh in scene.mesh_list for face in mesh.faces]]))
"""


def by_pywavefront(path):
    vertices, faces = json.loads(output_of([python_with("pywavefront"), "-c", PYWAVEFRONT, path]))
    points = [tuple(map(hundredths, vertex)) for vertex in vertices]
    return found_in(points, [[points[place] for place in face] for face in faces])


@functools.cache
def python_with(package):
    """A Python that has this package, or None."""
    for python in filter(None, PYTHONS):
        done = subprocess.run([python, "-c", f"import {package}"], stderr=subprocess.DEVNULL, timeout=SECONDS,
                              check=False)
        if done.returncode == 0:
            return python
    return None


LOADERS = {"our own reader": by_own_reader, "assimp": by_assimp, "pywavefront": by_pywavefront}


# admesh, which mends what it loads and tells what it had to mend

NOTHING = ("Degenerate facets", "Edges fixed", "Facets removed", "Facets added", "Backwards edges")


def admesh_told(path):
    """Its statistics by name: those of one number, the facets that it came with, the bounds, the volume."""
    told = output_of(["admesh", stl_of(path)])
    numbers = {name: int(number) for name, number in re.findall(r"^([\w ]+?) +: +(\d+)\b", told, re.MULTILINE)}
    ends = [tuple(map(hundredths, re.findall(rf"{end} [XYZ] = +(\S+?),?\s", told))) for end in ("Min", "Max")]
    return numbers, ends, float(re.search(r"Volume +: +(\S+)", told).group(1))


def by_admesh(tally, name, path, wanted):
    numbers, ends, volume = admesh_told(path)
    tally.equal(f"admesh, {name}: facets", numbers["Number of facets"], wanted.triangles)
    tally.equal(f"admesh, {name}: bounds", ends, [wanted.low, wanted.high])
    tally.equal(f"admesh, {name}: disconnected", numbers["Total disconnected facets"], 0)
    tally.equal(f"admesh, {name}: mended", [numbers[kind] for kind in NOTHING], [0] * len(NOTHING))
    tally.equal(f"admesh, {name}: parts", numbers["Number of parts"], 1)
    # It tells no negative volume: it turns all facets first, and says how many.
    turned = 0 if wanted.volumes > 0 else wanted.triangles
    tally.equal(f"admesh, {name}: turned", numbers["Facets reversed"], turned)
    cubic_millimetres = abs(wanted.volumes) / 6 / 100 ** 3
    # It counts in single precision and tells six decimals.
    near = abs(volume - cubic_millimetres) <= 1e-4 * cubic_millimetres + 1e-6
    tally.equal(f"admesh, {name}: volume", volume if not near else cubic_millimetres, cubic_millimetres)


# All of it

def load(tally, loader, name, path, wanted):
    """One check for each number found."""
    try:
        found = LOADERS[loader](path)
    except (ValueError, AttributeError, OSError, subprocess.TimeoutExpired) as why:
        found = Found(*[f"not loaded: {why}"] * len(Found._fields))
    for field, got, have_to in zip(Found._fields, found, wanted):
        tally.equal(f"{loader}, {name}: {field}", got, have_to)


def load_admesh(tally, name, path, wanted):
    try:
        by_admesh(tally, name, path, wanted)
    except (ValueError, AttributeError, KeyError, OSError, subprocess.TimeoutExpired) as why:
        tally.equal(f"admesh, {name}", f"not loaded: {why}", "loaded")


def installed():
    """Which loaders are here; admesh only with assimp, which makes its files."""
    return {"our own reader": True, "assimp": shutil.which("assimp") is not None,
            "pywavefront": python_with("pywavefront") is not None,
            "admesh": shutil.which("admesh") is not None and shutil.which("assimp") is not None}


def texts(tally, program):
    """Name, text, and what has to be found, of each part and of the block turned inside out."""
    for part in parts():
        mesh = mesh_of(part.body, min(part.body.solids))
        text = text_of(mesh)
        if program is not None:
            told = printed(program, script_for(part.body))
            tally.equal(f"printed: {part.name}", told, text.decode("ascii"))
            text = told.encode("latin-1")
        yield part.name, text, wanted_of(mesh, part.volumes)
        if part.name == "block":
            turned = Mesh(mesh.points, [face[::-1] for face in mesh.faces])
            yield "block inside out", text_of(turned), wanted_of(turned, -part.volumes)


def main(arguments):
    path, arguments = path_given(arguments)
    program = None if "--model" in arguments else path or built("zoghvari_obj")
    tally, here = Tally(), installed()
    print("loaders: " + ", ".join(name if there else f"{name} (not installed)" for name, there in here.items()))
    with tempfile.TemporaryDirectory() as folder:
        for place, (name, text, wanted) in enumerate(texts(tally, program)):
            file_path = os.path.join(folder, f"part{place}.obj")
            with open(file_path, "wb") as file:
                file.write(text)
            for loader in [loader for loader in LOADERS if here[loader]]:
                load(tally, loader, name, file_path, wanted)
            if here["admesh"]:
                load_admesh(tally, name, file_path, wanted)
    print(f"{tally.passed} passed, {tally.failed} failed")
    return 0 if tally.failed == 0 and tally.passed > 0 else 1


if __name__ == "__main__":
    sys.exit(main(sys.argv[1:]))
