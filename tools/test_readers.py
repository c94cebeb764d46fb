"""Tests of the readers, on files that the built program writes.

    python3 tools/test_readers.py crates/cello_main/out/cello_main

Ends with 'N passed, M failed'. Where numpy or VTK is missing it says so, and skips what needs it.
"""

import os
import subprocess
import sys
import tempfile

try:
    import numpy
except ImportError:
    print("the readers aren't tested: numpy is missing (apt-get install python3-numpy)")
    print("0 passed, 0 failed, 1 skipped")
    sys.exit(0)

sys.path.insert(0, os.path.dirname(os.path.abspath(__file__)))
import cello_files  # noqa: E402

# Three levels, an axis of each kind, two fields, and all files at each second cycle.
TEXT = """
Mesh { array = [2, 1, 1]; block = 4; max_level = 2; initial_rounds = 2; boundary = ["periodic", "open", "closed"]; }
Field { names = ["gas", "dust"]; }
Initial {
  cloud { shape = "box"; field = "gas"; low = [1, 0, 1]; high = [4, 3, 3]; amount = 1000; }
  grains { shape = "ball"; field = "dust"; center = [12, 4, 4]; radius = 2; amount = 77; }
}
Adapt { dense { type = "mass"; field = "gas"; refine = 40; coarsen = 3; } }
Method { velocity = [3, 1, 0]; den = 16; cycles = 6; }
Output { mesh = 2; fields = 2; checkpoint = 2; }
"""
EDGE = 4
NAMES = ["gas", "dust"]
CYCLES = [0, 2, 4, 6]

passed = failed = skipped = 0


def check(name, holds):
    global passed, failed
    if holds:
        passed += 1
    else:
        failed += 1
        print(f"differs: {name}")


def names_fault(path, word, read):
    """Reading the file fails with a text that names the file and has the word."""
    try:
        read(path)
    except cello_files.Fault as fault:
        return str(fault).startswith(path) and word in str(fault)
    return False


def write(path, data):
    with open(path, "wb") as file:
        file.write(data)
    return path


def run(program, room):
    """Runs the text in a folder, and writes its report there."""
    done = subprocess.run([program, "solo"], input=TEXT.encode(), capture_output=True, cwd=room, timeout=120)
    check("the run ends well", done.returncode == 0 and done.stderr == b"")
    return write(os.path.join(room, "report.txt"), done.stdout)


def test_cycle(room, told):
    """The files of a cycle, by what the report says of it."""
    cycle = told.cycle
    fields = cello_files.read_fields(f"{room}/field-{cycle:04}.bin", NAMES)
    mesh = cello_files.read_mesh(f"{room}/mesh-{cycle:04}.txt")
    kept = cello_files.read_checkpoint(f"{room}/state-{cycle:04}.cello")
    check(f"cycle {cycle}: shapes", fields.amounts.shape == (told.leaves, len(NAMES), EDGE, EDGE, EDGE))
    check(f"cycle {cycle}: number", fields.cycle == cycle and kept.fields.cycle == cycle)
    check(f"cycle {cycle}: totals", fields.totals() == [line.total for line in told.fields] == kept.totals)
    check(f"cycle {cycle}: gone", kept.gone == [line.gone for line in told.fields])
    check(f"cycle {cycle}: names", kept.fields.names == NAMES == [line.name for line in told.fields])
    check(f"cycle {cycle}: leaves of the mesh", (fields.places == mesh.places).all())
    check(f"cycle {cycle}: leaves of the checkpoint", (fields.places == kept.fields.places).all())
    check(f"cycle {cycle}: amounts", (fields.amounts == kept.fields.amounts).all())
    for level in (0, 1, 3):
        whole = fields.sample(0, level)
        shape = (EDGE << level, EDGE << level, 2 * EDGE << level)
        check(f"cycle {cycle}: level {level}", whole.sum() == told.fields[0].total and whole.shape == shape)


def test_faults(room):
    """Files that are cut or changed."""
    with open(f"{room}/field-0000.bin", "rb") as file:
        good = file.read()
    bad = f"{room}/bad.bin"
    for length in (0, 15, 16, len(good) - 1):
        write(bad, good[:length])
        check(f"a field file of {length} bytes", names_fault(bad, "truncated", cello_files.read_fields))
    write(bad, good + b"\0")
    check("a byte too many", names_fault(bad, "stand after its end", cello_files.read_fields))
    write(bad, good[:12] + (5).to_bytes(4, "big") + good[16:])
    check("an odd edge", names_fault(bad, "an edge of 5 cells", cello_files.read_fields))
    write(bad, good[:16] + b"\xff" + good[17:])
    check("a word that is no place", names_fault(bad, "leaf 0 is no place", cello_files.read_fields))
    write(bad, good[:16] + b"\0" * 8 + good[24:])
    check("a leaf too large", names_fault(bad, "don't fill the domain", cello_files.read_fields))
    with open(f"{room}/state-0000.cello", "rb") as file:
        good = file.read()
    bad = f"{room}/bad.cello"
    write(bad, good[:-1])
    check("a cut checkpoint", names_fault(bad, "truncated", cello_files.read_checkpoint))
    write(bad, b"x" + good[1:])
    check("another magic", names_fault(bad, "CELLOAMR", cello_files.read_checkpoint))
    write(bad, good[:9] + b"\2" + good[10:])
    check("another version", names_fault(bad, "version is 2", cello_files.read_checkpoint))
    write(bad, good[:-17] + bytes([good[-17] ^ 1]) + good[-16:])
    check("a wrong total", names_fault(bad, "adds up to", cello_files.read_checkpoint))
    bad = write(f"{room}/mesh-bad.txt", b"mesh 2\n0 0 0 0\n")
    check("a mesh with a leaf too few", names_fault(bad, "1 of 2 leaves", cello_files.read_mesh))
    bad = write(f"{room}/report-bad.txt", b"cello report 2\n")
    check("another report", names_fault(bad, "cello report 1", cello_files.read_report))


def test_samples():
    """Parts and sums of one cell, by hand: 11 has the parts 2, 2, 2, 1, 1, 1, 1, 1."""
    parts = [int(cello_files.part(numpy.int64(11), child)) for child in range(8)]
    check("parts of 11", parts == [2, 2, 2, 1, 1, 1, 1, 1])
    amounts = numpy.zeros((1, 1, 4, 4, 4), dtype=numpy.int64)
    amounts[0, 0, 0, 0, 3] = 11
    fields = cello_files.Fields(0, numpy.array([[0, 0, 0, 0]]), amounts)
    finer = fields.sample(0, 1)
    cells = [int(finer[z, y, x]) for z in (0, 1) for y in (0, 1) for x in (6, 7)]
    check("eight finer cells", cells == [2, 2, 2, 1, 1, 1, 1, 1] and finer.sum() == 11)


def test_grids(room):
    """What VTK's own reader finds in the files is what the field files hold."""
    global skipped
    try:
        import cello_vtk
        from vtkmodules.util.numpy_support import vtk_to_numpy
        from vtkmodules.vtkIOXML import vtkXMLUnstructuredGridReader
    except (ImportError, SystemExit):
        print("the VTK files aren't tested: VTK is missing (apt-get install python3-vtk9)")
        skipped += 1
        return
    paths = [f"{room}/field-{cycle:04}.bin" for cycle in CYCLES]
    tool = os.path.join(os.path.dirname(os.path.abspath(__file__)), "cello_vtk.py")
    done = subprocess.run([sys.executable, tool, "--names", ",".join(NAMES), "--to", room] + paths, timeout=120)
    check("cello_vtk.py ends well", done.returncode == 0)
    for path in paths:
        fields = cello_files.read_fields(path)
        reader = vtkXMLUnstructuredGridReader()
        reader.SetFileName(path[:-4] + ".vtu")
        reader.Update()
        grid, data = reader.GetOutput(), reader.GetOutput().GetCellData()
        check(f"{path}: cells", grid.GetNumberOfCells() == len(fields.places) * EDGE ** 3)
        check(f"{path}: bounds", grid.GetBounds() == (0.0, 2.0 * EDGE, 0.0, 1.0 * EDGE, 0.0, 1.0 * EDGE))
        totals = [int(vtk_to_numpy(data.GetArray(name)).sum()) for name in NAMES]
        check(f"{path}: totals", totals == fields.totals())
        levels = vtk_to_numpy(data.GetArray("level"))
        check(f"{path}: levels", (levels == numpy.repeat(fields.places[:, 0], EDGE ** 3)).all())
        centers = [grid.GetCell(cell).GetBounds() for cell in (0, EDGE ** 3 - 1)]
        width = EDGE / 2.0 ** fields.places[0, 0]
        check(f"{path}: first leaf", centers[0][0] == 0.0 and centers[1][1] == width and centers[1][5] == width)
    with open(f"{room}/fields.pvd", encoding="ascii") as file:
        series = file.read()
    check("the series", all(f'timestep="{cycle}" file="field-{cycle:04}.vtu"' in series for cycle in CYCLES))


def test_picture(room):
    """A picture is drawn, where matplotlib is there."""
    global skipped
    try:
        import matplotlib  # noqa: F401
    except ImportError:
        print("pictures aren't tested: matplotlib is missing (apt-get install python3-matplotlib)")
        skipped += 1
        return
    tool = os.path.join(os.path.dirname(os.path.abspath(__file__)), "cello_picture.py")
    picture = f"{room}/slice.png"
    done = subprocess.run([sys.executable, tool, f"{room}/state-0002.cello", "--to", picture], timeout=120)
    with open(picture, "rb") as file:
        check("a picture", done.returncode == 0 and file.read(8) == b"\x89PNG\r\n\x1a\n")


def main():
    program = os.path.abspath(sys.argv[1])
    test_samples()
    with tempfile.TemporaryDirectory(prefix="cello-readers-") as room:
        report = cello_files.read_report(run(program, room))
        check("a line for each cycle", [told.cycle for told in report.cycles] == list(range(7)))
        last = cello_files.read_mesh(f"{room}/mesh-0006.txt").places
        check("the last mesh", report.places is not None and (report.places == last).all())
        for told in report.cycles:
            if told.cycle in CYCLES:
                test_cycle(room, told)
        test_faults(room)
        test_grids(room)
        test_picture(room)
    print(f"{passed} passed, {failed} failed" + (f", {skipped} skipped" if skipped else ""))
    return failed > 0


if __name__ == "__main__":
    sys.exit(main())
