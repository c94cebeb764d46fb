"""Writes field files as VTK's XML files, which ParaView opens.

    python3 tools/cello_vtk.py field-*.bin                  field-0000.vtu, .., and fields.pvd for the series
    python3 tools/cello_vtk.py --names a,b field-0010.bin   with the fields' names

Each cell of each leaf is a voxel of an unstructured grid, in units of root cells. Cell data are `level`; for each field
its amounts, whole numbers; and the field per root cell, which is the same at all levels where a field is even. A
checkpoint is written in the same way, with the names of its fields.
"""

import argparse
import os
import sys

try:
    import numpy
except ImportError:
    sys.exit("numpy is missing: apt-get install python3-numpy")
try:
    from vtkmodules.util.numpy_support import numpy_to_vtk, numpy_to_vtkIdTypeArray
    from vtkmodules.vtkCommonCore import vtkPoints
    from vtkmodules.vtkCommonDataModel import VTK_VOXEL, vtkCellArray, vtkUnstructuredGrid
    from vtkmodules.vtkIOXML import vtkXMLUnstructuredGridWriter
except ImportError:
    sys.exit("VTK is missing: apt-get install python3-vtk9")

import cello_files


def _corners(fields):
    """The corners of all blocks' cells, x fastest, in root cells: [leaf, corner, 3]."""
    n = fields.edge
    steps = numpy.arange(n + 1)
    z, y, x = numpy.meshgrid(steps, steps, steps, indexing="ij")
    inside = numpy.stack([x.ravel(), y.ravel(), z.ravel()], axis=1)
    widths = 1.0 / (1 << fields.places[:, 0])
    return (fields.places[:, None, 1:] * n + inside[None]) * widths[:, None, None]


def _voxels(fields):
    """For each cell the numbers of its eight corners, x fastest."""
    n = fields.edge
    side = n + 1
    steps = numpy.arange(n)
    z, y, x = numpy.meshgrid(steps, steps, steps, indexing="ij")
    first = ((z * side + y) * side + x).ravel()
    corners = numpy.array([0, 1, side, side + 1, side ** 2, side ** 2 + 1, side ** 2 + side, side ** 2 + side + 1])
    block = first[:, None] + corners[None]
    leaves = numpy.arange(len(fields.places))
    return (block[None] + (leaves * side ** 3)[:, None, None]).reshape(-1, 8)


def grid_of(fields):
    """Fields as a VTK grid."""
    points = vtkPoints()
    points.SetData(numpy_to_vtk(_corners(fields).reshape(-1, 3).astype(numpy.float32), deep=True))
    voxels = _voxels(fields)
    cells = vtkCellArray()
    offsets = numpy.arange(0, 8 * len(voxels) + 1, 8)
    cells.SetData(numpy_to_vtkIdTypeArray(offsets, deep=True), numpy_to_vtkIdTypeArray(voxels.ravel(), deep=True))
    grid = vtkUnstructuredGrid()
    grid.SetPoints(points)
    grid.SetCells(VTK_VOXEL, cells)
    levels = numpy.repeat(fields.places[:, 0], fields.edge ** 3)
    _add(grid, "level", levels.astype(numpy.uint8))
    for number in range(fields.count):
        amounts = fields.amounts[:, number].ravel()
        _add(grid, fields.name(number), amounts)
        _add(grid, f"{fields.name(number)} per root cell", amounts * 8.0 ** levels)
    return grid


def _add(grid, name, values):
    array = numpy_to_vtk(numpy.ascontiguousarray(values), deep=True)
    array.SetName(name)
    grid.GetCellData().AddArray(array)


def write_grid(fields, path):
    writer = vtkXMLUnstructuredGridWriter()
    writer.SetFileName(path)
    writer.SetInputData(grid_of(fields))
    if writer.Write() != 1:
        raise cello_files.Fault(f"{path}: it can't be written")


def write_series(cycles, path):
    """A file that names the file of each cycle."""
    sets = "".join(f'    <DataSet timestep="{cycle}" file="{name}"/>\n' for cycle, name in cycles)
    with open(path, "w", encoding="ascii") as file:
        file.write(f'<VTKFile type="Collection" version="0.1">\n  <Collection>\n{sets}  </Collection>\n</VTKFile>\n')


def main():
    parser = argparse.ArgumentParser(description="Writes field files and checkpoints as VTK's XML files.")
    parser.add_argument("files", nargs="+", metavar="NAME", help="a field file or a checkpoint")
    parser.add_argument("--names", default="", help="the fields' names, as a,b")
    parser.add_argument("--to", default=".", metavar="FOLDER", help="where to write; this folder if left out")
    options = parser.parse_args()
    names = [name for name in options.names.split(",") if name]
    cycles = []
    try:
        for path in options.files:
            fields = cello_files.read_amounts(path, names)
            name = os.path.splitext(os.path.basename(path))[0] + ".vtu"
            write_grid(fields, os.path.join(options.to, name))
            cycles.append((fields.cycle, name))
        if len(cycles) > 1:
            write_series(sorted(cycles), os.path.join(options.to, "fields.pvd"))
    except (cello_files.Fault, OSError) as fault:
        sys.exit(str(fault))


if __name__ == "__main__":
    main()
