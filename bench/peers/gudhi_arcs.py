"""Betti numbers modulo 2 of the complement of an arc presentation, by GUDHI: gudhi_arcs.py FILE

The voxels are those that `hap --kind arcs` keeps; the cubical complex has them as its cells of dimension 3.
"""
import json
import sys

import gudhi


def taken(rows):
    """The voxels (x, y, z) that the arcs and their connectors take away."""
    voxels = set()
    columns = {}
    for number, (left, right) in enumerate(rows, 1):
        for column in (left, right):
            columns.setdefault(column, []).append(number)
            voxels.add((2 * column - 1, 2 * number - 1, 2))
        low, high = sorted((left, right))
        voxels.update((x, 2 * number - 1, 1) for x in range(2 * low - 1, 2 * high))
    for column, (first, last) in columns.items():
        voxels.update((2 * column - 1, y, 3) for y in range(2 * first - 1, 2 * last))
    return voxels


def main():
    with open(sys.argv[1]) as file:
        rows = json.loads(file.read().strip().rstrip(";"))
    side = 2 * len(rows) + 1
    away = taken(rows)
    # A voxel that stays comes first; GUDHI lists the values with the first coordinate running fastest.
    values = [1.0 if (x, y, z) in away else 0.0 for z in range(5) for y in range(side) for x in range(side)]
    complex_ = gudhi.CubicalComplex(dimensions=[side, side, 5], top_dimensional_cells=values)
    complex_.compute_persistence(homology_coeff_field=2, min_persistence=-1.0)
    print("betti", *complex_.persistent_betti_numbers(0.0, 0.5))


main()
