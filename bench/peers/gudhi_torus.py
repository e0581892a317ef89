"""Betti numbers modulo a prime of the 3-torus of a size, by GUDHI: gudhi_torus.py SIZE PRIME"""
import sys

import gudhi

size, prime = int(sys.argv[1]), int(sys.argv[2])
complex_ = gudhi.PeriodicCubicalComplex(dimensions=[size] * 3, top_dimensional_cells=[0.0] * size**3,
                                        periodic_dimensions=[True] * 3)
complex_.compute_persistence(homology_coeff_field=prime, min_persistence=-1.0)
print("betti", *complex_.betti_numbers())
