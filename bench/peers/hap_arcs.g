# Betti numbers modulo PRIME of the complement of the arc presentation in the file NAME, by the package HAP. The voxels are
# those that `hap --kind arcs` keeps.
LoadPackage("HAP");;
Read(Concatenation(FOLDER, "/hap_betti.g"));
rows := EvalString(Filtered(ReadAll(InputTextFile(NAME)), c -> not c in ";\n"));;
side := 2 * Length(rows) + 1;;
voxels := List([1 .. side], x -> List([1 .. side], y -> List([1 .. 5], z -> 1)));;
for row in [1 .. Length(rows)] do
    for x in [2 * Minimum(rows[row]) .. 2 * Maximum(rows[row])] do voxels[x][2 * row][2] := 0; od;
    for column in rows[row] do voxels[2 * column][2 * row][3] := 0; od;
od;
for column in [1 .. Length(rows)] do
    ends := Filtered([1 .. Length(rows)], row -> column in rows[row]);;
    for y in [2 * ends[1] .. 2 * ends[2]] do voxels[2 * column][y][4] := 0; od;
od;
PrintBetti(RegularCWComplex(PureCubicalComplex(voxels)), PRIME);
QUIT;
