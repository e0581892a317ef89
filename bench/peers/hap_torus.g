# Betti numbers modulo PRIME of the boundary lists in the file NAME, by the package HAP, which wants an empty last layer.
LoadPackage("HAP");;
Read(Concatenation(FOLDER, "/hap_betti.g"));
bounds := EvalString(ReadAll(InputTextFile(NAME)));;
Add(bounds, []);
PrintBetti(RegularCWComplex(bounds), PRIME);
QUIT;
