# Betti numbers modulo PRIME of the regular CW-complex COMPLEX, by the package HAP.
PrintBetti := function(complex, prime)
    local chains;
    chains := TensorWithIntegersModP(ChainComplex(complex), prime);
    Print("betti");
    Perform([0 .. 3], function(n)
        if n > Dimension(complex) then Print(" 0"); else Print(" ", Homology(chains, n)); fi;
    end);
    Print("\n");
end;
