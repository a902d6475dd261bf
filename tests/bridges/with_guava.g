# tools/gap/codes.g against GUAVA: codes of which both find the minimum distance, at random, 200 of them over 2, 3, 4, 8, 9 and 16 elements;
# the word of a bracket, certificates, bounds that a code keeps, and mistakes. The program is $CODES. Where GAP is missing the gate runs
# this file by gap_stand_in.py.
LoadPackage("guava");;
Read("tools/gap/codes.g");
BreakOnError := false;;
SilentNonInteractiveErrors := true;;
CodesFailed := function(what)
    Print("failed: ", what, "\n");
end;;

# random codes
CodesTestDistances := function(options)
    local q, i, code, rows, distance, found, count;
    count := 0;
    for q in [2, 3, 4, 5, 7, 8, 9, 11, 13, 16] do
        i := 0;
        while i < 34 and (i < 5 or not q in [5, 7, 11, 13]) do
            rows := List([1 .. 2 + i mod 3], j -> List([1 .. 8], k -> Random(GF(q))));
            code := GeneratorMatCode(rows, GF(q));
            if Dimension(code) > 0 then
                i := i + 1;
                count := count + 1;
                distance := MinimumDistance(GeneratorMatCode(rows, GF(q)));
                found := CodesDistance(code, options);
                if not (found.isExact and found.low = distance and found.high = distance and found.word in code
                        and WeightCodeword(found.word) = distance and MinimumDistance(code) = distance) then
                    CodesFailed([q, GeneratorMat(code), found]);
                fi;
            fi;
        od;
    od;
    Print(count, " codes\n");
end;;

# a code that was searched keeps its bounds
CodesTestBounds := function(options)
    local code, found;
    code := HammingCode(3, GF(2));
    found := CodesDistance(code, rec(program := options.program, quiet := true, budget := 1, workers := 2));
    if found.isExact or found.low <> 2 or found.high <> 3 or found.blocks <> 1 then
        CodesFailed(found);
    fi;
    code := GeneratorMatCode([[1,0,0,0,0,1,1], [0,1,0,0,1,0,1], [0,0,1,0,1,1,0], [0,0,0,1,1,1,1]] * Z(2)^0, GF(2));
    found := CodesDistance(code, rec(program := options.program, quiet := true, budget := 1));
    if code!.lowerBoundMinimumDistance <> 2 or code!.upperBoundMinimumDistance <> 3 then
        CodesFailed("bounds of a bracket");
    fi;
    CodesDistance(code, options);
    CodesDistance(code, rec(program := options.program, quiet := true, budget := 0));
    if code!.lowerBoundMinimumDistance <> 3 or code!.upperBoundMinimumDistance <> 3 then
        CodesFailed("bounds of a distance");
    fi;
    found := CodesCertificate(code, options);
    if not StartsWith(found, "{\"by\":\"levels\",\"distance\":3,") or found[Length(found)] <> '}' then
        CodesFailed(found);
    fi;
end;;

# options and codes that are refused
CodesTestMistakes := function()
    local code, wanted, mistake;
    code := HammingCode(3, GF(2));
    for wanted in [[code, rec(Budget := 1), "no option Budget"], [code, rec(keep := "yes"), "no option keep"], [code, rec(budget := -1), "budget is a number"],
            [code, rec(workers := 0), "workers is a number"], [code, rec(quiet := 1), "quiet is"], [code, rec(program := 1), "program is"],
            [code, 7, "options are a record"], [[1], rec(), "no linear code"], [RepetitionCode(3, GF(25)), rec(), "over 25"],
            [NullCode(3, GF(2)), rec(), "dimension 0"], [RepetitionCode(256, GF(2)), rec(), "length 256"]] do
        mistake := CodesMistake(wanted[1], wanted[2]);
        if mistake = fail or PositionSublist(mistake, wanted[3]) = fail then
            CodesFailed([wanted[3], mistake]);
        fi;
    od;
    if CodesMistake(code, rec(budget := 0, workers := 256, quiet := false, program := "x")) <> fail then
        CodesFailed("options that are allowed");
    fi;
end;;

# what ends with an error: wrong answers of a program, no program, too many arguments; and right answers beside them
CodesTestErrors := function(options)
    local code, line, call;
    code := HammingCode(3, GF(2));
    for line in ["distance 1 word [1,0,0,0,0,0,0] blocks 2\n", "distance 2 word [0,0,0,0,0,0,0] blocks 2\n", "distance 4 word [1,1,1,0,0,0,0] blocks 2\n"] do
        if CALL_WITH_CATCH(CodesFound, [code, line])[1] then
            CodesFailed(line);
        fi;
    od;
    for call in [[code, rec(program := "/no/codes")], [code, rec(Budget := 1)], [code, options, options], [NullCode(3, GF(2)), options]] do
        if CALL_WITH_CATCH(CodesDistance, call)[1] or CALL_WITH_CATCH(CodesCertificate, call)[1] then
            CodesFailed("no error of a call");
        fi;
    od;
    if not CALL_WITH_CATCH(CodesDistance, [code, options])[1] then
        CodesFailed("a call that is right");
    fi;
end;;

CodesTest := function()
    local options;
    options := rec(program := GAPInfo.SystemEnvironment.CODES, quiet := true);
    CodesTestDistances(options);
    CodesTestBounds(options);
    CodesTestMistakes();
    CodesTestErrors(options);
    Print("done\n");
end;;
CodesTest();
QUIT;
