# Minimum distances of GUAVA's codes, by the program `codes`.
#
#   LoadPackage("guava");
#   Read("tools/gap/codes.g");
#   CodesDistance(C);
#   CodesDistance(C, rec(budget := 2^24, workers := 4, program := "/usr/local/bin/codes", quiet := true));
#   CodesCertificate(C);
#
# C is a linear code of GUAVA over 2, 3, 4, 5, 7, 8, 9, 11, 13 or 16 elements, of length at most 255 and dimension at least 1. The
# answer of CodesDistance is a record, and C keeps these bounds, as GUAVA's own functions keep theirs, so that MinimumDistance(C) is
# answered at once if they are equal:
#   low, high     two numbers between which the minimum distance lies; they are equal if the search was finished
#   isExact       whether it was
#   word          a codeword of weight `high`, as a codeword of GUAVA
#   blocks        how many blocks of 4,096 words were searched
# CodesCertificate gives a certificate of the minimum distance, as a line of text for `codes check`, or a line that says why there is
# none. Both take the same components, and it is an error if there is another one:
#   budget        the most blocks of a search, 2^20 by default
#   workers       the number of threads, 1 by default
#   program       the path of `codes`, by default the one on the path of the system
#   quiet         whether the line that `codes` writes of each round to standard error is left out, false by default

# Z(q)^0, Z(q)^1, .. as `codes` numbers them, for the fields in which a number isn't the sum of so many ones.
CodesPowers := rec(
    4 := [1, 2, 3],
    8 := [1, 2, 4, 3, 6, 7, 5],
    9 := [1, 3, 4, 7, 2, 6, 8, 5],
    16 := [1, 2, 4, 8, 3, 6, 12, 11, 5, 10, 7, 14, 15, 13, 9]);

# the number of a field element
CodesNumber := function(q, x)
    if IsZero(x) then
        return 0;
    elif IsPrimeInt(q) then
        return IntFFE(x);
    fi;
    return CodesPowers.(q)[LogFFE(x, Z(q)) + 1];
end;

# the field element of a number
CodesElement := function(q, n)
    if n = 0 then
        return 0 * Z(q);
    elif IsPrimeInt(q) then
        return n * Z(q)^0;
    fi;
    return Z(q)^(Position(CodesPowers.(q), n) - 1);
end;

# what is wrong with the components of a record of options, or fail
CodesMistakeInOptions := function(options)
    local name, limits;
    if not IsRecord(options) then
        return "the options are a record, as rec(workers := 4)";
    fi;
    limits := rec(budget := [0, 2^40], workers := [1, 256]);
    for name in RecNames(options) do
        if name in RecNames(limits) then
            if not (IsInt(options.(name)) and options.(name) >= limits.(name)[1] and options.(name) <= limits.(name)[2]) then
                return Concatenation(name, " is a number from ", String(limits.(name)[1]), " to ", String(limits.(name)[2]));
            fi;
        elif name = "quiet" then
            if not options.quiet in [true, false] then
                return "quiet is true or false";
            fi;
        elif name = "program" then
            if not IsString(options.program) then
                return "program is a path, as a string";
            fi;
        else
            return Concatenation("there is no option ", name, "; there are budget, workers, program and quiet");
        fi;
    od;
    return fail;
end;

# what is wrong with a code or the options, or fail
CodesMistake := function(C, options)
    local q;
    if not IsLinearCode(C) then
        return "this is no linear code of GUAVA";
    fi;
    q := Size(LeftActingDomain(C));
    if not q in [2, 3, 4, 5, 7, 8, 9, 11, 13, 16] then
        return Concatenation("codes are over 2, 3, 4, 5, 7, 8, 9, 11, 13 or 16 elements, and this one is over ", String(q));
    elif WordLength(C) > 255 then
        return Concatenation("codes have length 255 at most, and this one has length ", String(WordLength(C)));
    elif Dimension(C) = 0 then
        return "a code of dimension 0 has no nonzero word";
    fi;
    return CodesMistakeInOptions(options);
end;

# the script that asks a query of the code
CodesScript := function(query, C)
    local q, rows;
    q := Size(LeftActingDomain(C));
    rows := List(GeneratorMat(C), row -> List(row, x -> CodesNumber(q, x)));
    return Concatenation(query, "(GeneratorMatCode(", Filtered(String(rows), c -> c <> ' '), ",GF(", String(q), ")));\n");
end;

# what the program prints of a script
CodesRun := function(script, options)
    local name, program, text, out, status, args;
    if IsBound(options.program) then
        program := options.program;
    else
        program := Filename(DirectoriesSystemPrograms(), "codes");
    fi;
    if program = fail then
        Error("the program `codes` is not on the path; give its path as the component `program`");
    elif not IsExecutableFile(program) then
        Error("there is no program ", program);
    fi;
    args := ["run"];
    for name in ["budget", "workers"] do
        if IsBound(options.(name)) then
            Add(args, Concatenation(name, "=", String(options.(name))));
        fi;
    od;
    if IsBound(options.quiet) and options.quiet then
        args := Concatenation(["-c", "exec \"$0\" \"$@\" 2>/dev/null", program], args);
        program := "/bin/sh";
    fi;
    text := "";
    out := OutputTextString(text, true);
    status := Process(DirectoryCurrent(), program, InputTextString(script), out, args);
    CloseStream(out);
    if status <> 0 then
        Error("codes ended with status ", status, ", see docs/FORMATS.md: ", text);
    fi;
    return text;
end;

# The line that the program prints of a query of the code. The options are a list of one record, or the empty list.
CodesAnswer := function(query, C, options)
    local mistake;
    if Length(options) > 1 then
        Error("there are too many arguments: the options are one record");
    fi;
    options := Concatenation(options, [rec()])[1];
    mistake := CodesMistake(C, options);
    if mistake <> fail then
        Error(mistake);
    fi;
    return CodesRun(CodesScript(query, C), options);
end;

# the answer that the line of MinimumDistance gives; C keeps its bounds
CodesFound := function(C, line)
    local q, parts, list, word, found;
    # distance D word [..] blocks B, or distance between L and W word [..] blocks B
    parts := Filtered(SplitString(line, " \n", " \n"), part -> part <> "");
    q := Size(LeftActingDomain(C));
    list := EvalString(First(parts, part -> part[1] = '['));
    word := Codeword(List(list, n -> CodesElement(q, n)), GF(q));
    if parts[2] = "between" then
        found := rec(low := Int(parts[3]), high := Int(parts[5]), isExact := false, word := word, blocks := Int(parts[9]));
    else
        found := rec(low := Int(parts[2]), high := Int(parts[2]), isExact := true, word := word, blocks := Int(parts[6]));
    fi;
    if not word in C or WeightCodeword(word) <> found.high then
        Error("codes answered a word that is no word of this code, or of another weight: ", list);
    fi;
    if not IsBound(C!.lowerBoundMinimumDistance) or C!.lowerBoundMinimumDistance < found.low then
        C!.lowerBoundMinimumDistance := found.low;
    fi;
    if not IsBound(C!.upperBoundMinimumDistance) or C!.upperBoundMinimumDistance > found.high then
        C!.upperBoundMinimumDistance := found.high;
    fi;
    return found;
end;

CodesDistance := function(C, options...)
    return CodesFound(C, CodesAnswer("MinimumDistance", C, options));
end;

CodesCertificate := function(C, options...)
    return Chomp(CodesAnswer("Certificate", C, options));
end;
