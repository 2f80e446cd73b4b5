{ The same in Pascal: arguments printed, and their number as the status. }
program arguments;

var
    i: longint;

begin
    for i := 1 to ParamCount do
        WriteLn(i, ' <', ParamStr(i), '>');
    Halt(ParamCount)
end.
