%% Answers of a guide, out of bytes that come in any pieces.
%%
%% A line ends with LF. Where the first line of an answer ends with a space, `+` and a number, so many lines more belong
%% to it.
-module(rcv_lines).
-export([new/0, add/2]).
-export_type([answer/0, reader/0]).

%% The lines of an answer, without their ends.
-type answer() :: [binary(), ...].
%% The bytes of a line that isn't whole yet; and of an answer that isn't whole yet the lines, last first, and how many
%% are missing.
-opaque reader() :: #{bytes := binary(), lines := [binary()], missing := non_neg_integer()}.

-spec new() -> reader().
new() ->
    #{bytes => <<>>, lines => [], missing => 0}.

%% Takes bytes, and returns the answers that are whole with them.
-spec add(binary(), reader()) -> {[answer()], reader()}.
add(Bytes, #{bytes := Before} = Reader) ->
    Pieces = binary:split(<<Before/binary, Bytes/binary>>, <<"\n">>, [global]),
    {Lines, [Rest]} = lists:split(length(Pieces) - 1, Pieces),
    {Answers, Last} = lists:foldl(fun add_line/2, {[], Reader#{bytes := Rest}}, Lines),
    {lists:reverse(Answers), Last}.

add_line(Line, {Answers, #{lines := Before, missing := Missing} = Reader}) ->
    Lines = [Line | Before],
    case if Before =:= [] -> more(Line); true -> Missing - 1 end of
        0 -> {[lists:reverse(Lines) | Answers], Reader#{lines := [], missing := 0}};
        Left -> {Answers, Reader#{lines := Lines, missing := Left}}
    end.

%% How many lines more belong to an answer that begins with this one.
more(First) ->
    case lists:last(binary:split(First, <<" ">>, [global])) of
        <<"+", Number/binary>> -> binary_to_integer(Number);
        _ -> 0
    end.
