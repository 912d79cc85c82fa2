%% Tests of rcv_lines: the same answers, in whatever pieces the bytes come.
-module(rcv_lines_tests).
-export([one_line_test/0, further_lines_test/0, no_further_lines_test/0, pieces_test/0, unfinished_test/0, marks_within_test/0]).

one_line_test() ->
    [[<<"done @1">>]] = read([<<"done @1\n">>]).

further_lines_test() ->
    [[<<"kept A 0">>], [<<"points +2">>, <<"point 1 m A B">>, <<"point 2 n B A">>], [<<"done">>]] =
        read([<<"kept A 0\npoints +2\npoint 1 m A B\npoint 2 n B A\ndone\n">>]).

no_further_lines_test() ->
    [[<<"flight +0">>], [<<"done">>]] = read([<<"flight +0\ndone\n">>]).

%% A line within an answer may end as a first line does.
marks_within_test() ->
    [[<<"table +1">>, <<"+7">>], [<<"done +1">>, <<"x +9">>]] = read([<<"table +1\n+7\ndone +1\nx +9\n">>]).

pieces_test() ->
    Bytes = <<"done undone 2: A 0 B 0 +2\nback A 0 #1\nback B 0 #1\nready 1 A B\nflight +0\n">>,
    Whole = read([Bytes]),
    3 = length(Whole),
    [Whole = read(cut(Bytes, Size)) || Size <- lists:seq(1, byte_size(Bytes))].

unfinished_test() ->
    [] = read([<<"points +1\n">>, <<"point 1">>]).

cut(Bytes, Size) when byte_size(Bytes) =< Size -> [Bytes];
cut(Bytes, Size) ->
    <<Piece:Size/binary, Rest/binary>> = Bytes,
    [Piece | cut(Rest, Size)].

read(Pieces) ->
    {Answers, _} = lists:foldl(fun add/2, {[], rcv_lines:new()}, Pieces),
    Answers.

add(Piece, {Before, Reader}) ->
    {Answers, Next} = rcv_lines:add(Piece, Reader),
    {Before ++ Answers, Next}.
