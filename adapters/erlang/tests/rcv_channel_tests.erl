%% Tests of rcv_channel: what the guide is told, and who hears what behind that.
-module(rcv_channel_tests).
-export([send_test/0, recv_test/0, save_test/0, next_test/0, fault_test/0]).

send_test() ->
    Message = message(),
    [{b, {message, Message}}, {a, taken}] = carry({send, point(), 5}, a, <<"send a 1 ping 5 #2">>, <<"done @3">>),
    [] = carry({send, point(), 5}, a, <<"send a 1 ping 5 #2">>, <<"stale incarnation 3">>).

recv_test() ->
    [{b, taken}] = carry({recv, message()}, b, <<"recv b 1 ping 5 <3 #2">>, <<"done @4 <3">>),
    [{b, old}] = carry({recv, message()}, b, <<"recv b 1 ping 5 <3 #2">>, <<"stale message">>),
    [] = carry({recv, message()}, b, <<"recv b 1 ping 5 <3 #2">>, <<"stale incarnation 3">>).

save_test() ->
    [] = carry({save, 4}, a, <<"save a 4 #2">>, <<"done">>),
    [] = carry({save, 4}, a, <<"save a 4 #2">>, <<"stale incarnation 3">>).

next_test() ->
    Point = point(),
    [{a, {next, {sends, [Point]}}}] = carry(next, a, <<"next a">>, <<"next a sends 1">>),
    [{a, {next, over}}] = carry(next, a, <<"next a">>, <<"next a over">>).

fault_test() ->
    Line = <<"send a 1 ping 5 #2">>,
    [{a, {fault, Line, <<"illegal turn over">>}}] = carry({send, point(), 5}, a, Line, <<"illegal turn over">>).

point() -> #{number => 1, label => ping, from => a, to => b}.
message() -> #{from => a, to => b, number => 1, label => ping, value => 5, stamp => 3}.

%% In its second incarnation, and the guide is told this line, and answers so.
carry(Request, Role, Line, Answer) ->
    rcv_channel:carry(Request, Role, 2, #{1 => point()}, fun(Told) when Told =:= Line -> [Answer] end).
