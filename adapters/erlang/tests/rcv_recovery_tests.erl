%% Tests of rcv_recovery: from which state on each role goes on, and what is told where one has none.
-module(rcv_recovery_tests).
-export([states_test/0, lacking_test/0, fault_test/0]).

%% The dead one begins from what it saved, or from its first state; one that lives has its own, since its process began.
states_test() ->
    {ok, Store} = rcv_store:start_link(),
    [ok = rcv_store:put(Store, Role, 0, 4, {Role, 4}) || Role <- [a, c]],
    {ok, Recovery} = recover([a, b], #{c => 6, d => 2}, Store, [{<<"fail a b">>,
        [<<"done undone 9: a 4 b 0 c 4 d 2 +4">>, <<"back a 4 #1">>, <<"back b 0 #1">>, <<"back c 4 #1">>, <<"back d 2 #1">>]}]),
    [{a, {saved, {a, 4}}}, {b, first}, {c, {saved, {c, 4}}}, {d, own}] = starts(Recovery),
    rcv_store:stop(Store).

%% c lives, began behind 8, and is to go to 6, but has saved at 4: that takes b further back, and d isn't concerned by it.
lacking_test() ->
    {ok, Store} = rcv_store:start_link(),
    [ok = rcv_store:put(Store, c, 0, Count, {c, Count}) || Count <- [4, 8]],
    {ok, Recovery} = recover([a], #{b => 0, c => 8, d => 0}, Store, [
        {<<"fail a">>,
         [<<"done undone 9: a 0 b 3 c 6 d 1 +4">>, <<"back a 0 #1">>, <<"back b 3 #1">>, <<"back c 6 #1">>, <<"back d 1 #1">>]},
        {<<"fail c=4">>,
         [<<"done undone 4: b 2 c 4 +3">>, <<"back b 2 #2">>, <<"back c 4 #2">>, <<"flight a c 1 ping 5 @3">>]}]),
    [{a, first}, {b, own}, {c, {saved, {c, 4}}}, {d, own}] = starts(Recovery),
    [{a, 0, 1}, {b, 2, 2}, {c, 4, 2}, {d, 1, 1}] =
        [{Role, Count, Incarnation} || {Role, {#{count := Count, incarnation := Incarnation}, _}} <- maps:to_list(Recovery)],
    #{c := {#{messages := [#{from := a, value := 5}]}, _}} = Recovery,
    rcv_store:stop(Store).

fault_test() ->
    {ok, Store} = rcv_store:start_link(),
    {fault, <<"illegal line a 4">>} = recover([a], #{}, Store, [{<<"fail a">>, [<<"illegal line a 4">>]}]),
    rcv_store:stop(Store).

starts(Recovery) ->
    [{Role, Start} || {Role, {_, Start}} <- maps:to_list(Recovery)].

%% The guide is told these lines, in this order, and answers so.
recover(Failed, Began, Store, Dialogue) ->
    put(dialogue, Dialogue),
    Tell = fun(Line) ->
        [{Line, Answer} | Rest] = get(dialogue),
        put(dialogue, Rest),
        Answer
    end,
    Recovery = rcv_recovery:recover(Failed, Began, Store, Tell),
    [] = get(dialogue),
    Recovery.
