%% Tests of rcv_guide: a guide that dies, one that is silent, one that refuses the text, and none at all.
-module(rcv_guide_tests).
-export([told_test/0, dies_test/0, dies_behind_a_snapshot_test/0, refused_test/0, no_guide_test/0, silent_test/0, no_memory_test/0, ends_test/0, ends_with_owner_test/0]).

-define(PING, "module ping; global protocol Ping(role A, role B) { ping() from A to B; pong() from B to A; }").

-define(LOOP, "module loop; global protocol Loop(role A, role B) { rec X { ping(Int) from A to B; continue X; } }").
-define(QUESTIONS, [<<"kept">>, <<"line">>, <<"flight">>, <<"role A">>, <<"role B">>]).

told_test() ->
    Guide = guide(#{}),
    ['A', 'B'] = rcv_guide:roles(Guide),
    [<<"points +2">>, <<"point 1 ping A B">>, <<"point 2 pong B A">>] = rcv_guide:tell(Guide, <<"points">>),
    [<<"illegal turn receives 1">>] = rcv_guide:tell(Guide, <<"send B 2 pong 0">>),
    [<<"wrong 2 role">>] = rcv_guide:tell(Guide, <<"next C">>),
    rcv_guide:stop(Guide).

%% A new one is told what was taken, and answers as the old one would have.
dies_test() ->
    Guide = guide(#{}),
    Killer = killer:start(),
    Tell = fun(Line) ->
        killer:kill(Killer, rcv_guide:os_pid(Guide)),
        rcv_guide:tell(Guide, Line)
    end,
    [<<"done @1">>] = Tell(<<"send A 1 ping 5">>),
    [<<"flight +1">>, <<"flight A B 1 ping 5 @1">>] = Tell(<<"flight">>),
    [<<"done @2 <1">>] = Tell(<<"recv B 1 ping 5 <1">>),
    [<<"done">>] = Tell(<<"save B 1">>),
    [<<"done @3">>] = Tell(<<"send B 2 pong 6">>),
    [<<"done undone 1: A 1 B 1 +1">>, <<"back B 1 #1">>] = Tell(<<"fail B">>),
    [<<"stale incarnation 1">>] = Tell(<<"send B 2 pong 6 #0">>),
    killer:stop(Killer),
    rcv_guide:stop(Guide).

%% A new one is told a snapshot in place of many lines.
dies_behind_a_snapshot_test() ->
    {ok, Guide} = rcv_guide:start_link(#{text => ?LOOP}),
    [ping(Guide, Number) || Number <- lists:seq(1, 3000)],
    [<<"done @3001">>] = rcv_guide:tell(Guide, <<"send A 1 ping 7">>),
    Asked = [rcv_guide:tell(Guide, Question) || Question <- ?QUESTIONS],
    OsPid = rcv_guide:os_pid(Guide),
    os:cmd("kill -KILL " ++ integer_to_list(OsPid)),
    os_process:await_end(OsPid),
    Asked = [rcv_guide:tell(Guide, Question) || Question <- ?QUESTIONS],
    [<<"illegal front 1 ping 7 @3001">>] = rcv_guide:tell(Guide, <<"recv B 1 ping 8">>),
    rcv_guide:stop(Guide).

%% A message that is sent, received, and safe.
ping(Guide, Number) ->
    [[<<"done", _/binary>>] = rcv_guide:tell(Guide, Line) || Line <- [
        <<"send A 1 ping 7">>,
        <<"recv B 1 ping 7">>,
        ["save A ", integer_to_list(Number)],
        ["save B ", integer_to_list(Number)]
    ]].

refused_test() ->
    process_flag(trap_exit, true),
    {error, {refused, <<"refused", _/binary>>}} = rcv_guide:start_link(#{text => ?PING "\n%% plan\nhost h = A, C"}).

no_guide_test() ->
    process_flag(trap_exit, true),
    {error, guide_keeps_dying} = rcv_guide:start_link(#{text => ?PING, command => "true"}).

%% One that answers nothing is killed, though it doesn't notice that its input is at its end.
silent_test() ->
    process_flag(trap_exit, true),
    File = file_of_tests("silent"),
    Command = "sh -c 'echo $$ >> " ++ File ++ "; exec sleep 86399'",
    {error, guide_keeps_dying} = rcv_guide:start_link(#{text => ?PING, silence => 500, command => Command}),
    {ok, OsPids} = file:read_file(File),
    [os_process:await_end(binary_to_integer(OsPid)) || OsPid <- binary:split(OsPids, <<"\n">>, [global, trim])].

%% One that takes a text, and has no memory for any line.
no_memory_test() ->
    process_flag(trap_exit, true),
    Poor = "sed -u -n -e 's/^%% events$/ready 1 A B/p' -e '/^send/s/.*/memory/p'",
    {ok, Guide} = rcv_guide:start_link(#{text => ?PING, command => Poor}),
    {'EXIT', {guide_keeps_dying, _}} = (catch rcv_guide:tell(Guide, <<"send A 1 ping 5">>)).

%% Its process has gone where `stop` has returned.
ends_test() ->
    Guide = guide(#{}),
    OsPid = rcv_guide:os_pid(Guide),
    true = os_process:is_there(OsPid),
    rcv_guide:stop(Guide),
    false = os_process:is_there(OsPid).

%% It ends with the process that started it.
ends_with_owner_test() ->
    Tester = self(),
    {Owner, Monitor} = spawn_monitor(fun() ->
        Tester ! {guide, guide(#{})},
        receive never -> ok end
    end),
    Guide = receive {guide, Started} -> Started end,
    OsPid = rcv_guide:os_pid(Guide),
    OfGuide = monitor(process, Guide),
    exit(Owner, kill),
    receive {'DOWN', Monitor, process, Owner, killed} -> ok end,
    receive {'DOWN', OfGuide, process, Guide, killed} -> ok end,
    false = os_process:is_there(OsPid).

guide(Options) ->
    {ok, Guide} = rcv_guide:start_link(Options#{text => ?PING}),
    Guide.

%% A file in the folder into which the tests are built.
file_of_tests(Name) ->
    filename:join(filename:dirname(code:which(?MODULE)), Name).
