%% Tests of rcv_supervisor on the node of the tests.
-module(rcv_supervisor_tests).
-import(watched, [start/3, begin_session/3, await/1, kill/2, kill_behind/3, held/1, await_held/1, release/1, await_told/1, await_back/1, await_event/0]).
-export([ends_test/0, role_dies_test/0, over_again_test/0, old_message_test/0, guide_dies_test/0, always_dies_test/0, fault_test/0,
         lacking_state_test/0, other_roles_test/0, refused_test/0, no_node_test/0, long_test/0, domino_test/0]).

-define(PING, "module ping; global protocol Ping(role A, role B) { ping() from A to B; pong() from B to A; }").
-define(TWO, "module two; global protocol Two(role A, role B) { one() from A to B; two() from A to B; three() from B to A; }").
-define(LOOP, "module loop; global protocol Loop(role A, role B) { rec X { choice at A {
               more() from A to B; reply() from B to A; continue X; } or { stop() from A to B; } } }").

ends_test() ->
    Supervisor = start(?PING, #{'A' => #{value => fun(ping, []) -> 5 end}, 'B' => #{value => fun(pong, [{ping, N}]) -> N + 1 end}}, #{}),
    #{'A' := [{ping, 5}, {pong, 6}], 'B' := [{ping, 5}, {pong, 6}]} = await(Supervisor),
    rcv_supervisor:stop(Supervisor).

%% A waits within `pong` until B, who has saved nothing, has died, and what A did with that is undone. Then late news of the
%% dead one are old news.
role_dies_test() ->
    Supervisor = start(?PING, #{'A' => #{behind => held([pong])}, 'B' => #{}}, #{}),
    Held = await_held(pong),
    kill('B', Supervisor),
    #{'A' := 1, 'B' := 0} = await_back(['B']),
    <<"done @", _/binary>> = await_told(<<"send B 2 pong 0 #1">>),
    <<"next B over">> = await_told(<<"next B">>),
    {over, _} = sys:get_state(proplists:get_value('B', rcv_supervisor:which_children(Supervisor))),
    Pong = #{number => 2, label => pong, from => 'B', to => 'A'},
    [rcv_channel:request(Supervisor, 'B', 0, Late) || Late <- [next, {over, {late, []}}, {send, Pong, 0}]],
    {told, <<"send B 2 pong 0 #0">>, <<"stale incarnation 1">>} = await_event(),
    release(Held),
    release(await_held(pong)),
    #{'A' := [{ping, 0}, {pong, 0}], 'B' := [{ping, 0}, {pong, 0}]} = await(Supervisor),
    rcv_supervisor:stop(Supervisor).

%% A is over, and goes back where B dies, who sends another number then. The end is there when A is over again.
over_again_test() ->
    Pongs = atomics:new(1, []),
    B = #{value => fun(pong, _) -> atomics:add_get(Pongs, 1, 1) end},
    Supervisor = start(?PING, #{'A' => #{behind => held([pong])}, 'B' => B}, #{}),
    release(await_held(pong)),
    #{'A' := [{ping, 0}, {pong, 1}]} = await(Supervisor),
    kill('B', Supervisor),
    Held = await_held(pong),
    Await = gen_server:send_request(Supervisor, await),
    timeout = gen_server:wait_response(Await, 0),
    release(Held),
    {reply, #{'A' := {_, [{ping, 0}, {pong, 2}]}, 'B' := {_, [{ping, 0}, {pong, 2}]}}} = gen_server:wait_response(Await, infinity),
    rcv_supervisor:stop(Supervisor).

%% A dies when `two` is on its way, and sends it again. B isn't concerned, and gets both.
old_message_test() ->
    Supervisor = start(?TWO, #{'A' => #{saves => fun(Count) -> Count =:= 1 end}, 'B' => #{behind => held([one])}}, #{}),
    Held = await_held(one),
    <<"done @2">> = await_told(<<"send A 2 two 0 #0">>),
    kill('A', Supervisor),
    #{'A' := 1} = Back = await_back(['A']),
    1 = map_size(Back),
    <<"done @", Stamp/binary>> = await_told(<<"send A 2 two 0 #1">>),
    release(Held),
    <<"stale message">> = await_told(<<"recv B 2 two 0 <2 #0">>),
    <<"done @", _/binary>> = await_told(<<"recv B 2 two 0 <", Stamp/binary, " #0">>),
    Ends = await(Supervisor),
    [[{one, 0}, {two, 0}, {three, 0}]] = lists:usort(maps:values(Ends)),
    rcv_supervisor:stop(Supervisor).

%% B, who has saved behind 2 and 4 events, dies and begins behind 4. Then A dies, who has saved behind 3: B lives and is to go
%% to 3, has no state there, and goes to 2.
lacking_state_test() ->
    Text = "module five; global protocol Five(role A, role B) { one() from A to B; two() from A to B; three() from A to B;
            four() from A to B; five() from B to A; }",
    A = #{behind => held([five]), saves => fun(Count) -> Count =:= 3 end},
    Supervisor = start(Text, #{'A' => A, 'B' => #{saves => fun(Count) -> Count rem 2 =:= 0 end}}, #{}),
    await_held(five),
    kill('B', Supervisor),
    #{'A' := 4, 'B' := 4} = await_back(['B']),
    kill('A', Supervisor),
    <<"done ", _/binary>> = await_told(<<"fail B=2">>),
    #{'A' := 3, 'B' := 2} = await_back(['A']),
    release(await_held(five)),
    [[{one, 0}, {two, 0}, {three, 0}, {four, 0}, {five, 0}]] = lists:usort(maps:values(await(Supervisor))),
    rcv_supervisor:stop(Supervisor).

guide_dies_test() ->
    Killer = killer:start(),
    Supervisor = start(?TWO, #{'A' => #{}, 'B' => #{behind => held([one, two])}}, #{}),
    Kill = fun() -> killer:kill(Killer, rcv_guide:os_pid(rcv_supervisor:guide(Supervisor))) end,
    Held = await_held(one),
    Kill(),
    release(Held),
    Again = await_held(two),
    Kill(),
    release(Again),
    [[{one, 0}, {two, 0}, {three, 0}]] = lists:usort(maps:values(await(Supervisor))),
    killer:stop(Killer),
    rcv_supervisor:stop(Supervisor).

always_dies_test() ->
    process_flag(trap_exit, true),
    Supervisor = start(?PING, #{'A' => #{}, 'B' => #{behind => fun(_) -> exit(fault_of_role) end}}, #{intensity => 3}),
    receive {'EXIT', Supervisor, {shutdown, {too_many_failures, ['B'], fault_of_role}}} -> ok end,
    [await_told(<<"fail B">>) || _ <- [1, 2, 3]],
    receive {watched, {told, <<"fail B">>, _}} -> exit(one_more) after 0 -> ok end.

%% Who breaks the protocol dies of it.
fault_test() ->
    process_flag(trap_exit, true),
    Supervisor = start(?PING, #{'A' => #{value => fun(_, _) -> 1 bsl 64 end}, 'B' => #{}}, #{intensity => 0}),
    receive {'EXIT', Supervisor, {shutdown, {too_many_failures, ['A'], {fault, _, <<"wrong 5 value">>}}}} -> ok end.

other_roles_test() ->
    process_flag(trap_exit, true),
    {error, {other_roles, ['A', 'B']}} = begin_session(?PING, #{'A' => #{}, 'C' => #{}}, #{}).

refused_test() ->
    process_flag(trap_exit, true),
    {error, {refused, <<"refused", _/binary>>}} =
        begin_session(?PING "\n%% plan\nhost h = A, C", #{'A' => #{}, 'B' => #{}}, #{}).

no_node_test() ->
    process_flag(trap_exit, true),
    Nobody = ['nobody@127.0.0.1'],
    {error, {no_node, 'A', Nobody}} = begin_session(?PING, #{'A' => #{nodes => Nobody}, 'B' => #{}}, #{}).

%% Roles that save often. States below the stable line are thrown away, and all the others are there where a role dies.
long_test() ->
    Supervisor = start(?LOOP, loop(200, 2, 2), #{intensity => 100}),
    [kill_behind(Lines, Role, Supervisor) || {Lines, Role} <- [{300, 'A'}, {400, 'B'}, {400, 'A'}]],
    <<"line A ", _/binary>> = await_told(<<"line">>),
    #{'A' := Notes, 'B' := Notes} = await(Supervisor),
    200 = length([more || {more, _} <- Notes]),
    [true = states_of(Process) < 300 || {_, Process} <- rcv_supervisor:which_children(Supervisor)],
    rcv_supervisor:stop(Supervisor).

%% How many states a role has.
states_of(Process) ->
    {_, Data} = sys:get_state(Process),
    [States] = [Field || Field <- tuple_to_list(Data), is_map(Field), is_map_key(401, Field)],
    map_size(States).

%% Roles whose saves lie between each other: one that lives, and began behind its last save, may have to go to an earlier one.
domino_test() ->
    Supervisor = start(?LOOP, loop(40, 4, 3), #{intensity => 100}),
    [kill_behind(30, Role, Supervisor) || Role <- ['A', 'B', 'A', 'B', 'B', 'A']],
    #{'A' := Notes, 'B' := Notes} = await(Supervisor),
    40 = length([more || {more, _} <- Notes]),
    rcv_supervisor:stop(Supervisor).

%% A asks for more so many times. They save behind each so-and-so-many-th event.
loop(Rounds, OfA, OfB) ->
    Every = fun(Number) -> fun(Count) -> Count rem Number =:= 0 end end,
    Choose = fun(_, Notes) -> case length(Notes) < 2 * Rounds of true -> more; false -> stop end end,
    Value = fun(_, Notes) -> length(Notes) end,
    #{'A' => #{choose => Choose, value => Value, saves => Every(OfA)}, 'B' => #{value => Value, saves => Every(OfB)}}.
