%% Tests with nodes that are killed.
-module(nodes_tests).
-import(watched, [start/3, await/1, held/1, await_held/1, release/1, await_back/1]).
-export([node_dies_test/0, orphans_test/0]).

%% With a node both of its roles fail at once, and begin anew on another one. C, who has heard A, lives and goes back.
node_dies_test() ->
    Killer = killer:start(),
    [{Node, _, _}] = Nodes = nodes_of_system:start(1),
    Text = "module m; global protocol M(role A, role B, role C) { one() from A to C; two() from B to C; three() from C to A; }",
    On = #{nodes => [Node, node()]},
    Supervisor = start(Text, #{'A' => On, 'B' => On, 'C' => #{behind => held([one])}}, #{}),
    Held = await_held(one),
    nodes_of_system:kill(Node, Nodes, Killer),
    #{'A' := 0, 'B' := 0, 'C' := 0} = await_back(['A', 'B']),
    [true = node(Process) =:= node() || {_, Process} <- rcv_supervisor:which_children(Supervisor)],
    release(Held),
    release(await_held(one)),
    #{'A' := [{one, 0}, {three, 0}], 'B' := [{two, 0}], 'C' := [{one, 0}, {two, 0}, {three, 0}]} = await(Supervisor),
    rcv_supervisor:stop(Supervisor),
    killer:stop(Killer).

%% Nothing stays behind where a node is killed that started another one, and a guide: both end.
orphans_test() ->
    Killer = killer:start(),
    [{Outer, _, _}] = Nodes = nodes_of_system:start(1),
    [{Inner, _, _}] = erpc:call(Outer, nodes_of_system, start, [1]),
    Text = "module m; global protocol M(role A, role B) { m() from A to B; }",
    {ok, Guide} = erpc:call(Outer, gen_server, start, [rcv_guide, #{text => Text}, []]),
    OsPid = rcv_guide:os_pid(Guide),
    true = net_kernel:connect_node(Inner),
    monitor_node(Inner, true),
    nodes_of_system:kill(Outer, Nodes, Killer),
    receive {nodedown, Inner} -> ok end,
    os_process:await_end(OsPid),
    killer:stop(Killer).
