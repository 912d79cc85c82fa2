%% Nodes on this machine, each a process of the operating system. They end with the node that started them.
-module(nodes_of_system).
-export([start/1, names/1, kill/3, replace/1, stop/1]).
-export_type([nodes_of/0]).

%% How long a node may take to start, in milliseconds.
-define(STARTING, 120000).

%% Of each node its name, the process that holds it, and how the operating system names it.
-type nodes_of() :: [{node(), pid(), string()}].

%% Starts so many nodes, side by side.
-spec start(non_neg_integer()) -> nodes_of().
start(Number) ->
    Tags = [begin_node() || _ <- lists:seq(1, Number)],
    [await_node(Tag) || Tag <- Tags].

begin_node() ->
    Tag = make_ref(),
    {ok, _, _} = peer:start(#{
        name => peer:random_name("rcv"), host => "127.0.0.1", longnames => true,
        connection => standard_io, wait_boot => {self(), Tag},
        args => ["+S", "1", "-start_epmd", "false", "-connect_all", "false", "-pa", filename:dirname(code:which(?MODULE)),
                 "-kernel", "inet_dist_use_interface", "{127,0,0,1}", "logger_level", "critical"]}),
    Tag.

await_node(Tag) ->
    receive
        {Tag, {started, Node, Peer}} ->
            true = net_kernel:connect_node(Node),
            monitor_node(Node, true),
            {Node, Peer, peer:call(Peer, os, getpid, [])};
        {Tag, Other} -> exit({no_node, Other})
    after ?STARTING -> exit(no_node)
    end.

-spec names(nodes_of()) -> [node()].
names(Nodes) ->
    [Node || {Node, _, _} <- Nodes].

%% Kills a node by SIGKILL, and waits until it has gone. One that has gone before is left alone.
-spec kill(node(), nodes_of(), port()) -> ok.
kill(Node, Nodes, Killer) ->
    {Node, _, OsPid} = lists:keyfind(Node, 1, Nodes),
    case lists:member(Node, nodes()) of
        true ->
            killer:kill(Killer, OsPid),
            receive {nodedown, Node} -> ok end;
        false -> ok
    end.

%% Starts a node in the place of each one that has gone.
-spec replace(nodes_of()) -> nodes_of().
replace(Nodes) ->
    Gone = [Of || {Node, _, _} = Of <- Nodes, not lists:member(Node, nodes())],
    place(Nodes, Gone, start(length(Gone))).

place([Of | Nodes], Gone, Started) ->
    case lists:member(Of, Gone) of
        true -> [hd(Started) | place(Nodes, Gone, tl(Started))];
        false -> [Of | place(Nodes, Gone, Started)]
    end;
place([], _, []) -> [].

-spec stop(nodes_of()) -> ok.
stop(Nodes) ->
    lists:foreach(fun({Node, Peer, _}) -> monitor_node(Node, false), peer:stop(Peer) end, Nodes).
