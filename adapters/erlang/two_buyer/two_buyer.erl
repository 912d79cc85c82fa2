%% Two buyers and a seller on three nodes, one of which is killed: run [RUNS [KILLS [SEED]]]
%%
%% Runs the session undisturbed, and then RUNS times, 5 by default, where behind a drawn line of the dialogue the node of one
%% role is killed by SIGKILL, or now and then the guide; or so KILLS times in a run. The end states have to be those of the
%% undisturbed run each time: they have all that each role sent and received. Prints what was killed and who went back. Ends
%% with 1 where a result differs. What is drawn a generator of random numbers says that begins at SEED, 1 by default.
-module(two_buyer).
-behaviour(rcv_supervisor).
-export([main/0, runs/3, init/1]).

%% For how many milliseconds a run may be silent.
-define(SILENCE, 60000).

%% The text of the example that `rcv run` plays with scripts: here the roles choose for themselves.
text() ->
    {ok, Text} = file:read_file(os:getenv("RCV_EXAMPLE")),
    Text.

%% Each role begins on a node of its own, and goes to the next one that is left where that dies.
init({[One, Two, Three], Watch}) ->
    {ok, {#{strategy => {guide, text()}, intensity => 10, period => 60, watch => Watch},
          [#{id => 'A', role => {first_buyer, none}, nodes => [One, Two, Three, node()]},
           #{id => 'B', role => {second_buyer, none}, nodes => [Two, Three, One, node()]},
           #{id => 'S', role => {seller, none}, nodes => [Three, One, Two, node()]}]}}.

main() ->
    [_ | Words] = init:get_plain_arguments(),
    Status = try
        [Runs, Kills, Seed] = numbers(Words, [5, 1, 1]),
        runs(Runs, Kills, Seed)
    of
        0 -> 0;
        _ -> 1
    catch
        Class:Reason:Stack ->
            io:format("~p: ~p~n~p~n", [Class, Reason, Stack]),
            1
    end,
    halt(Status).

numbers([Word | Words], [_ | Defaults]) -> [list_to_integer(Word) | numbers(Words, Defaults)];
numbers([], Defaults) -> Defaults.

%% Returns how many runs had another result.
-spec runs(non_neg_integer(), non_neg_integer(), integer()) -> non_neg_integer().
runs(Runs, Kills, Seed) ->
    process_flag(trap_exit, true),
    rand:seed(exsss, Seed),
    Killer = killer:start(),
    Nodes = nodes_of_system:start(3),
    {Wanted, Lines, []} = run(Nodes, Killer, []),
    Disturbed = fun(_, Before) -> disturbed(Kills, Wanted, Lines, Killer, Before) end,
    {Last, Found} = lists:foldl(Disturbed, {Nodes, []}, lists:seq(1, Runs)),
    nodes_of_system:stop(Last),
    killer:stop(Killer),
    Wrong = length([wrong || {wrong, _} <- Found]),
    io:format("~b runs, ~b without a death of a role, ~b with another result~n", [Runs, length([none || {_, 0} <- Found]), Wrong]),
    Wrong.

%% One of the runs. Returns the nodes for the next one.
disturbed(Kills, Wanted, Lines, Killer, {Nodes, Found}) ->
    Drawn = lists:sort([{rand:uniform(Lines) - 1, victim()} || _ <- lists:seq(1, Kills)]),
    {Ends, _, Backs} = run(Nodes, Killer, Drawn),
    Verdict = case Ends of Wanted -> right; _ -> wrong end,
    io:format("~s; ~s~s~n", [phrases([killed(Kill) || Kill <- Drawn]), phrases([went_back(Back) || Back <- Backs]),
                             case Verdict of right -> ""; wrong -> "; another result" end]),
    {nodes_of_system:replace(Nodes), [{Verdict, length(Backs)} | Found]}.

%% The guide dies, too, but less often.
victim() ->
    lists:nth(rand:uniform(10), ['A', 'B', 'S', 'A', 'B', 'S', 'A', 'B', 'S', guide]).

killed({Moment, guide}) -> io_lib:format("the guide is killed behind line ~b", [Moment]);
killed({Moment, Role}) -> io_lib:format("the node of ~s is killed behind line ~b", [Role, Moment]).

went_back({Failed, Backs}) ->
    Whom = lists:join(", ", [io_lib:format("~s behind ~b", [Role, Count]) || {Role, Count} <- maps:to_list(Backs)]),
    io_lib:format("~s died, back: ~s", [lists:join(" and ", [atom_to_list(Role) || Role <- Failed]), Whom]).

phrases([]) -> "nobody goes back";
phrases(Phrases) -> lists:join("; ", Phrases).

%% A session

%% Runs it, and kills what was drawn, each behind so many lines that were told. Returns the end states, how many lines were
%% told, and who died and went back.
run(Nodes, Killer, Kills) ->
    Caller = self(),
    Mark = make_ref(),
    Watch = fun(Event) -> Caller ! {Mark, Event} end,
    {ok, Supervisor} = rcv_supervisor:start_link(?MODULE, {nodes_of_system:names(Nodes), Watch}),
    Await = gen_server:send_request(Supervisor, await),
    Result = watch(#{mark => Mark, supervisor => Supervisor, await => Await, nodes => Nodes, killer => Killer}, Kills, 0, []),
    rcv_supervisor:stop(Supervisor),
    receive {'EXIT', Supervisor, normal} -> Result end.

watch(Session, [{Moment, Victim} | Kills], Lines, Backs) when Moment =< Lines ->
    kill(Victim, Session),
    watch(Session, Kills, Lines, Backs);
watch(#{mark := Mark, await := Await} = Session, Kills, Lines, Backs) ->
    receive
        {Mark, {told, _, _}} -> watch(Session, Kills, Lines + 1, Backs);
        {Mark, {back, Failed, Back}} -> watch(Session, Kills, Lines, Backs ++ [{Failed, Back}]);
        Message ->
            case gen_server:check_response(Message, Await) of
                {reply, Ends} -> {Ends, Lines, Backs};
                {error, {Reason, _}} -> exit(Reason);
                no_reply -> watch(Session, Kills, Lines, Backs)
            end
    after ?SILENCE -> exit(silence)
    end.

kill(guide, #{supervisor := Supervisor, killer := Killer}) ->
    killer:kill(Killer, rcv_guide:os_pid(rcv_supervisor:guide(Supervisor)));
kill(Role, #{supervisor := Supervisor, nodes := Nodes, killer := Killer}) ->
    {Role, Process} = lists:keyfind(Role, 1, rcv_supervisor:which_children(Supervisor)),
    case node(Process) of
        Own when Own =:= node() -> exit(Process, kill);
        Node -> nodes_of_system:kill(Node, Nodes, Killer)
    end.
