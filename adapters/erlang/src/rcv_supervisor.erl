%% A supervisor whose restart strategy is what a guide says: where a role's process or its node dies, those go back whom it
%% concerns, as far as they have to, and messages in flight are delivered to them again. All others go on.
%%
%% It starts each role on the first node of its list that can be reached, and anew there where it died.
-module(rcv_supervisor).
-behaviour(gen_server).
-export([start_link/2, start_link/3, await/1, await/2, which_children/1, guide/1, stop/1]).
-export([init/1, handle_call/3, handle_cast/2, handle_info/2, terminate/2]).
-export_type([flags/0, child_spec/0, event/0]).

%% The text has a protocol, and a plan if you like. `guide` are the shell's words that start a guide. More failures than
%% `intensity`, 10, within `period` seconds, 60, end the supervisor. `watch` is called with each event, in its process.
-type flags() :: #{strategy := {guide, Text :: iodata()}, guide => string(), intensity => non_neg_integer(),
                   period => pos_integer(), watch => fun((event()) -> term())}.
%% One for each role of the text; its nodes are the supervisor's own where none are named.
-type child_spec() :: #{id := rcv_dialogue:role(), role := {module(), Args :: term()}, nodes => [node(), ...]}.
-type event() ::
    {told, Line :: binary(), Answer :: binary()}
    | {back, Failed :: [rcv_dialogue:role(), ...], #{rcv_dialogue:role() => rcv_dialogue:count()}}.

-callback init(Args :: term()) -> {ok, {flags(), [child_spec()]}} | ignore.

%% After how many lines it throws away states to which nobody can go back.
-define(FORGETTING, 100).
%% For how long a role may end, in milliseconds.
-define(SHUTDOWN, 5000).

-record(child, {module, args, nodes, process, incarnation = 0, began = 0, over = none}).
-record(state, {guide, store, points, children, watch, intensity, period, failures = [], awaiting = [], told = 0}).

-spec start_link(module(), term()) -> {ok, pid()} | ignore | {error, term()}.
start_link(Module, Args) ->
    gen_server:start_link(?MODULE, {Module, Args}, []).

-spec start_link(gen_server:server_name(), module(), term()) -> {ok, pid()} | ignore | {error, term()}.
start_link(Name, Module, Args) ->
    gen_server:start_link(Name, ?MODULE, {Module, Args}, []).

%% Waits until each role has come to its end, and returns their states.
-spec await(gen_server:server_ref()) -> #{rcv_dialogue:role() => term()}.
await(Supervisor) ->
    await(Supervisor, infinity).

-spec await(gen_server:server_ref(), timeout()) -> #{rcv_dialogue:role() => term()}.
await(Supervisor, Timeout) ->
    gen_server:call(Supervisor, await, Timeout).

-spec which_children(gen_server:server_ref()) -> [{rcv_dialogue:role(), pid()}].
which_children(Supervisor) ->
    gen_server:call(Supervisor, which_children, infinity).

-spec guide(gen_server:server_ref()) -> pid().
guide(Supervisor) ->
    gen_server:call(Supervisor, guide, infinity).

-spec stop(gen_server:server_ref()) -> ok.
stop(Supervisor) ->
    gen_server:stop(Supervisor).

init({Module, Args}) ->
    process_flag(trap_exit, true),
    case Module:init(Args) of
        {ok, {#{strategy := {guide, Text}} = Flags, Specs}} ->
            case rcv_guide:start_link(#{text => Text, command => maps:get(guide, Flags, default)}) of
                {ok, Guide} -> start(Guide, Flags, maps:from_list([child(Spec) || Spec <- Specs]));
                {error, Reason} -> {stop, Reason}
            end;
        ignore -> ignore
    end.

child(#{id := Role, role := {Module, Args}} = Spec) ->
    {Role, #child{module = Module, args = Args, nodes = maps:get(nodes, Spec, [node()])}}.

start(Guide, Flags, Children) ->
    {ok, Store} = rcv_store:start_link(),
    State = #state{guide = Guide, store = Store, children = Children,
                   points = rcv_dialogue:read_points(rcv_guide:tell(Guide, <<"points">>)),
                   watch = maps:get(watch, Flags, fun(_) -> ok end),
                   intensity = maps:get(intensity, Flags, 10), period = maps:get(period, Flags, 60)},
    Back = #{count => 0, incarnation => 0, messages => []},
    case lists:sort(rcv_guide:roles(Guide)) =:= lists:sort(maps:keys(Children)) of
        true -> {ok, lists:foldl(fun(Role, Before) -> start_role(Role, Back, first, Before) end, State, maps:keys(Children))};
        false -> {stop, {other_roles, rcv_guide:roles(Guide)}}
    end.

handle_call(await, From, #state{awaiting = Awaiting} = State) ->
    {noreply, answer(State#state{awaiting = [From | Awaiting]})};
handle_call(which_children, _From, #state{children = Children} = State) ->
    {reply, [{Role, Process} || {Role, #child{process = Process}} <- maps:to_list(Children)], State};
handle_call(guide, _From, State) ->
    {reply, State#state.guide, State}.

%% What a role does is judged by the guide, also where it has gone back meanwhile; what it asks for isn't.
handle_cast({role, Role, Incarnation, Request}, #state{children = Children} = State) ->
    #child{incarnation = Now} = Child = map_get(Role, Children),
    case Request of
        next when Incarnation =/= Now -> {noreply, State};
        {over, _} when Incarnation =/= Now -> {noreply, State};
        {over, End} -> {noreply, answer(State#state{children = Children#{Role := Child#child{over = {over, End}}}})};
        _ -> {noreply, forget(carry(Role, Incarnation, Request, State))}
    end.

handle_info({'EXIT', Guide, Reason}, #state{guide = Guide} = State) ->
    {stop, {guide, Reason}, State};
handle_info({'EXIT', Store, Reason}, #state{store = Store} = State) ->
    {stop, {store, Reason}, State};
handle_info({'EXIT', Process, Reason}, #state{children = Children} = State) ->
    case [Role || {Role, #child{process = Other}} <- maps:to_list(Children), dies_with(Other, Process, Reason)] of
        [] -> {noreply, State};
        Failed -> fail(Failed, Reason, State)
    end;
handle_info(_, State) ->
    {noreply, State}.

terminate(_Reason, #state{guide = Guide, store = Store, children = Children}) ->
    Ending = [end_role(Process) || #child{process = Process} <- maps:values(Children)],
    lists:foreach(fun await_end/1, Ending),
    lists:foreach(fun(Process) -> try gen_server:stop(Process) catch exit:_ -> ok end end, [Guide, Store]).

end_role(Process) ->
    Monitor = monitor(process, Process),
    exit(Process, shutdown),
    {Process, Monitor}.

await_end({Process, Monitor}) ->
    receive
        {'DOWN', Monitor, process, _, _} -> ok
    after ?SHUTDOWN ->
        exit(Process, kill),
        receive {'DOWN', Monitor, process, _, _} -> ok end
    end.

%% The dialogue

tell(Line, #state{guide = Guide, watch = Watch}) ->
    [First | _] = Answer = rcv_guide:tell(Guide, Line),
    Watch({told, Line, First}),
    Answer.

carry(Role, Incarnation, Request, #state{points = Points, children = Children, told = Told} = State) ->
    Orders = rcv_channel:carry(Request, Role, Incarnation, Points, fun(Line) -> tell(Line, State) end),
    [rcv_channel:order((map_get(Other, Children))#child.process, Order) || {Other, Order} <- Orders],
    State#state{told = Told + 1}.

%% Below the stable line nobody goes back, so older states are thrown away now and then.
forget(#state{told = Told, store = Store, children = Children} = State) when Told >= ?FORGETTING ->
    Line = rcv_dialogue:read_counts(tell(<<"line">>, State)),
    Forget = fun(Role, Count) ->
        rcv_store:forget(Store, Role, Count),
        rcv_channel:order((map_get(Role, Children))#child.process, {line, Count})
    end,
    maps:foreach(Forget, Line),
    State#state{told = 0};
forget(State) ->
    State.

%% Answers who waits for the end, if all roles are over.
answer(#state{children = Children, awaiting = Awaiting} = State) ->
    case lists:all(fun(#child{over = Over}) -> Over =/= none end, maps:values(Children)) of
        true ->
            Ends = maps:map(fun(_, #child{over = {over, End}}) -> End end, Children),
            [gen_server:reply(From, Ends) || From <- Awaiting],
            State#state{awaiting = []};
        false -> State
    end.

%% Failures

%% With its node all roles die that live there.
dies_with(Process, Process, _) -> true;
dies_with(Other, Process, noconnection) -> node(Other) =:= node(Process);
dies_with(_, _, _) -> false.

fail(Failed, Reason, #state{failures = Before, intensity = Intensity, period = Period} = State) ->
    Now = erlang:monotonic_time(second),
    Failures = [Now | [Then || Then <- Before, Now - Then =< Period]],
    case length(Failures) > Intensity of
        true -> {stop, {shutdown, {too_many_failures, Failed, Reason}}, State};
        false -> recover(Failed, State#state{failures = Failures})
    end.

recover(Failed, #state{store = Store, children = Children, watch = Watch} = State) ->
    Began = maps:map(fun(_, #child{began = Count}) -> Count end, maps:without(Failed, Children)),
    case rcv_recovery:recover(Failed, Began, Store, fun(Line) -> tell(Line, State) end) of
        {ok, Recovery} ->
            Watch({back, Failed, maps:map(fun(_, {#{count := Count}, _}) -> Count end, Recovery)}),
            GoBack = fun(Role, {Back, Start}, Before) -> go_back(Role, lists:member(Role, Failed), Back, Start, Before) end,
            {noreply, maps:fold(GoBack, State, Recovery)};
        {fault, Answer} ->
            {stop, {fault, Failed, Answer}, State}
    end.

%% A role that is dead begins anew; one that lives goes back by itself.
go_back(Role, IsDead, #{count := Count, incarnation := Incarnation} = Back, Start, #state{store = Store, children = Children} = State) ->
    ok = rcv_store:go_back(Store, Role, Count, Incarnation),
    case IsDead of
        true ->
            start_role(Role, Back, Start, State);
        false ->
            #child{process = Process, began = Began} = Child = map_get(Role, Children),
            rcv_channel:order(Process, {back, Back, Start}),
            Next = Child#child{incarnation = Incarnation, began = min(Began, Count), over = none},
            State#state{children = Children#{Role := Next}}
    end.

start_role(Role, Back, Start, #state{store = Store, children = Children} = State) ->
    #child{module = Module, args = Args, nodes = Nodes} = Child = map_get(Role, Children),
    Setup = #{role => Role, module => Module, args => Args, supervisor => self(), store => Store, back => Back, start => Start},
    Process = rcv_role:start_link(reachable(Role, Nodes), Setup),
    #{count := Count, incarnation := Incarnation} = Back,
    Next = Child#child{process = Process, incarnation = Incarnation, began = Count, over = none},
    State#state{children = Children#{Role := Next}}.

%% The first node that is there. One that goes meanwhile is heard by the exit of the role's process.
reachable(Role, Nodes) ->
    case lists:dropwhile(fun(Node) -> net_kernel:connect_node(Node) =/= true andalso Node =/= node() end, Nodes) of
        [Node | _] -> Node;
        [] -> exit({no_node, Role, Nodes})
    end.
