%% A role, played by a process on some node: a state machine whose callbacks say what the role sends, and what becomes of
%% its state. It keeps a state for each count of events, so that it can go back by itself.
%%
%% States of the machine: `asking` what is next; `sending` or `receiving`, where it was told and isn't yet taken;
%% `waiting` for a message; `over`.
-module(rcv_role).
-behaviour(gen_statem).
-export([start_link/2, begin_play/1]).
-export([init/1, callback_mode/0, handle_event/4]).
-export_type([setup/0]).

%% The state before the first event.
-callback first(Args :: term()) -> State :: term().
%% Which of these messages it sends; the first one where this isn't there.
-callback choose(Labels :: [atom(), ...], State :: term()) -> Label :: atom().
%% The number that goes with a message that it sends; 0 where this isn't there.
-callback value(Label :: atom(), State :: term()) -> integer().
%% The state behind a message that was sent or received.
-callback behind(Label :: atom(), Value :: integer(), State :: term()) -> State :: term().
%% Whether it saves its state behind so many events; always where this isn't there.
-callback saves(Count :: pos_integer(), State :: term()) -> boolean().
-optional_callbacks([choose/2, value/2, saves/2]).

%% Who plays which role, for whom, from where on.
-type setup() :: #{role := rcv_dialogue:role(), module := module(), args := term(), supervisor := pid(), store := pid(),
                   back := rcv_dialogue:back(), start := rcv_channel:start()}.

-record(data, {role, module, args, supervisor, store, count, incarnation, states, inbox, event}).

%% Starts a role on a node, linked to the caller. A node that is gone is heard by the exit of the process.
-spec start_link(node(), setup()) -> pid().
start_link(Node, Setup) ->
    proc_lib:spawn_link(Node, ?MODULE, begin_play, [Setup]).

%% A state machine is started on its own node alone, so a process of that node becomes one.
-spec begin_play(setup()) -> no_return().
begin_play(Setup) ->
    {ok, State, Data} = init(Setup),
    gen_statem:enter_loop(?MODULE, [], State, Data).

init(#{role := Role, module := Module, args := Args, supervisor := Supervisor, store := Store, back := Back, start := Start}) ->
    {module, Module} = code:ensure_loaded(Module),
    Data = #data{role = Role, module = Module, args = Args, supervisor = Supervisor, store = Store, states = #{}},
    {ok, asking, ask(went_back(Back, Start, Data))}.

callback_mode() ->
    handle_event_function.

%% What may come at any moment.
handle_event(cast, {back, Back, Start}, _, Data) ->
    {next_state, asking, ask(went_back(Back, Start, Data))};
handle_event(cast, {line, Line}, _, #data{states = States, count = Now} = Data) ->
    {keep_state, Data#data{states = maps:filter(fun(Count, _) -> Count >= min(Line, Now) end, States)}};
handle_event(cast, {fault, Line, Answer}, _, _) ->
    {stop, {fault, Line, Answer}};
handle_event(cast, {message, Message}, State, #data{inbox = Inbox} = Data) ->
    Next = Data#data{inbox = put_in(Message, Inbox)},
    case State of
        {waiting, From} -> look(From, Next);
        _ -> {keep_state, Next}
    end;
%% What is next.
handle_event(cast, {next, {sends, Points}}, asking, Data) ->
    #{label := Label} = Point = choose(Points, Data),
    Value = value(Label, Data),
    request({send, Point, Value}, Data),
    {next_state, sending, Data#data{event = {Label, Value}}};
handle_event(cast, {next, {receives, [#{from := From} | _]}}, asking, Data) ->
    look(From, Data);
handle_event(cast, {next, over}, asking, Data) ->
    request({over, state(Data)}, Data),
    {next_state, over, Data};
%% What was told.
handle_event(cast, taken, Told, Data) when Told =:= sending; element(1, Told) =:= receiving ->
    {next_state, asking, ask(went_on(Data))};
handle_event(cast, old, {receiving, From}, Data) ->
    look(From, Data).

%% Tells the Recv of the message in front, or waits for one. All that it may receive next is of one sender.
look(From, #data{inbox = Inbox} = Data) ->
    case maps:get(From, Inbox, []) of
        [] ->
            {next_state, {waiting, From}, Data};
        [#{label := Label, value := Value} = Message | Rest] ->
            request({recv, Message}, Data),
            {next_state, {receiving, From}, Data#data{inbox = Inbox#{From => Rest}, event = {Label, Value}}}
    end.

put_in(#{from := From} = Message, Inbox) ->
    Inbox#{From => maps:get(From, Inbox, []) ++ [Message]}.

%% It stands behind one more event, and saves its state if it wants to.
went_on(#data{module = Module, event = {Label, Value}, count = Count, states = States} = Data) ->
    State = Module:behind(Label, Value, state(Data)),
    Next = Data#data{count = Count + 1, states = States#{Count + 1 => State}},
    save(Next, optional(saves, [Count + 1, State], true, Next)).

%% The save is told when the state is safe. Where it isn't taken, an order to go back is on its way.
save(Data, false) ->
    Data;
save(#data{role = Role, store = Store, count = Count, incarnation = Incarnation} = Data, true) ->
    case rcv_store:put(Store, Role, Incarnation, Count, state(Data)) of
        ok -> request({save, Count}, Data);
        stale -> ok
    end,
    Data.

%% It stands behind fewer events, in a new incarnation. Its inbox is empty but for what is delivered again.
went_back(#{count := Count, incarnation := Incarnation, messages := Messages}, Start, Data) ->
    #data{module = Module, args = Args, states = States} = Data,
    State = case Start of
        own -> map_get(Count, States);
        first -> Module:first(Args);
        {saved, Saved} -> Saved
    end,
    Kept = maps:filter(fun(Other, _) -> Other < Count end, States),
    Inbox = lists:foldl(fun put_in/2, #{}, Messages),
    Data#data{count = Count, incarnation = Incarnation, states = Kept#{Count => State}, inbox = Inbox}.

ask(Data) ->
    request(next, Data),
    Data.

request(Request, #data{supervisor = Supervisor, role = Role, incarnation = Incarnation}) ->
    rcv_channel:request(Supervisor, Role, Incarnation, Request).

state(#data{count = Count, states = States}) ->
    map_get(Count, States).

choose([#{label := First} | _] = Points, Data) ->
    Label = optional(choose, [[Label || #{label := Label} <- Points], state(Data)], First, Data),
    hd([Point || #{label := Other} = Point <- Points, Other =:= Label]).

value(Label, Data) ->
    optional(value, [Label, state(Data)], 0, Data).

optional(Name, Args, Default, #data{module = Module}) ->
    case erlang:function_exported(Module, Name, length(Args)) of
        true -> apply(Module, Name, Args);
        false -> Default
    end.
