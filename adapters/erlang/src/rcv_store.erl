%% Saved states: of each role some states, each behind so many events.
%%
%% Where a role goes back, what it saved behind that is gone, and what an older incarnation of it saves late isn't taken.
-module(rcv_store).
-behaviour(gen_server).
-export([start_link/0, put/5, get/3, latest/3, go_back/4, forget/3, stop/1]).
-export([init/1, handle_call/3, handle_cast/2]).

-type role() :: rcv_dialogue:role().
-type count() :: rcv_dialogue:count().
-type incarnation() :: rcv_dialogue:incarnation().

-spec start_link() -> {ok, pid()}.
start_link() ->
    gen_server:start_link(?MODULE, none, []).

%% Saves a state. It is safe when this returns `ok`, and `stale` where the role went back meanwhile.
-spec put(pid(), role(), incarnation(), count(), term()) -> ok | stale.
put(Store, Role, Incarnation, Count, State) ->
    gen_server:call(Store, {put, Role, Incarnation, Count, State}, infinity).

-spec get(pid(), role(), count()) -> {ok, term()} | none.
get(Store, Role, Count) ->
    gen_server:call(Store, {get, Role, Count}, infinity).

%% The greatest count, below this one, behind which a state is saved; 0 where none is.
-spec latest(pid(), role(), count()) -> count().
latest(Store, Role, Below) ->
    gen_server:call(Store, {latest, Role, Below}, infinity).

%% A role goes back to behind so many events, and has a new incarnation from then on.
-spec go_back(pid(), role(), count(), incarnation()) -> ok.
go_back(Store, Role, Count, Incarnation) ->
    gen_server:call(Store, {go_back, Role, Count, Incarnation}, infinity).

%% Throws away what a role saved before so many events.
-spec forget(pid(), role(), count()) -> ok.
forget(Store, Role, Count) ->
    gen_server:call(Store, {forget, Role, Count}, infinity).

-spec stop(pid()) -> ok.
stop(Store) ->
    gen_server:stop(Store).

%% Of each role its incarnation, and the states by their counts.
init(none) ->
    {ok, #{}}.

handle_call({put, Role, Incarnation, Count, State}, _From, Roles) ->
    case of_role(Role, Roles) of
        {Newer, _} when Incarnation < Newer -> {reply, stale, Roles};
        {Same, States} -> {reply, ok, Roles#{Role => {Same, States#{Count => State}}}}
    end;
handle_call({get, Role, Count}, _From, Roles) ->
    {_, States} = of_role(Role, Roles),
    Found = case States of #{Count := State} -> {ok, State}; #{} -> none end,
    {reply, Found, Roles};
handle_call({latest, Role, Below}, _From, Roles) ->
    {_, States} = of_role(Role, Roles),
    {reply, lists:max([0 | [Count || Count <- maps:keys(States), Count < Below]]), Roles};
handle_call({go_back, Role, Last, Incarnation}, _From, Roles) ->
    {_, States} = of_role(Role, Roles),
    {reply, ok, Roles#{Role => {Incarnation, maps:filter(fun(Count, _) -> Count =< Last end, States)}}};
handle_call({forget, Role, First}, _From, Roles) ->
    {Incarnation, States} = of_role(Role, Roles),
    {reply, ok, Roles#{Role => {Incarnation, maps:filter(fun(Count, _) -> Count >= First end, States)}}}.

handle_cast(_, Roles) ->
    {noreply, Roles}.

of_role(Role, Roles) ->
    maps:get(Role, Roles, {0, #{}}).
