%% Sessions for tests. Where a test has to come between two events it holds a role in a callback, and awaits what the
%% supervisor tells its watcher.
-module(watched).
-behaviour(rcv_supervisor).
-export([init/1]).
-export([start/3, begin_session/3, await/1, kill/2, kill_behind/3, held/1, await_held/1, release/1, await_told/1, await_back/1, await_event/0]).

init({Flags, Specs}) -> {ok, {Flags, Specs}}.

%% Sessions

%% Of each role its callbacks, and its nodes if they are others than this one.
start(Text, Roles, Flags) ->
    {ok, Supervisor} = begin_session(Text, Roles, Flags),
    Supervisor.

begin_session(Text, Roles, Flags) ->
    Tester = self(),
    Watch = fun(Event) -> Tester ! {watched, Event} end,
    Specs = [(maps:with([nodes], Calls))#{id => Role, role => {any_role, Calls}} || {Role, Calls} <- maps:to_list(Roles)],
    rcv_supervisor:start_link(?MODULE, {Flags#{strategy => {guide, Text}, watch => Watch}, Specs}).

%% What the roles noted.
await(Supervisor) ->
    maps:map(fun(_, {_, Notes}) -> Notes end, rcv_supervisor:await(Supervisor)).

kill(Role, Supervisor) ->
    {Role, Process} = lists:keyfind(Role, 1, rcv_supervisor:which_children(Supervisor)),
    exit(Process, kill).

%% Kills a role when so many lines more are told.
kill_behind(0, Role, Supervisor) ->
    kill(Role, Supervisor);
kill_behind(Lines, Role, Supervisor) ->
    await_event(fun(Event) -> element(1, Event) =:= told end),
    kill_behind(Lines - 1, Role, Supervisor).

%% Events

%% A callback that waits at some labels until the test goes on.
held(Labels) ->
    Tester = self(),
    fun(Label) ->
        case lists:member(Label, Labels) of
            true ->
                Tester ! {held, Label, self()},
                receive release -> ok end;
            false -> ok
        end
    end.

await_held(Label) ->
    receive {held, Label, Process} -> Process end.

release(Process) ->
    Process ! release.

%% Waits until this line is told, and returns the answer.
await_told(Line) ->
    {told, Line, Answer} = await_event(fun(Event) -> element(1, Event) =:= told andalso element(2, Event) =:= Line end),
    Answer.

%% Waits until these roles have failed, and returns who went back.
await_back(Failed) ->
    {back, Failed, Back} = await_event(fun(Event) -> element(1, Event) =:= back andalso element(2, Event) =:= Failed end),
    Back.

%% Waits for the next event.
await_event() ->
    await_event(fun(_) -> true end).

%% Waits for an event, and passes over those before it.
await_event(IsIt) ->
    receive
        {watched, Event} ->
            case IsIt(Event) of
                true -> Event;
                false -> await_event(IsIt)
            end
    end.
