%% Who goes back where roles have failed: the guide is asked until each role can go where it has to go.
-module(rcv_recovery).
-export([recover/4]).
-export_type([recovery/0]).

%% Of each role that goes back how far, and from which state on: `own` is one that its process has.
-type recovery() :: #{rcv_dialogue:role() => {rcv_dialogue:back(), own | rcv_channel:start()}}.

%% `Began` says of each role whose process lives with how many events that began: it has a state behind each count since.
-spec recover([rcv_dialogue:role(), ...], Began, Store :: pid(), Tell) -> {ok, recovery()} | {fault, binary()} when
    Began :: #{rcv_dialogue:role() => rcv_dialogue:count()},
    Tell :: fun((binary()) -> rcv_lines:answer()).
recover(Failed, Began, Store, Tell) ->
    recover(Failed, #{}, Began, Store, Tell).

recover(Failed, Before, Began, Store, Tell) ->
    case rcv_dialogue:read_recovery(Tell(rcv_dialogue:fail(Failed))) of
        {fault, Answer} ->
            {fault, Answer};
        {ok, Backs} ->
            Now = maps:map(fun(Role, Back) -> {Back, start(Role, Back, Began, Store)} end, Backs),
            Recovery = maps:merge(Before, Now),
            % Who has no state behind that count has failed, too, and goes to an earlier one.
            case [{Role, rcv_store:latest(Store, Role, Count)} || {Role, {#{count := Count}, none}} <- maps:to_list(Recovery)] of
                [] -> {ok, Recovery};
                Lacking -> recover(Lacking, Recovery, Began, Store, Tell)
            end
    end.

start(Role, #{count := Count}, Began, Store) ->
    case Began of
        #{Role := First} when First =< Count -> own;
        #{} when Count =:= 0 -> first;
        #{} ->
            case rcv_store:get(Store, Role, Count) of
                {ok, State} -> {saved, State};
                none -> none
            end
    end.
