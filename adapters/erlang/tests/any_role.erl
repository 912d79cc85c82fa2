%% A role whose callbacks are functions of the tests. It notes all it sent and received.
-module(any_role).
-behaviour(rcv_role).
-export([first/1, choose/2, value/2, behind/3, saves/2]).

first(Calls) -> {Calls, []}.

choose(Labels, {Calls, Notes}) -> call(choose, [Labels, Notes], hd(Labels), Calls).

value(Label, {Calls, Notes}) -> call(value, [Label, Notes], 0, Calls).

behind(Label, Value, {Calls, Notes}) ->
    call(behind, [Label], none, Calls),
    {Calls, Notes ++ [{Label, Value}]}.

saves(Count, {Calls, _}) -> call(saves, [Count], false, Calls).

call(Name, Args, Default, Calls) ->
    case Calls of
        #{Name := Call} -> apply(Call, Args);
        #{} -> Default
    end.
