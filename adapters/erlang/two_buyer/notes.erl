%% A state that has all that a role sent and received.
-module(notes).
-export([add/3, heard/2]).

%% It takes a moment, as work does.
add(Label, Value, Notes) ->
    timer:sleep(2),
    Notes ++ [{Label, Value}].

heard(Label, Notes) ->
    {Label, Value} = lists:keyfind(Label, 1, Notes),
    Value.
