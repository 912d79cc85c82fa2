%% The buyer who decides. It saves behind each third event.
-module(second_buyer).
-behaviour(rcv_role).
-export([first/1, choose/2, value/2, behind/3, saves/2]).

first(none) -> [].

choose([Only], _) -> Only;
choose(_, Notes) ->
    case notes:heard(share, Notes) of
        Share when Share =< 60 -> ok;
        _ -> quit
    end.

value(address, _) -> 12;
value(_, _) -> 0.

behind(Label, Value, Notes) -> notes:add(Label, Value, Notes).

saves(Count, _) -> Count rem 3 =:= 0.
