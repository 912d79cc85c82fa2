%% The seller. It saves behind each fourth event.
-module(seller).
-behaviour(rcv_role).
-export([first/1, value/2, behind/3, saves/2]).

first(none) -> [].

value(quote, _) -> 80;
value(date, _) -> 25.

behind(Label, Value, Notes) -> notes:add(Label, Value, Notes).

saves(Count, _) -> Count rem 4 =:= 0.
