%% The buyer who asks for the price, and says what the other one is to pay. It saves behind each second event.
-module(first_buyer).
-behaviour(rcv_role).
-export([first/1, value/2, behind/3, saves/2]).

first(none) -> [].

value(title, _) -> 7;
value(share, Notes) -> notes:heard(quote, Notes) - 30.

behind(Label, Value, Notes) -> notes:add(Label, Value, Notes).

saves(Count, _) -> Count rem 2 =:= 0.
