%% The dialogue of docs/GUIDE.md: lines that are told, and what their answers say.
%%
%% Roles and labels are atoms. The guide has their names from the text, so there are as many as the text has.
-module(rcv_dialogue).
-export([send/4, recv/2, save/3, fail/1, next/1]).
-export([read_ready/1, read_points/1, read_told/1, read_next/2, read_recovery/1, read_counts/1, is_done/1]).
-export_type([role/0, count/0, incarnation/0, point/0, points/0, message/0, back/0]).

-type role() :: atom().
-type count() :: non_neg_integer().
-type incarnation() :: non_neg_integer().
-type stamp() :: non_neg_integer().
%% A message of the text: its number, and who sends it to whom.
-type point() :: #{number := pos_integer(), label := atom(), from := role(), to := role()}.
-type points() :: #{pos_integer() => point()}.
%% A message that is on its way.
-type message() :: #{from := role(), to := role(), number := pos_integer(), label := atom(), value := integer(), stamp := stamp()}.
%% A role goes back to behind so many events, in a new incarnation, and gets these messages.
-type back() :: #{count := count(), incarnation := incarnation(), messages := [message()]}.

%% Lines

-spec send(role(), point(), integer(), incarnation()) -> binary().
send(Role, #{number := Number, label := Label}, Value, Incarnation) ->
    line(["send", Role, Number, Label, Value, {"#", Incarnation}]).

%% Its receiver, in this incarnation, receives a message.
-spec recv(message(), incarnation()) -> binary().
recv(#{to := Role, number := Number, label := Label, value := Value, stamp := Stamp}, Incarnation) ->
    line(["recv", Role, Number, Label, Value, {"<", Stamp}, {"#", Incarnation}]).

-spec save(role(), count(), incarnation()) -> binary().
save(Role, Count, Incarnation) ->
    line(["save", Role, Count, {"#", Incarnation}]).

%% Roles that failed; one that is told with a count has saved its state behind so many events.
-spec fail([role() | {role(), count()}, ...]) -> binary().
fail(Failed) ->
    line(["fail" | [failed(Role) || Role <- Failed]]).

failed({Role, Count}) -> [word(Role), "=", word(Count)];
failed(Role) -> Role.

-spec next(role()) -> binary().
next(Role) ->
    line(["next", Role]).

line(Words) ->
    iolist_to_binary(lists:join(" ", [word(Word) || Word <- Words])).

word({Mark, Number}) -> [Mark, word(Number)];
word(Number) when is_integer(Number) -> integer_to_binary(Number);
word(Name) when is_atom(Name) -> atom_to_binary(Name);
word(Word) -> Word.

%% Answers

%% The first answer: the roles of the text, or why it is refused.
-spec read_ready(rcv_lines:answer()) -> {ok, [role()]} | {refused, binary()}.
read_ready([First]) ->
    case words(First) of
        [<<"ready">>, <<"1">> | Roles] -> {ok, [binary_to_atom(Role) || Role <- Roles]};
        _ -> {refused, First}
    end.

-spec read_points(rcv_lines:answer()) -> points().
read_points([_ | Lines]) ->
    maps:from_list([read_point(words(Line)) || Line <- Lines]).

read_point([<<"point">>, Number, Label, From, To]) ->
    Point = #{number => number(Number), label => binary_to_atom(Label), from => name(From), to => name(To)},
    {number(Number), Point}.

%% What is said of an event: that it was taken, with its stamp if it has one, or that it is old news; or what is wrong.
-spec read_told(rcv_lines:answer()) -> {done, stamp() | none} | {stale, incarnation | message} | {fault, binary()}.
read_told([First]) ->
    case words(First) of
        [<<"done">>] -> {done, none};
        [<<"done">>, <<"@", Stamp/binary>> | _] -> {done, number(Stamp)};
        [<<"stale">>, <<"incarnation">>, _] -> {stale, incarnation};
        [<<"stale">>, <<"message">>] -> {stale, message};
        _ -> {fault, First}
    end.

%% What a role may send, or receive, next.
-spec read_next(rcv_lines:answer(), points()) -> {sends | receives, [point(), ...]} | over.
read_next([First], Points) ->
    case words(First) of
        [<<"next">>, _, <<"sends">> | Numbers] -> {sends, [map_get(number(Number), Points) || Number <- Numbers]};
        [<<"next">>, _, <<"receives">> | Numbers] -> {receives, [map_get(number(Number), Points) || Number <- Numbers]};
        [<<"next">>, _, <<"over">>] -> over
    end.

%% Who goes back, how far, and what is delivered to them again; or what is wrong.
-spec read_recovery(rcv_lines:answer()) -> {ok, #{role() => back()}} | {fault, binary()}.
read_recovery([<<"done ", _/binary>> | Lines]) ->
    {ok, lists:foldl(fun(Line, Backs) -> read_back(words(Line), Backs) end, #{}, Lines)};
read_recovery([First | _]) ->
    {fault, First}.

read_back([<<"back">>, Role, Count, <<"#", Incarnation/binary>>], Backs) ->
    Backs#{name(Role) => #{count => number(Count), incarnation => number(Incarnation), messages => []}};
read_back([<<"flight">>, From, To, Number, Label, Value, <<"@", Stamp/binary>>], Backs) ->
    Message = #{from => name(From), to => name(To), number => number(Number), label => name(Label),
                value => number(Value), stamp => number(Stamp)},
    maps:update_with(name(To), fun(#{messages := Before} = Back) -> Back#{messages := Before ++ [Message]} end, Backs).

%% A number for each role: the answer to `kept` and `line`.
-spec read_counts(rcv_lines:answer()) -> #{role() => count()}.
read_counts([First]) ->
    maps:from_list(pairs(tl(words(First)))).

pairs([Role, Count | Rest]) -> [{name(Role), number(Count)} | pairs(Rest)];
pairs([]) -> [].

%% Whether a line was taken.
-spec is_done(rcv_lines:answer()) -> boolean().
is_done([First | _]) ->
    hd(words(First)) =:= <<"done">>.

words(Line) -> binary:split(Line, <<" ">>, [global]).
number(Word) -> binary_to_integer(Word).
name(Word) -> binary_to_existing_atom(Word).
