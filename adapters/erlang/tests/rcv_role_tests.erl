%% Tests of rcv_role: a role whose supervisor is the test, step by step.
-module(rcv_role_tests).
-export([plays_test/0, waits_test/0, goes_back_test/0, saved_state_test/0, old_message_test/0, saves_test/0, late_save_test/0]).

plays_test() ->
    Role = begin_role(#{value => fun(ping, []) -> 5 end}, first, 0),
    {0, next} = request(),
    order(Role, {next, {sends, [point(1, ping, a, b)]}}),
    Point = point(1, ping, a, b),
    {0, {send, Point, 5}} = request(),
    order(Role, taken),
    {0, next} = request(),
    order(Role, {next, over}),
    {0, {over, {_, [{ping, 5}]}}} = request(),
    end_role(Role).

%% A message may come before the role asks for it, or while it waits.
waits_test() ->
    Role = begin_role(#{}, first, 0),
    {0, next} = request(),
    [One, Two] = [message(b, one, 1, 2), message(b, two, 2, 3)],
    order(Role, {message, One}),
    receives(Role, 0, [point(1, one, b, a)], One),
    order(Role, {next, {receives, [point(2, two, b, a)]}}),
    order(Role, {message, Two}),
    {0, {recv, Two}} = request(),
    order(Role, taken),
    {0, next} = request(),
    order(Role, {next, over}),
    {0, {over, {_, [{one, 1}, {two, 2}]}}} = request(),
    end_role(Role).

%% It goes back to a state of its own, and its inbox is what is delivered again.
goes_back_test() ->
    Role = begin_role(#{}, first, 0),
    {0, next} = request(),
    [One, Two, Three, Again] = [message(b, one, 1, 2), message(b, two, 2, 3), message(b, three, 3, 4), message(b, two, 7, 9)],
    [order(Role, {message, Message}) || Message <- [One, Two, Three]],
    receives(Role, 0, [point(1, one, b, a)], One),
    receives(Role, 0, [point(2, two, b, a)], Two),
    order(Role, {back, #{count => 1, incarnation => 4, messages => [Again]}, own}),
    {4, next} = request(),
    receives(Role, 4, [point(2, two, b, a)], Again),
    order(Role, {next, over}),
    {4, {over, {_, [{one, 1}, {two, 7}]}}} = request(),
    end_role(Role).

saved_state_test() ->
    Role = begin_role(#{}, {saved, {#{}, [{one, 1}]}}, 1),
    {0, next} = request(),
    order(Role, {next, over}),
    {0, {over, {_, [{one, 1}]}}} = request(),
    order(Role, {back, #{count => 0, incarnation => 1, messages => []}, first}),
    {1, next} = request(),
    order(Role, {next, over}),
    {1, {over, {_, []}}} = request(),
    end_role(Role).

%% It drops a message that is old, and takes the next one of the same sender.
old_message_test() ->
    Role = begin_role(#{}, first, 0),
    {0, next} = request(),
    [Old, Other, New] = [message(b, one, 1, 2), message(c, one, 1, 2), message(b, one, 3, 5)],
    [order(Role, {message, Message}) || Message <- [Old, Other, New]],
    order(Role, {next, {receives, [point(1, one, b, a)]}}),
    {0, {recv, Old}} = request(),
    order(Role, old),
    {0, {recv, New}} = request(),
    order(Role, taken),
    {0, next} = request(),
    end_role(Role).

%% A save is told when the store has the state.
saves_test() ->
    Role = begin_role(#{saves => fun(Count) -> Count =:= 1 end}, first, 0),
    {0, next} = request(),
    order(Role, {message, message(b, one, 1, 2)}),
    order(Role, {next, {receives, [point(1, one, b, a)]}}),
    {0, {recv, _}} = request(),
    order(Role, taken),
    {0, {save, 1}} = request(),
    {ok, {_, [{one, 1}]}} = rcv_store:get(get(store), a, 1),
    {0, next} = request(),
    end_role(Role).

%% A role that went back, and hasn't heard that, saves nothing.
late_save_test() ->
    Role = begin_role(#{saves => fun(_) -> true end}, first, 0),
    {0, next} = request(),
    rcv_store:go_back(get(store), a, 0, 1),
    order(Role, {message, message(b, one, 1, 2)}),
    order(Role, {next, {receives, [point(1, one, b, a)]}}),
    {0, {recv, _}} = request(),
    order(Role, taken),
    {0, next} = request(),
    none = rcv_store:get(get(store), a, 1),
    end_role(Role).

%% Receives a message that is there.
receives(Role, Incarnation, Points, Message) ->
    order(Role, {next, {receives, Points}}),
    {Incarnation, {recv, Message}} = request(),
    order(Role, taken),
    {Incarnation, next} = request().

point(Number, Label, From, To) ->
    #{number => Number, label => Label, from => From, to => To}.

message(From, Label, Value, Stamp) ->
    #{from => From, to => a, number => 1, label => Label, value => Value, stamp => Stamp}.

begin_role(Calls, Start, Count) ->
    {ok, Store} = rcv_store:start_link(),
    put(store, Store),
    Back = #{count => Count, incarnation => 0, messages => []},
    rcv_role:start_link(node(), #{role => a, module => any_role, args => Calls, supervisor => self(), store => Store,
                                  back => Back, start => Start}).

order(Role, Order) ->
    rcv_channel:order(Role, Order).

%% What the role tells next, and in which incarnation.
request() ->
    receive {'$gen_cast', {role, a, Incarnation, Request}} -> {Incarnation, Request} end.

end_role(Role) ->
    unlink(Role),
    exit(Role, shutdown),
    rcv_store:stop(get(store)).
