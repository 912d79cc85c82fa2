%% Tests of rcv_store.
-module(rcv_store_tests).
-export([saved_test/0, going_back_test/0, forgetting_test/0]).

saved_test() ->
    {ok, Store} = rcv_store:start_link(),
    none = rcv_store:get(Store, a, 2),
    0 = rcv_store:latest(Store, a, 9),
    ok = rcv_store:put(Store, a, 0, 2, two),
    ok = rcv_store:put(Store, a, 0, 4, four),
    {ok, two} = rcv_store:get(Store, a, 2),
    none = rcv_store:get(Store, b, 2),
    [0, 2, 2, 4] = [rcv_store:latest(Store, a, Below) || Below <- [2, 3, 4, 5]],
    rcv_store:stop(Store).

%% What an incarnation saves late, that is no more, isn't taken.
going_back_test() ->
    {ok, Store} = rcv_store:start_link(),
    [ok = rcv_store:put(Store, a, 0, Count, {old, Count}) || Count <- [2, 4, 6]],
    ok = rcv_store:go_back(Store, a, 4, 1),
    stale = rcv_store:put(Store, a, 0, 6, {old, 6}),
    none = rcv_store:get(Store, a, 6),
    {ok, {old, 4}} = rcv_store:get(Store, a, 4),
    ok = rcv_store:put(Store, a, 1, 6, new),
    {ok, new} = rcv_store:get(Store, a, 6),
    rcv_store:stop(Store).

forgetting_test() ->
    {ok, Store} = rcv_store:start_link(),
    [ok = rcv_store:put(Store, a, 0, Count, Count) || Count <- [2, 4, 6]],
    ok = rcv_store:forget(Store, a, 4),
    [none, {ok, 4}, {ok, 6}] = [rcv_store:get(Store, a, Count) || Count <- [2, 4, 6]],
    rcv_store:stop(Store).
