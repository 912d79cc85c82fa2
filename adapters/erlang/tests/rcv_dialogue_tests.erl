%% Tests of rcv_dialogue: the lines of docs/GUIDE.md, word by word.
-module(rcv_dialogue_tests).
-export([lines_test/0, told_test/0, ready_test/0, points_test/0, next_test/0, recovery_test/0, counts_test/0]).

lines_test() ->
    Message = #{from => 'Buyer', to => 'Shop', number => 1, label => order, value => -5, stamp => 7},
    <<"send Buyer 1 order -5 #0">> = rcv_dialogue:send('Buyer', #{number => 1, label => order}, -5, 0),
    <<"recv Shop 1 order -5 <7 #3">> = rcv_dialogue:recv(Message, 3),
    <<"save Depot 10 #2">> = rcv_dialogue:save('Depot', 10, 2),
    <<"fail Depot Shop=4">> = rcv_dialogue:fail(['Depot', {'Shop', 4}]),
    <<"next Depot">> = rcv_dialogue:next('Depot').

told_test() ->
    {done, 5} = rcv_dialogue:read_told([<<"done @5">>]),
    {done, 6} = rcv_dialogue:read_told([<<"done @6 <5">>]),
    {done, none} = rcv_dialogue:read_told([<<"done">>]),
    {stale, incarnation} = rcv_dialogue:read_told([<<"stale incarnation 4">>]),
    {stale, message} = rcv_dialogue:read_told([<<"stale message">>]),
    [{fault, Answer} = rcv_dialogue:read_told([Answer]) || Answer <- [<<"illegal down">>, <<"wrong 5 value">>, <<"memory">>]].

ready_test() ->
    {ok, ['Buyer', 'Shop']} = rcv_dialogue:read_ready([<<"ready 1 Buyer Shop">>]),
    {refused, <<"refused 57 NoEvents line 2">>} = rcv_dialogue:read_ready([<<"refused 57 NoEvents line 2">>]),
    {refused, <<"ready 2 A B">>} = rcv_dialogue:read_ready([<<"ready 2 A B">>]).

points() ->
    rcv_dialogue:read_points([<<"points +2">>, <<"point 1 order Buyer Shop">>, <<"point 2 bill Shop Buyer">>]).

points_test() ->
    #{1 := #{number := 1, label := order, from := 'Buyer', to := 'Shop'}, 2 := #{label := bill, from := 'Shop'}} =
        points().

next_test() ->
    Points = points(),
    {sends, [#{number := 1}]} = rcv_dialogue:read_next([<<"next Buyer sends 1">>], Points),
    {receives, [#{number := 1}, #{number := 2}]} = rcv_dialogue:read_next([<<"next Shop receives 1 2">>], Points),
    over = rcv_dialogue:read_next([<<"next Shop over">>], Points).

recovery_test() ->
    {ok, Backs} = rcv_dialogue:read_recovery([
        <<"done undone 3: Buyer 1 Depot 0 +5">>, <<"back Buyer 1 #1">>, <<"back Depot 0 #4">>,
        <<"flight Shop Depot 2 ship 7 @3">>, <<"flight Shop Depot 2 ship 8 @4">>, <<"flight Buyer Depot 4 thanks -1 @9">>]),
    #{'Buyer' := #{count := 1, incarnation := 1, messages := []},
      'Depot' := #{count := 0, incarnation := 4, messages := [First, Second, Third]}} = Backs,
    #{from := 'Shop', to := 'Depot', number := 2, label := ship, value := 7, stamp := 3} = First,
    #{from := 'Shop', value := 8} = Second,
    #{from := 'Buyer', label := thanks, value := -1, stamp := 9} = Third,
    {ok, None} = rcv_dialogue:read_recovery([<<"done undone 0: Shop 2 +1">>, <<"back Shop 2 #1">>]),
    ['Shop'] = maps:keys(None),
    {fault, <<"illegal line Shop 3">>} = rcv_dialogue:read_recovery([<<"illegal line Shop 3">>]).

counts_test() ->
    #{'Buyer' := 1, 'Shop' := 0} = Counts = rcv_dialogue:read_counts([<<"line Buyer 1 Shop 0">>]),
    2 = map_size(Counts).
