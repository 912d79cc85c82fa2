%% Calls each test of the modules below, which are the functions whose names end with _test, and then the example, so many
%% times as the first word says, 5 where there is none, and a tenth as often with three kills. Each test has a process of
%% its own, and fails where that fails. Prints those that fail, and last `N passed, M failed`.
-module(tests).
-export([main/0]).

-define(MODULES, [rcv_lines_tests, rcv_dialogue_tests, rcv_channel_tests, rcv_store_tests, rcv_recovery_tests, rcv_guide_tests,
                  rcv_role_tests, rcv_supervisor_tests, nodes_tests]).
%% For how many milliseconds a test of a module may go on.
-define(MOST, 300000).

main() ->
    Runs = case tl(init:get_plain_arguments()) of [] -> 5; [Word] -> list_to_integer(Word) end,
    Tests = [{{Module, Test}, fun Module:Test/0, ?MOST} || Module <- ?MODULES, Test <- tests_of(Module)],
    Example = [{{two_buyer, Number, Kills}, fun() -> 0 = two_buyer:runs(Number, Kills, Kills) end, infinity}
               || {Number, Kills} <- [{Runs, 1}, {(Runs + 9) div 10, 3}]],
    Passed = [try_out(Test) || Test <- Tests ++ Example],
    Failed = length([failed || false <- Passed]),
    io:format("~b passed, ~b failed~n", [length(Passed) - Failed, Failed]),
    halt(min(Failed, 1)).

tests_of(Module) ->
    {module, Module} = code:ensure_loaded(Module),
    [Name || {Name, 0} <- Module:module_info(exports), lists:suffix("_test", atom_to_list(Name))].

%% Whether a test passes.
try_out({Name, Test, Most}) ->
    {Process, Monitor} = spawn_monitor(Test),
    receive
        {'DOWN', Monitor, process, Process, normal} -> true;
        {'DOWN', Monitor, process, Process, Reason} -> failed(Name, Reason)
    after Most ->
        exit(Process, kill),
        failed(Name, too_long)
    end.

failed(Name, Reason) ->
    io:format("failed: ~p: ~p~n", [Name, Reason]),
    false.
