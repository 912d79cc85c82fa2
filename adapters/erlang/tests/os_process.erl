%% Processes of the operating system.
-module(os_process).
-export([is_there/1, await_end/1]).

is_there(OsPid) ->
    os:cmd("kill -0 " ++ integer_to_list(OsPid) ++ " 2>/dev/null && echo there") =:= "there\n".

%% Waits until it has ended, also where it is no child of this node.
await_end(OsPid) ->
    Port = open_port({spawn, "tail --pid=" ++ integer_to_list(OsPid) ++ " -f /dev/null"}, [exit_status]),
    receive {Port, {exit_status, 0}} -> ok end.
