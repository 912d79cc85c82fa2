%% Kills processes of the operating system by SIGKILL, at once: a shell waits for their numbers. Who starts it uses it.
-module(killer).
-export([start/0, kill/2, stop/1]).

-spec start() -> port().
start() ->
    Loop = "while read -r number; do kill -KILL \"$number\" 2>/dev/null; echo; done",
    open_port({spawn_executable, "/bin/sh"}, [{args, ["-c", Loop]}]).

-spec kill(port(), non_neg_integer() | string()) -> ok.
kill(Killer, Number) when is_integer(Number) ->
    kill(Killer, integer_to_list(Number));
kill(Killer, Number) ->
    true = port_command(Killer, [Number, $\n]),
    receive {Killer, {data, "\n"}} -> ok end.

-spec stop(port()) -> true.
stop(Killer) ->
    port_close(Killer).
