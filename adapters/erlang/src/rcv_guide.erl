%% A guide process behind a port: lines are told, and answered one behind the other.
%%
%% A guide that dies, or is silent for too long, is followed by a new one, which is told all lines that were taken, and then
%% the one that was left unanswered. Who tells lines notices nothing. Where these lines are many, a snapshot takes their place.
-module(rcv_guide).
-behaviour(gen_server).
-export([start_link/1, tell/2, roles/1, os_pid/1, stop/1]).
-export([init/1, handle_call/3, handle_cast/2, handle_info/2, terminate/2]).

%% How often it is started for the same line.
-define(STARTS, 3).
%% How long it may take to end.
-define(ENDING, 5000).
%% So many lines that were taken are kept at least, before a snapshot takes their place.
-define(FEW, 1000).

%% The text; the shell's words that start a guide, by default what RCV_GUIDE says, or `rcv-guide --told`; for how many
%% milliseconds a guide may be silent.
-type options() :: #{text := iodata(), command => string() | default, silence => pos_integer()}.

%% Of the lines that were taken the last one is first. There are `kept` of them, and at `most` so many.
-record(guide, {text, command, silence, port = none, os_pid, reader, roles, taken = [], kept = 0, most = ?FEW, starts = 0}).

%% Ends with `{refused, Line}` where the guide doesn't take the text.
-spec start_link(options()) -> {ok, pid()} | {error, term()}.
start_link(Options) ->
    gen_server:start_link(?MODULE, Options, []).

-spec tell(pid(), iodata()) -> rcv_lines:answer().
tell(Guide, Line) ->
    gen_server:call(Guide, {tell, Line}, infinity).

%% The roles of the text, in order of declaration.
-spec roles(pid()) -> [rcv_dialogue:role()].
roles(Guide) ->
    gen_server:call(Guide, roles, infinity).

%% The process of the guide, as the operating system names it.
-spec os_pid(pid()) -> non_neg_integer() | undefined.
os_pid(Guide) ->
    gen_server:call(Guide, os_pid, infinity).

-spec stop(pid()) -> ok.
stop(Guide) ->
    gen_server:stop(Guide).

init(#{text := Text} = Options) ->
    process_flag(trap_exit, true),
    Command = case maps:get(command, Options, default) of
        default -> os:getenv("RCV_GUIDE", "rcv-guide --told");
        Words -> Words
    end,
    {ok, start(#guide{text = Text, command = Command, silence = maps:get(silence, Options, 30000)})}.

handle_call({tell, Line}, _From, Guide) ->
    {Answer, Next} = tell_at_last(Line, Guide#guide{starts = 0}),
    {reply, Answer, case rcv_dialogue:is_done(Answer) of true -> keep(Line, Next); false -> Next end};
handle_call(roles, _From, Guide) ->
    {reply, Guide#guide.roles, Guide};
handle_call(os_pid, _From, Guide) ->
    {reply, Guide#guide.os_pid, Guide}.

handle_cast(_, Guide) ->
    {noreply, Guide}.

%% What comes from a port between lines says that its guide has ended. The next line finds that out.
handle_info(_, Guide) ->
    {noreply, Guide}.

terminate(_Reason, Guide) ->
    case ask("end", Guide#guide{silence = ?ENDING}) of
        {_Answer, #guide{port = Port} = Asked} ->
            receive
                {Port, {exit_status, _}} -> ok;
                {'EXIT', Port, _} -> ok
            after ?ENDING -> close(silent, Asked)
            end;
        {died, How} -> close(How, Guide)
    end.

%% Lines

%% Keeps a line that was taken.
keep(Line, #guide{taken = Taken, kept = Kept} = Guide) ->
    shorten(Guide#guide{taken = [Line | Taken], kept = Kept + 1}).

%% Keeps a snapshot in place of many lines. What a guide that has died was told, the next one is told.
shorten(#guide{kept = Kept, most = Most} = Guide) when Kept < Most ->
    Guide;
shorten(Guide) ->
    case ask("snapshot", Guide) of
        {died, _} -> Guide;
        {[<<"snapshot ", _/binary>> | Lines], Asked} ->
            Kept = length(Lines),
            Asked#guide{taken = lists:reverse(Lines), kept = Kept, most = ?FEW + 2 * Kept};
        {_, #guide{most = Most} = Asked} -> Asked#guide{most = 2 * Most}
    end.

%% Where a guide has no memory left for a line, a new one may have.
tell_at_last(Line, Guide) ->
    case ask(Line, Guide) of
        {died, How} -> tell_at_last(Line, start(close(How, Guide)));
        {[<<"memory">>], Asked} -> tell_at_last(Line, start(close(ended, Asked)));
        Answered -> Answered
    end.

%% Tells a line, and returns the answer, or how the guide died.
ask(Line, #guide{port = Port} = Guide) ->
    try port_command(Port, [Line, $\n]) of
        true -> read(Guide)
    catch
        error:badarg -> {died, ended}
    end.

read(#guide{port = Port, reader = Reader, silence = Silence} = Guide) ->
    receive
        {Port, {data, Bytes}} ->
            case rcv_lines:add(Bytes, Reader) of
                {[], Next} -> read(Guide#guide{reader = Next});
                {[Answer], Next} -> {Answer, Guide#guide{reader = Next}}
            end;
        {Port, {exit_status, _}} -> {died, ended};
        {'EXIT', Port, _} -> {died, ended}
    after Silence -> {died, silent}
    end.

%% Starts and ends

start(#guide{starts = ?STARTS}) ->
    exit(guide_keeps_dying);
start(#guide{command = Command, text = Text, starts = Starts} = Guide) ->
    Port = open_port({spawn, Command}, [binary, stream, exit_status, use_stdio]),
    OsPid = case erlang:port_info(Port, os_pid) of {os_pid, Pid} -> Pid; undefined -> undefined end,
    Opened = Guide#guide{port = Port, os_pid = OsPid, reader = rcv_lines:new(), starts = Starts + 1},
    case ask([Text, "\n%% events"], Opened) of
        {died, How} -> start(close(How, Opened));
        {Answer, Next} -> tell_again(rcv_dialogue:read_ready(Answer), Next)
    end.

%% Tells what a guide before it was told.
tell_again({refused, Line}, Guide) ->
    close(ended, Guide),
    exit({refused, Line});
tell_again({ok, Roles}, #guide{taken = Taken} = Guide) ->
    tell_all(lists:reverse(Taken), Guide#guide{roles = Roles}).

tell_all([], Guide) ->
    Guide;
tell_all([Line | Lines], Guide) ->
    case ask(Line, Guide) of
        {died, How} ->
            start(close(How, Guide));
        {Answer, Next} ->
            case rcv_dialogue:is_done(Answer) of
                true -> tell_all(Lines, Next);
                false -> exit({told_again, Line, Answer})
            end
    end.

%% Closes the port. A guide that is silent is killed: it may not notice that.
close(How, #guide{port = Port, os_pid = OsPid} = Guide) ->
    try port_close(Port) catch error:badarg -> ok end,
    case {How, OsPid} of
        {silent, Pid} when is_integer(Pid) -> os:cmd("kill -KILL " ++ integer_to_list(Pid));
        _ -> ok
    end,
    Guide.
