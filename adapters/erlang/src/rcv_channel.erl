%% The way between roles: what a role does goes through here, and so the guide is told each Send before its message is on
%% the way, and each Recv before the role acts on it.
%%
%% Roles and the supervisor send each other plain messages. Nobody waits for an answer within a call, so a role that lives
%% hears at any moment that it has to go back. What it told before it heard that is old news to the guide.
-module(rcv_channel).
-export([request/4, order/2, carry/5]).
-export_type([request/0, order/0, start/0]).

-type role() :: rcv_dialogue:role().
-type count() :: rcv_dialogue:count().
-type incarnation() :: rcv_dialogue:incarnation().

%% What a role asks for, or does.
-type request() ::
    next
    | {send, rcv_dialogue:point(), integer()}
    | {recv, rcv_dialogue:message()}
    | {save, count()}
    | {over, State :: term()}.

%% What a role hears: what is next; that its Send or Recv was taken; that the message was old; that what it did may not
%% come; a message for its inbox; that it goes back; and that it never goes below a count.
-type order() ::
    {next, {sends | receives, [rcv_dialogue:point(), ...]} | over}
    | taken
    | old
    | {fault, Line :: binary(), Answer :: binary()}
    | {message, rcv_dialogue:message()}
    | {back, rcv_dialogue:back(), own | start()}
    | {line, count()}.

%% The state with which a role begins: its first one, or a saved one.
-type start() :: first | {saved, term()}.

%% A role tells its supervisor.
-spec request(pid(), role(), incarnation(), request()) -> ok.
request(Supervisor, Role, Incarnation, Request) ->
    gen_server:cast(Supervisor, {role, Role, Incarnation, Request}).

%% A supervisor tells a role. One that is dead hears nothing: its successor does.
-spec order(pid(), order()) -> ok.
order(Process, Order) ->
    gen_statem:cast(Process, Order).

%% Tells the guide what a role does, and returns who hears what behind that, in order.
-spec carry(request(), role(), incarnation(), rcv_dialogue:points(), fun((binary()) -> rcv_lines:answer())) -> [{role(), order()}].
carry(next, Role, _, Points, Tell) ->
    [{Role, {next, rcv_dialogue:read_next(Tell(rcv_dialogue:next(Role)), Points)}}];
carry({send, Point, Value}, Role, Incarnation, _, Tell) ->
    #{number := Number, label := Label, to := To} = Point,
    Line = rcv_dialogue:send(Role, Point, Value, Incarnation),
    case rcv_dialogue:read_told(Tell(Line)) of
        {done, Stamp} ->
            Message = #{from => Role, to => To, number => Number, label => Label, value => Value, stamp => Stamp},
            [{To, {message, Message}}, {Role, taken}];
        Other -> not_taken(Role, Line, Other)
    end;
carry({recv, Message}, Role, Incarnation, _, Tell) ->
    Line = rcv_dialogue:recv(Message, Incarnation),
    case rcv_dialogue:read_told(Tell(Line)) of
        {done, _} -> [{Role, taken}];
        Other -> not_taken(Role, Line, Other)
    end;
carry({save, Count}, Role, Incarnation, _, Tell) ->
    Line = rcv_dialogue:save(Role, Count, Incarnation),
    case rcv_dialogue:read_told(Tell(Line)) of
        {done, none} -> [];
        Other -> not_taken(Role, Line, Other)
    end.

%% Old news of a role that went back meanwhile is dropped: it hears that it went back.
not_taken(_, _, {stale, incarnation}) -> [];
not_taken(Role, _, {stale, message}) -> [{Role, old}];
not_taken(Role, Line, {fault, Answer}) -> [{Role, {fault, Line, Answer}}].
