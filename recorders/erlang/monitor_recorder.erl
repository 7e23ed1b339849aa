%%% @doc Records Erlang processes for `monitor': their events in their order, one line each.
%%%
%%% Erlang processes whose messages are recorded by themselves, since the runtime tells of them:
%%%
%%% ```
%%% ok = monitor_recorder:trace(#{bank => whereis(bank), alice => Alice}),  % to the folder that MONITOR_TO names
%%% monitor_recorder:set(#{money => 70}),  % in one of them: `money' is 70 from now on
%%% ok = monitor_recorder:stop()           % once all has happened: each stream gets its end line
%%% '''
%%%
%%% One process of the session that is recorded by calls, as in other languages:
%%%
%%% ```
%%% Recorder = monitor_recorder:to_file(left, "left.stream"),
%%% monitor_recorder:event(Recorder, #{inside => 1}),              % something happened
%%% Id = monitor_recorder:send(Recorder, #{money => 70}),          % BEFORE the message leaves; the id travels with it
%%% monitor_recorder:recv(Recorder, <<"right-1">>, #{money => 80}),  % AFTER a message was taken, with its id
%%% ok = monitor_recorder:close(Recorder)                          % nothing more happens: writes the end line
%%% '''
%%%
%%% What `monitor' would refuse is refused at the call: it raises the error `{not_recorded, Word, Text}', nothing is
%%% written, and the recorder goes on as if the call hadn't been made. What the system refuses raises
%%% `{failed, Reason}'. The formats and limits are those of docs/SPECIFICATION.md.
%%%
%%% A recording that is over the limits of a session is refused. With the option `long', or MONITOR_LONG=1 in the
%%% environment, it is a long recording, of any length, which monitor_reduce.py reduces before it is judged.
-module(monitor_recorder).

-export([trace/1, trace/2, trace/3, set/1, join/1, stop/0]).
-export([to_file/2, to_file/3, to_port/2, to_port/3, to_port/4]).
-export([from_environment/1, from_environment/2, to_place/2, to_place/3]).
-export([event/1, event/2, send/1, send/2, send_as/2, send_as/3, recv/2, recv/3, events/1]).
-export([strand/2, join/2, join/3, close/1, abandon/1]).
-export([format_error/2]).
-export_type([recorder/0, name/0, settings/0, option/0, word/0]).

-define(EVENT_LIMIT, 10000).
-define(VARIABLE_LIMIT, 16).
-define(PROCESS_LIMIT, 16).
-define(NAME_BYTE_LIMIT, 32).
-define(ID_BYTE_LIMIT, 64).
-define(LONG_EVENT_LIMIT, 2147483647).
-define(LONG_PROCESS_LIMIT, 4096).
-define(LONG_ID_BYTE_LIMIT, 1024).
-define(AS_A_LONG_RUN, "or record it as a long run: the option long or MONITOR_LONG=1, and reduce it by"
                       " monitor_reduce.py").
-define(LEAST_VALUE, (-(1 bsl 63))).
-define(GREATEST_VALUE, ((1 bsl 63) - 1)).
-define(CONNECT_MILLISECONDS, 10000).
-define(PAUSE_MILLISECONDS, 50).
-define(PORT_LIMIT, 65534).
-define(SOCKET_BYTE_LIMIT, 107).
-define(HERE, {127, 0, 0, 1}).
-define(PLACE, "MONITOR_TO").
-define(AS_LONG, "MONITOR_LONG").
-define(TOKEN, "MONITOR_TOKEN").
-define(TOKEN_BYTE_LIMIT, 1024).

-record(recorder, {server :: pid(), name :: binary()}).

%% At most so many events has a process, so many processes have a recorder and its strands, and so many bytes has an id.
-record(limits, {
    events = ?EVENT_LIMIT :: pos_integer(),
    processes = ?PROCESS_LIMIT :: pos_integer(),
    id_bytes = ?ID_BYTE_LIMIT :: pos_integer(),
    is_long = false :: boolean()
}).

%% One stream: the lines of one process of the session.
-record(stream, {
    name :: binary(),
    out :: {file, file:io_device()} | {socket, socket:socket()},
    limits :: #limits{},
    %% how many events are kept for its end
    kept = 0 :: 0 | 1,
    state = open :: open | closed | broken,
    events = 0 :: non_neg_integer(),
    made = 0 :: non_neg_integer(),
    ids = #{} :: #{binary() => []},
    names = #{} :: #{binary() => []},
    %% the id of the message by which a strand has ended
    last = none :: none | binary()
}).

%% A process that is recorded by calls, and its strands. Strands are opened beside it.
-record(family, {
    main :: binary(),
    place :: place(),
    limits :: #limits{},
    is_closed = false :: boolean(),
    streams :: #{binary() => #stream{}}
}).

%% The Erlang processes of this node that are recorded.
-record(tracing, {
    streams = #{} :: #{binary() => #stream{}},
    %% the name and the label of each process that runs
    processes = #{} :: #{pid() => {binary(), atom()}},
    %% the greatest serial that a process was seen to send, and those that were seen when another one was added
    seen = #{} :: #{pid() => non_neg_integer()},
    seen_before = #{} :: #{pid() => #{pid() => non_neg_integer()}},
    %% the same of those that have exited: what they have sent may still be taken
    exited = #{} :: #{pid() => {binary(), atom()}},
    %% the ids by which children come after what started them
    children = #{} :: #{pid() => binary()},
    spawns = 0 :: non_neg_integer(),
    joined = [] :: [{binary(), binary()}],
    faults = [] :: [{binary(), term()}],
    waiting = #{} :: #{reference() => term()}
}).

-opaque recorder() :: #recorder{}.
%% A connection begins with the token and its LF, or nothing.
-type place() :: {file | again, file:filename_all()} | {at, address(), non_neg_integer(), binary()}.
%% The port of a host, by its name or address, or a socket with a path.
-type address() :: {inet:hostname() | inet:ip_address(), inet:port_number()} | {local, binary()}.
-type name() :: atom() | binary().
%% Variables with their values from now on, in the order of a list, or of a map's names.
-type settings() :: #{name() => integer() | boolean()} | [{name(), integer() | boolean()}].
%% Why a call was refused.
-type word() :: process_name | variable_name | value | variables | events | id | id_twice | ended | broken
              | name_twice | processes | not_ended | place | running | again | long | token | process | taken.
%% With `again' a file that is there is what the process recorded before it was killed and started again. Then a further
%% incarnation is recorded, as a process of its own and to a file beside: of `left' and `left.stream' the second one is
%% `left_2' in `left_2.stream'. Its first event receives the message `left-ended', by which it comes after all that the
%% one before did; monitor_mend adds the send. It is refused while a process of this machine has the file of the one
%% before open for writing, and on a system that doesn't tell by /proc which process has. With `long' it is a long
%% recording: it may have 2,147,483,647 events, 4,096 processes with its strands, and ids of 1,024 bytes, and has to be
%% reduced by monitor_reduce.py before it is judged. MONITOR_LONG=1 in the environment says the same, to each call that
%% makes a recorder. With a token each connection begins with it, as the line that `monitor serve --token' asks for;
%% without one, or with no text, that is MONITOR_TOKEN in the environment, if there is one.
-type option() :: again | long | token().
-type token() :: {token, unicode:chardata()}.

%%% Erlang processes, recorded by what the runtime tells of their messages.

%% @doc Records Erlang processes to where MONITOR_TO says: see {@link trace/2}.
-spec trace(#{name() => pid() | atom()} | [{name(), pid() | atom()}]) -> ok.
trace(Processes) ->
    trace(Processes, os:getenv(?PLACE, "")).

%% @doc Records these Erlang processes of this node from now on, each as the process of the session with this name. A
%% registered name may stand for a process. More may be added by further calls. The place is a folder, which is made if
%% there is none and in which the stream of `left' is `left.stream', or a port, as ":7411". If one is refused, those
%% before it in the list are recorded.
-spec trace(#{name() => pid() | atom()} | [{name(), pid() | atom()}], file:filename_all()) -> ok.
trace(Processes, Place) ->
    trace(Processes, Place, []).

%% @doc The same, with `long' for a long recording, or with a token for connections.
-spec trace(#{name() => pid() | atom()} | [{name(), pid() | atom()}], file:filename_all(), [long | token()]) -> ok.
trace(Processes, Place, Options) when is_map(Processes) ->
    trace(lists:sort(maps:to_list(Processes)), Place, Options);
trace(Processes, Place, Options) ->
    Named = [{checked_name(process_name, Name), pid_of(Process)} || {Name, Process} <- Processes],
    Absolute = absolute(Place),
    Limits = limits_of(Options, [long, token]),
    Token = token_in(Options),
    Tracer = tracer(),
    lists:foreach(fun({Name, Pid}) -> ask(Tracer, {trace, Name, Pid, Absolute, Token, Limits}) end, Named).

pid_of(Pid) when is_pid(Pid), node(Pid) =:= node() ->
    Pid;
pid_of(Name) ->
    case is_atom(Name) andalso whereis(Name) of
        Pid when is_pid(Pid) -> Pid;
        _ -> refuse(process, "~tp is no process of this node", [Name])
    end.

%% @doc In a process that is recorded: these variables have these values from now on. If nothing is recorded on this
%% node it does nothing, so that the call may stay in the program.
-spec set(settings()) -> ok.
set(Settings) ->
    tell({set, checked_settings(Settings)}).

%% @doc In a process that is recorded: it has learned that the recorded process of this name has exited, by a link, a
%% monitor or otherwise. Call it AFTER that: what that process did comes before what this one does from now on.
-spec join(name()) -> ok.
join(Name) ->
    tell({join, checked_name(process_name, Name)}).

%% @doc Ends the recording: each stream gets its end line, and no process is recorded any more. An error says what
%% could not be recorded, if anything, by the names of the processes: their streams have no end line.
-spec stop() -> ok.
stop() ->
    case whereis(?MODULE) of
        undefined -> ok;
        Tracer ->
            %% From here on nothing is told: what is sent now has no token, and won't be received.
            seq_trace:get_system_tracer() =:= Tracer andalso seq_trace:set_system_tracer(false),
            case ask(Tracer, stop) of
                [] -> ok;
                Faults -> error({not_recorded, broken, Faults})
            end
    end.

%% A print of the sequential trace comes in the order of the messages, since it takes their way. Without a token and its
%% flag it would be dropped.
tell(Told) ->
    case label_of(self()) of
        none -> ok;
        Label ->
            seq_trace:set_token(label, Label),
            [seq_trace:set_token(Flag, true) || Flag <- [send, 'receive', print]],
            seq_trace:print({?MODULE, Told}),
            ok
    end.

label_of(Pid) ->
    try ets:lookup(?MODULE, Pid) of
        [{_, Label}] -> Label;
        [] -> refuse(process, "~tp isn't recorded: give it to trace first", [Pid])
    catch
        error:badarg -> none
    end.

absolute(Place) ->
    Text = unicode:characters_to_list(Place),
    case Text =/= "" andalso is_folder(Text) of
        true -> filename:absname(Place);
        false -> Place
    end.

%% A place with a colon and no slash is a port, and one that begins with unix: is a socket.
is_folder("unix:" ++ _) -> false;
is_folder(Text) -> not lists:member($:, Text) orelse lists:member($/, Text) orelse lists:member($\\, Text).

%% The process of this node that takes what the runtime tells, and writes the streams.
tracer() ->
    case whereis(?MODULE) of
        undefined ->
            Caller = self(),
            {Pid, Monitor} = spawn_monitor(fun() -> begin_tracing(Caller) end),
            receive
                {Pid, begun} -> demonitor(Monitor, [flush]), Pid;
                {'DOWN', Monitor, process, Pid, Reason} -> error(Reason)
            end;
        Pid -> Pid
    end.

begin_tracing(Caller) ->
    case seq_trace:get_system_tracer() of
        false -> ok;
        Other -> exit({not_recorded, taken, text("~tp is the system tracer of seq_trace already", [Other])})
    end,
    true = register(?MODULE, self()),
    ?MODULE = ets:new(?MODULE, [named_table, {read_concurrency, true}]),
    %% It has to keep up with all the others.
    process_flag(message_queue_data, off_heap),
    process_flag(priority, high),
    seq_trace:set_system_tracer(self()),
    Caller ! {self(), begun},
    tracing(#tracing{}).

tracing(Tracing) ->
    receive
        {seq_trace, Label, Told} -> tracing(told(Label, Told, Tracing));
        {trace, Pid, spawn, Child, _} -> tracing(spawned(Pid, Child, Tracing));
        {trace, Pid, exit, _} -> tracing(exited(Pid, Tracing));
        {trace_delivered, all, Reference} -> delivered(Reference, Tracing);
        {ask, From, Reference, Request} ->
            %% What happened before has to be told before it is done: which child was started, and what was sent.
            Waiting = (Tracing#tracing.waiting)#{erlang:trace_delivered(all) => {From, Reference, Request}},
            tracing(Tracing#tracing{waiting = Waiting});
        _ -> tracing(Tracing)
    end.

delivered(Delivered, Tracing) ->
    {{From, Reference, Request}, Waiting} = maps:take(Delivered, Tracing#tracing.waiting),
    Now = Tracing#tracing{waiting = Waiting},
    case Request of
        stop ->
            From ! {Reference, {ok, ended(Now)}};
        {trace, Name, Pid, Place, Token, Limits} ->
            try added(Name, Pid, Place, Token, Limits, Now) of
                Added -> From ! {Reference, {ok, ok}}, tracing(Added)
            catch
                throw:Refusal -> From ! {Reference, Refusal}, tracing(Now)
            end
    end.

%% Begins to record a process, which comes after the recorded process that started it.
added(Name, Pid, Place, Token, Limits, Tracing) ->
    #tracing{streams = Streams, processes = Processes, seen = Seen} = Tracing,
    maps:is_key(Pid, Processes) andalso throw_refused(process, "~tp is recorded already", [Pid]),
    refuse_name(Name, Streams, "this recording", Limits),
    erlang:is_process_alive(Pid) orelse throw_refused(process, "~tp has exited", [Pid]),
    Label = label(),
    Added = Processes#{Pid => {Name, Label}},
    Found = within(Limits, Place, in_folder(Name, place_of(Place))),
    Opened = opened_stream(Name, with_token(Token, Found), Limits),
    Stream = after_start(Pid, Opened, Tracing),
    erlang:trace_pattern(send, pattern(Added), []),
    try
        erlang:trace(Pid, true, [send, procs, {tracer, self()}])
    catch
        error:badarg ->
            closed(Stream),
            throw_refused(taken, "~tp has exited, or another tracer", [Pid])
    end,
    ets:insert(?MODULE, {Pid, Label}),
    Tracing#tracing{streams = Streams#{Name => Stream}, processes = Added,
                    seen_before = (Tracing#tracing.seen_before)#{Pid => Seen}}.

after_start(Pid, Stream, #tracing{children = Children}) ->
    case Children of
        #{Pid := Id} -> put_line(recv, Id, [], Stream);
        _ -> Stream
    end.

%% Each send of a recorded process gets that process's label and flags right before, whatever it has received: the
%% message carries them, so that the receipt is that of this very send. No trace message is made beside.
pattern(Processes) ->
    [{['_', '_'], [{'=:=', {self}, Pid}],
      [{set_seq_token, label, Label}, {set_seq_token, send, true}, {set_seq_token, 'receive', true}, {message, false}]}
     || {Pid, {_, Label}} <- maps:to_list(Processes)].

%% Tells the messages of a recorded process from those of another one to which it has handed its token on, and those of
%% this recording from older ones. It is an atom, since other terms aren't safe in a match specification of sends.
label() ->
    binary_to_atom(<<"monitor_recorder_", (integer_to_binary(erlang:unique_integer([positive])))/binary>>).

%% The name of the process that has sent a message with this label, if that was recorded then, or `none'.
sender(Label, From, #tracing{processes = Processes, exited = Exited}) ->
    case {Processes, Exited} of
        {#{From := {Name, Label}}, _} -> Name;
        {_, #{From := {Name, Label}}} -> Name;
        _ -> none
    end.

told(Label, {send, {_, Serial}, From, To, Message}, Tracing) when is_atom(Label), is_pid(From) ->
    case sender(Label, From, Tracing) of
        none -> Tracing;
        Name ->
            Seen = Tracing#tracing{seen = (Tracing#tracing.seen)#{From => Serial}},
            case is_message(From, To, Message) andalso may_be_recorded(To, Tracing) of
                true -> write(Name, send, id(Name, Serial), [], Seen);
                false -> Seen
            end
    end;
told(Label, {'receive', {_, Serial}, From, To, Message}, Tracing) when is_atom(Label), is_pid(From) ->
    Sender = sender(Label, From, Tracing),
    case Tracing#tracing.processes of
        #{To := {Name, _}} when Sender =/= none ->
            case is_message(From, To, Message) andalso is_recorded(Serial, From, To, Tracing) of
                true -> write(Name, recv, id(Sender, Serial), [], Tracing);
                false -> Tracing
            end;
        _ -> Tracing
    end;
told(_, {print, _, From, _, {?MODULE, Told}}, #tracing{processes = Processes} = Tracing) ->
    case {Processes, Told} of
        {#{From := {Name, _}}, {set, Settings}} -> write(Name, event, none, Settings, Tracing);
        {#{From := {Name, _}}, {join, Exited}} ->
            Joined = [{Name, Exited} | Tracing#tracing.joined],
            write(Name, recv, exit_id(Exited), [], Tracing#tracing{joined = Joined});
        _ -> Tracing
    end;
told(_, _, Tracing) ->
    Tracing.

%% What a process sends to itself is no message of the session, and a signal of an exit isn't recorded.
is_message(From, From, _) -> false;
is_message(From, _, {'EXIT', From, _}) -> false;
is_message(_, _, _) -> true.

%% False for another node, and for a process that isn't recorded now: its receipt won't be recorded either. An alias
%% may be anyone's.
may_be_recorded(To, Tracing) when is_pid(To) -> maps:is_key(To, Tracing#tracing.processes);
may_be_recorded(To, _) -> is_reference(To) andalso node(To) =:= node().

%% Whether the send of this message is recorded: it may have been seen before the receiver was.
is_recorded(Serial, From, To, #tracing{seen_before = Before}) ->
    Serial > maps:get(From, maps:get(To, Before), 0).

spawned(Pid, Child, #tracing{processes = Processes, spawns = Spawns, children = Children} = Tracing) ->
    case Processes of
        #{Pid := {Name, _}} ->
            Id = <<Name/binary, "-spawn-", (integer_to_binary(Spawns + 1))/binary>>,
            write(Name, send, Id, [], Tracing#tracing{spawns = Spawns + 1, children = Children#{Child => Id}});
        _ -> Tracing
    end.

%% Nothing more happens in a process that has exited, so its stream ends, whatever the reason.
exited(Pid, #tracing{processes = Processes, exited = Exited} = Tracing) ->
    case maps:take(Pid, Processes) of
        {{Name, Label}, Rest} ->
            ets:delete(?MODULE, Pid),
            Sent = write(Name, send, exit_id(Name), [], Tracing),
            with_end(Name, Sent#tracing{processes = Rest, exited = Exited#{Pid => {Name, Label}}});
        error -> Tracing
    end.

id(Name, Serial) -> <<Name/binary, $-, (integer_to_binary(Serial))/binary>>.
exit_id(Name) -> <<Name/binary, "-exit">>.

%% Writes a line of a stream. If that is refused or fails, the stream stays without an end line.
write(Name, Kind, Id, Settings, Tracing) ->
    change(Name, fun(Stream) -> put_line(Kind, Id, Settings, with_room(Stream)) end, Tracing).

with_end(Name, Tracing) ->
    change(Name, fun(Stream) -> closed(put_end(Stream)) end, Tracing).

change(Name, Change, #tracing{streams = Streams, faults = Faults} = Tracing) ->
    #{Name := Stream} = Streams,
    case Stream#stream.state of
        open ->
            try Change(Stream) of
                Changed -> Tracing#tracing{streams = Streams#{Name := Changed}}
            catch
                throw:Refusal ->
                    closed(Stream),
                    Broken = Streams#{Name := Stream#stream{state = broken}},
                    Tracing#tracing{streams = Broken, faults = [{Name, reason_of(Refusal)} | Faults]}
            end;
        _ -> Tracing
    end.

reason_of({failed, Reason, _}) -> {failed, Reason};
reason_of(Refusal) -> Refusal.

%% Ends all streams, once all that happened has been told, and gives the faults.
ended(#tracing{processes = Processes, exited = Exited, streams = Streams, joined = Joined} = Tracing) ->
    %% In this order, or each send of a process that is still traced would make a message.
    [catch erlang:trace(Pid, false, [all]) || Pid <- maps:keys(Processes)],
    erlang:trace_pattern(send, true, []),
    Gone = [Name || {Name, _} <- maps:values(Exited)],
    #tracing{faults = Faults} = lists:foldl(fun with_end/2, Tracing, maps:keys(Streams)),
    [{Name, {not_ended, Other}} || {Name, Other} <- Joined, not lists:member(Other, Gone)] ++ lists:reverse(Faults).

ask(Tracer, Request) ->
    Reference = monitor(process, Tracer),
    Tracer ! {ask, self(), Reference, Request},
    receive
        {Reference, Answer} ->
            demonitor(Reference, [flush]),
            answered(Answer);
        {'DOWN', Reference, process, _, Reason} ->
            error({failed, Reason})
    end.

%%% One process of the session, recorded by calls.

%% @doc Records to a new file. One that is there already raises `{failed, eexist}'. The recorder belongs to the process
%% that makes it, and closes without an end line if that one exits. Other processes may use it.
-spec to_file(name(), file:filename_all()) -> recorder().
to_file(Process, Path) ->
    to_file(Process, Path, []).

%% @doc The same, with options.
-spec to_file(name(), file:filename_all(), [option()]) -> recorder().
to_file(Process, Path, Options) ->
    Name = checked_name(process_name, Process),
    opened(Name, in_file(filename:absname(Path), Options), limits_of(Options, [again, long])).

in_file(Path, Options) ->
    case lists:member(again, Options) of
        true -> {again, unicode:characters_to_binary(Path)};
        false -> {file, Path}
    end.

%% The limits of a recording that is a long one if the options or MONITOR_LONG say so.
limits_of(Options, Known) ->
    lists:all(fun(Option) -> is_known(Option, Known) end, Options) orelse error(badarg),
    Text = os:getenv(?AS_LONG, ""),
    lists:member(Text, ["", "0", "1"])
        orelse refuse(long, "~ts is ~tp, and is 1 for a long recording, or else 0", [?AS_LONG, Text]),
    case Text =:= "1" orelse lists:member(long, Options) of
        true -> #limits{events = ?LONG_EVENT_LIMIT, processes = ?LONG_PROCESS_LIMIT, id_bytes = ?LONG_ID_BYTE_LIMIT,
                        is_long = true};
        false -> #limits{}
    end.

is_known({token, _}, Known) -> lists:member(token, Known);
is_known(Option, Known) -> Option =/= token andalso lists:member(Option, Known).

%% The place, if a recording with these limits may go there; what is said of it is a text.
within(#limits{is_long = true}, Said, {at, _, _}) ->
    throw_refused(long, "~ts is a connection, as ~ts may name, and monitor serve judges within the limits of a session:"
                        " record a long run to a folder, and reduce it by monitor_reduce.py; ~ts is 1 for one",
                  [Said, ?PLACE, ?AS_LONG]);
within(_, _, Place) ->
    Place.

%% The token that the options give, or no bytes.
token_in(Options) ->
    unicode:characters_to_binary(proplists:get_value(token, Options, "")).

%% The place, of which a connection begins with this token or, without one, with that of MONITOR_TOKEN.
with_token(Token, {at, Address, Milliseconds}) -> {at, Address, Milliseconds, token_line(Token)};
with_token(_, Place) -> Place.

%% The token with its LF, or no bytes. No error shows it.
token_line(<<>>) ->
    Text = os:getenv(?TOKEN, ""),
    token_line(?TOKEN, unicode:characters_to_binary(Text, unicode, file:native_name_encoding()));
token_line(Token) ->
    token_line("the token", Token).

token_line(_, <<>>) ->
    <<>>;
token_line(Name, Token) ->
    is_binary(Token) andalso byte_size(Token) =< ?TOKEN_BYTE_LIMIT
        andalso binary:match(Token, [<<"\n">>, <<"\r">>, <<0>>]) =:= nomatch
        orelse throw_refused(token, "~ts is no token, which is one line of at most ~b bytes, without LF, CR and NUL",
                             [Name, ?TOKEN_BYTE_LIMIT]),
    <<Token/binary, $\n>>.

%% @doc Records to `monitor serve' on a port of this machine, 1 to 65,534, for which it waits ten seconds.
-spec to_port(name(), inet:port_number()) -> recorder().
to_port(Process, Port) ->
    to_port(Process, Port, ?CONNECT_MILLISECONDS).

%% @doc The same, with another time to wait for somebody who listens, in milliseconds. A later call waits while the
%% monitor doesn't read. With MONITOR_LONG=1 it is refused as `long', since a long recording is reduced before it is
%% judged.
-spec to_port(name(), inet:port_number(), non_neg_integer()) -> recorder().
to_port(Process, Port, Milliseconds) ->
    to_port(Process, Port, Milliseconds, []).

%% @doc The same, with a token.
-spec to_port(name(), inet:port_number(), non_neg_integer(), [token()]) -> recorder().
to_port(Process, Port, Milliseconds, Options) ->
    Name = checked_name(process_name, Process),
    Limits = limits_of(Options, [token]),
    Token = token_in(Options),
    try with_token(Token, within(Limits, integer_to_list(Port), {at, {?HERE, Port}, Milliseconds})) of
        At -> opened(Name, At, Limits)
    catch
        throw:Refusal -> answered(Refusal)
    end.

%% @doc Records to where MONITOR_TO in the environment says: to a new file NAME.stream in a folder of this name, which
%% is made if there is none, or to `monitor serve', on a port of this machine, of :7411 or localhost:7411, on one of
%% another machine, of host:7411 or [fe80::1]:7411, or by a Unix socket, of unix:/run/monitor.sock. What has a colon and
%% no slash is no folder.
-spec from_environment(name()) -> recorder().
from_environment(Process) ->
    from_environment(Process, []).

%% @doc The same, with options. A connection keeps no earlier incarnation, and is judged within the limits of a session,
%% so `again' and `long' are refused with one. It begins with the token, which is MONITOR_TOKEN if none is given.
-spec from_environment(name(), [option()]) -> recorder().
from_environment(Process, Options) ->
    Place = os:getenv(?PLACE, ""),
    try
        to_place(Process, Place, Options)
    catch
        error:{failed, Reason} ->
            Cause = #{general => text("~ts is ~ts", [?PLACE, Place])},
            erlang:error({failed, Reason}, [Process, Options], [{error_info, #{cause => Cause}}])
    end.

%% @doc What the shell says of an error beside it.
-spec format_error(term(), [tuple()]) -> #{general => binary()}.
format_error(_, [{_, _, _, Info} | _]) ->
    #{cause := Cause} = proplists:get_value(error_info, Info),
    Cause.

%% @doc The same, of a place that is given.
-spec to_place(name(), file:filename_all()) -> recorder().
to_place(Process, Place) ->
    to_place(Process, Place, []).

%% @doc The same, with options.
-spec to_place(name(), file:filename_all(), [option()]) -> recorder().
to_place(Process, Place, Options) ->
    Name = checked_name(process_name, Process),
    try
        Kind = place_of(Place),
        Limits = limits_of(Options, [again, long, token]),
        Found = within(Limits, Place, in_folder(Name, Kind)),
        element(1, Found) =:= at andalso lists:member(again, Options)
            andalso throw_refused(again, "~ts is a connection, and only a folder has an earlier incarnation", [Place]),
        {with_token(token_in(Options), Found), Limits}
    of
        {{file, Path}, Limits} -> opened(Name, in_file(Path, Options), Limits);
        {At, Limits} -> opened(Name, At, Limits)
    catch
        throw:Refusal -> answered(Refusal)
    end.

%% @doc Something happened in this process.
-spec event(recorder()) -> ok.
event(Recorder) -> event(Recorder, []).

%% @doc The same; these variables have these values from now on.
-spec event(recorder(), settings()) -> ok.
event(Recorder, Settings) -> call(Recorder, {event, Settings}).

%% @doc This process sends a message to one other or, if the document is of version 2, to several: call it once, BEFORE
%% the message leaves. The id that it makes, as `<<"left-1">>', has to travel with the message.
-spec send(recorder()) -> binary().
send(Recorder) -> send(Recorder, []).

%% @doc The same, with settings.
-spec send(recorder(), settings()) -> binary().
send(Recorder, Settings) -> call(Recorder, {send, Settings}).

%% @doc The same as `send', with an id that no other send of the session has.
-spec send_as(recorder(), unicode:chardata()) -> ok.
send_as(Recorder, Id) -> send_as(Recorder, Id, []).

%% @doc The same, with settings.
-spec send_as(recorder(), unicode:chardata(), settings()) -> ok.
send_as(Recorder, Id, Settings) -> call(Recorder, {send, Id, Settings}).

%% @doc A message was taken, with this id: call it AFTER that. A second copy is refused as `id_twice'.
-spec recv(recorder(), unicode:chardata()) -> ok.
recv(Recorder, Id) -> recv(Recorder, Id, []).

%% @doc The same, with settings.
-spec recv(recorder(), unicode:chardata(), settings()) -> ok.
recv(Recorder, Id, Settings) -> call(Recorder, {recv, Id, Settings}).

%% @doc How many events are recorded.
-spec events(recorder()) -> non_neg_integer().
events(Recorder) -> call(Recorder, events).

%% @doc Begins a strand, a recorder for a process that waits by itself: call it where that is started. It is recorded to
%% NAME.stream beside the file of this recorder, or to the same port. It ends by `close'.
-spec strand(recorder(), name()) -> recorder().
strand(#recorder{server = Server} = Recorder, Name) ->
    Checked = checked_name(process_name, Name),
    ok = call(Recorder, {strand, Checked}),
    #recorder{server = Server, name = Checked}.

%% @doc A strand has ended, and was waited for: call it AFTER that.
-spec join(recorder(), recorder()) -> ok.
join(Recorder, Strand) -> join(Recorder, Strand, []).

%% @doc The same, with settings.
-spec join(recorder(), recorder(), settings()) -> ok.
join(Recorder, #recorder{name = Name} = Strand, Settings) ->
    Last = try call(Strand, last) catch error:{not_recorded, ended, _} -> none end,
    call(Recorder, {join, Name, Last, Settings}).

%% @doc Nothing more happens: writes the end line, also of strands that have not ended. A strand sends its last message
%% before. A second call does nothing.
-spec close(recorder()) -> ok.
close(Recorder) -> closing(Recorder, close).

%% @doc Closes without an end line, and so the strands that have not ended: `monitor' refuses the streams as `unended'.
-spec abandon(recorder()) -> ok.
abandon(Recorder) -> closing(Recorder, abandon).

closing(Recorder, Call) ->
    try
        call(Recorder, Call)
    catch
        error:{not_recorded, ended, _} -> ok
    end.

opened(Name, Place, Limits) ->
    Owner = self(),
    {Server, Monitor} = spawn_monitor(fun() -> begin_serving(Owner, Name, Place, Limits) end),
    receive
        {Server, opened, Opened} ->
            demonitor(Monitor, [flush]),
            #recorder{server = Server, name = Opened};
        {'DOWN', Monitor, process, Server, Reason} ->
            error(Reason)
    end.

call(#recorder{server = Server, name = Name}, Request) ->
    Reference = monitor(process, Server),
    Server ! {call, self(), Reference, Name, Request},
    receive
        {Reference, Answer} ->
            demonitor(Reference, [flush]),
            answered(Answer);
        {'DOWN', Reference, process, _, _} ->
            refuse(ended, "the process that recorded ~ts has exited", [Name])
    end.

answered({ok, Value}) -> Value;
answered({refused, Word, Text}) -> error({not_recorded, Word, Text});
answered({failed, Reason, _}) -> error({failed, Reason}).

%% The process that holds the files or connections of a recorder and its strands.
begin_serving(Owner, Name, Place, Limits) ->
    monitor(process, Owner),
    try opened_stream(Name, Place, Limits) of
        #stream{name = Opened} = Stream ->
            Owner ! {self(), opened, Opened},
            serving(#family{main = Opened, place = Place, limits = Limits, streams = #{Opened => Stream}})
    catch
        throw:{refused, Word, Text} -> exit({not_recorded, Word, Text});
        throw:{failed, Reason, _} -> exit({failed, Reason})
    end.

serving(Family) ->
    receive
        {call, From, Reference, Name, Request} ->
            {Answer, Next} = served(Request, Name, Family),
            From ! {Reference, Answer},
            serving(Next);
        {'DOWN', _, process, _, _} ->
            ok;
        _ ->
            serving(Family)
    end.

served(Request, Name, #family{streams = Streams} = Family) ->
    try
        made(Request, maps:get(Name, Streams), Family)
    catch
        throw:{refused, _, _} = Refusal -> {Refusal, Family};
        throw:{failed, _, none} = Failure -> {Failure, Family};
        throw:{failed, _, Broken} = Failure -> {Failure, with_stream(Broken, Family)}
    end.

with_stream(Stream, #family{streams = Streams} = Family) ->
    Family#family{streams = Streams#{Stream#stream.name => Stream}}.

made(events, Stream, Family) ->
    {{ok, Stream#stream.events}, Family};
made(last, Stream, Family) ->
    {{ok, Stream#stream.last}, Family};
made({event, Settings}, Stream, Family) ->
    {{ok, ok}, with_stream(put_line(event, none, Settings, with_room(Stream)), Family)};
made({send, Settings}, Stream, Family) ->
    {Id, Sent} = sent(Settings, with_room(Stream)),
    {{ok, Id}, with_stream(Sent, Family)};
made({Kind, Id, Settings}, Stream, Family) ->
    {{ok, ok}, with_stream(put_line(Kind, checked_id(Id, Stream), Settings, with_room(Stream)), Family)};
made({strand, Name}, Stream, Family) ->
    begun(Name, with_room(Stream), Family);
made({join, Name, Last, Settings}, Stream, Family) ->
    Ready = with_room(Stream),
    Last =:= none
        andalso throw_refused(not_ended, "~ts is no strand that has ended: wait for it, and then join it", [Name]),
    {{ok, ok}, with_stream(put_line(recv, Last, Settings, Ready), Family)};
made(abandon, Stream, #family{main = Main, streams = Streams} = Family) when Stream#stream.name =:= Main ->
    {{ok, ok}, Family#family{is_closed = true, streams = maps:map(fun(_, Each) -> closed(Each) end, Streams)}};
made(abandon, Stream, Family) ->
    {{ok, ok}, with_stream(closed(Stream), Family)};
made(close, #stream{state = closed}, Family) ->
    {{ok, ok}, Family};
made(close, Stream, #family{main = Main} = Family) when Stream#stream.name =:= Main ->
    with_all_ended(Stream, Family);
made(close, Stream, Family) ->
    {Id, Sent} = sent([], ready(Stream)),
    {{ok, ok}, with_stream(closed(put_end(Sent#stream{last = Id})), Family)}.

%% Ends the strands that have not ended, and then their process. If one can't be ended, the others are.
with_all_ended(Stream, #family{main = Main, streams = Streams} = Family) ->
    Ended = maps:map(fun(Name, Strand) ->
        case Name =/= Main andalso Strand#stream.state =:= open of
            true -> try closed(put_end(Strand)) catch throw:{failed, _, Broken} -> closed(Broken) end;
            false -> Strand
        end
    end, Streams),
    served_end(Stream, Family#family{is_closed = true, streams = Ended}).

served_end(Stream, Family) ->
    try
        {{ok, ok}, with_stream(closed(put_end(ready(Stream))), Family)}
    catch
        throw:{failed, Reason, Broken} -> {{failed, Reason, none}, with_stream(closed(Broken), Family)};
        throw:Refusal -> {Refusal, Family}
    end.

%% Begins a strand of this stream.
begun(Name, Stream, #family{main = Main, streams = Streams, limits = Limits} = Family) ->
    Family#family.is_closed andalso throw_refused(ended, "the recording of ~ts has ended", [Main]),
    refuse_name(Name, Streams, Main, Limits),
    Strand = opened_stream(Name, beside(Name, Family#family.place), Limits),
    {Id, Sent} = try sent([], Stream) catch throw:Reason -> closed(Strand), throw(Reason) end,
    Now = with_stream(Sent, Family),
    try put_line(recv, Id, [], Strand) of
        Begun -> {{ok, ok}, with_stream(Begun#stream{kept = 1}, Now)}
    catch
        throw:{failed, Error, Broken} -> {{failed, Error, none}, with_stream(closed(Broken), Now)}
    end.

refuse_name(Name, Streams, Of, #limits{processes = Most, is_long = IsLong}) ->
    maps:is_key(Name, Streams)
        andalso throw_refused(name_twice, "~ts is another process of ~ts: give each a name of its own", [Name, Of]),
    Why = if
        IsLong -> "there can be no more";
        true -> "a session has at most as many; begin fewer, " ?AS_A_LONG_RUN
    end,
    maps:size(Streams) >= Most andalso throw_refused(processes, "~ts has ~b processes, and ~ts", [Of, Most, Why]).

%%% One stream.

%% The place that a text names: a folder, a port, or a socket.
place_of(Place) ->
    Text = unicode:characters_to_list(Place),
    case Text =/= "" andalso is_folder(Text) of
        true -> {folder, Place};
        false -> {at, address_of(Text), ?CONNECT_MILLISECONDS}
    end.

address_of("") ->
    throw_refused(place, "~ts isn't set: it names ~ts", [?PLACE, places()]);
address_of("unix:" ++ Path) ->
    Bytes = unicode:characters_to_binary(Path),
    lists:prefix("/", Path) andalso byte_size(Bytes) =< ?SOCKET_BYTE_LIMIT
        orelse throw_refused(place, "unix:~ts is no place for ~ts: the path of a socket begins with / and has at most"
                                    " ~b bytes", [Path, ?PLACE, ?SOCKET_BYTE_LIMIT]),
    {local, Bytes};
address_of(Text) ->
    Pattern = "\\A(?:\\[([0-9A-Fa-f:.]+(?:%[A-Za-z0-9._-]+)?)\\]|([A-Za-z0-9._-]*)):([0-9]{1,5})\\z",
    case re:run(Text, Pattern, [unicode, {capture, all_but_first, list}]) of
        {match, [Address, Name, Digits]} ->
            Port = list_to_integer(Digits),
            Port >= 1 andalso Port =< ?PORT_LIMIT orelse refuse_place(Text),
            {host_of(Address ++ Name), Port};
        nomatch ->
            refuse_place(Text)
    end.

host_of(Host) when Host =:= ""; Host =:= "localhost" -> ?HERE;
host_of(Host) ->
    case inet:parse_address(Host) of
        {ok, Address} -> Address;
        {error, _} -> Host
    end.

refuse_place(Text) ->
    throw_refused(place, "~ts is no place for ~ts, which names ~ts", [Text, ?PLACE, places()]).

places() ->
    text("a folder, which has a slash if it has a colon, a port as :7411, host:7411 or [::1]:7411, from 1 to ~b, or a"
         " socket as unix:/run/a.sock", [?PORT_LIMIT]).

in_folder(Name, {folder, Folder}) ->
    Path = filename:join(Folder, <<Name/binary, ".stream">>),
    case filelib:ensure_dir(Path) of
        ok -> {file, filename:absname(Path)};
        {error, Reason} -> throw({failed, Reason, none})
    end;
in_folder(_, At) ->
    At.

%% The place of a strand's stream.
beside(Name, {Kind, Path}) when Kind =:= file; Kind =:= again -> {file, filename:join(filename:dirname(Path), <<Name/binary, ".stream">>)};
beside(_, At) -> At.

%% A stream that has its first line.
opened_stream(Name, {file, Path}, Limits) ->
    case file:open(Path, [write, exclusive, raw, binary]) of
        {ok, File} -> joined(<<>>, #stream{name = Name, out = {file, File}, limits = Limits});
        {error, Reason} -> throw({failed, Reason, none})
    end;
opened_stream(Name, {again, Path}, Limits) ->
    incarnation(Name, Path, Limits);
opened_stream(Name, {at, Address, Milliseconds, Token}, Limits) ->
    Until = erlang:monotonic_time(millisecond) + Milliseconds,
    joined(Token, #stream{name = Name, out = {socket, connected(Address, Until)}, limits = Limits}).

%% An incarnation of a process, to the first of its files that isn't there yet. It gets its name once the receipt
%% stands in it, so that it has that whenever the process is killed.
incarnation(Process, First, Limits) ->
    Number = free_place(fun(Tried) -> path_of(First, Tried) end),
    {Name, Path} = {incarnation_of(Process, Number), path_of(First, Number)},
    Number > 1 andalso refuse_running(incarnation_of(Process, Number - 1), path_of(First, Number - 1)),
    name_of(process_name, Name),
    Parts = fun(Tried) -> part_of(Path, Tried) end,
    Part = Parts(free_place(Parts)),
    Stream = opened_stream(Name, {file, Part}, Limits),
    try
        Received = received_end(Process, Number, Stream),
        case file:rename(Part, Path) of
            ok -> Received;
            {error, Reason} -> throw({failed, Reason, none})
        end
    catch
        throw:Failure -> closed(Stream), _ = file:delete(Part), throw(Failure)
    end.

received_end(_, 1, Stream) -> Stream;
received_end(Process, Number, Stream) ->
    put_line(recv, <<(incarnation_of(Process, Number - 1))/binary, "-ended">>, [], Stream).

incarnation_of(Process, 1) -> Process;
incarnation_of(Process, Number) -> <<Process/binary, $_, (integer_to_binary(Number))/binary>>.

%% The file of this incarnation, if that of the first one is given.
path_of(First, 1) -> First;
path_of(First, Number) ->
    <<(filename:rootname(First))/binary, $_, (integer_to_binary(Number))/binary, (filename:extension(First))/binary>>.

%% Where a file stands until it gets its name. A node that was killed before may have had the number of this one.
part_of(Path, 1) -> iolist_to_binary([Path, ".", os:getpid(), ".part"]);
part_of(Path, Number) -> iolist_to_binary([Path, ".", os:getpid(), "-", integer_to_list(Number), ".part"]).

%% The first number of which no file is there.
free_place(Path) -> free_place(1, Path).

free_place(Number, Path) ->
    case file:read_link_info(Path(Number)) of
        {error, enoent} -> Number;
        {error, Reason} -> throw({failed, Reason, none});
        {ok, _} -> free_place(Number + 1, Path)
    end.

%% Refuses what is started while an earlier incarnation still runs: Erlang has no locks of files, but /proc tells which
%% process of this machine has its file open for writing. What belongs to another user isn't told.
refuse_running(Name, Path) ->
    filelib:is_dir("/proc/self/fd")
        orelse throw_refused(again, "this system doesn't tell by /proc whether ~ts has ended", [Name]),
    Own = identity(Path),
    IsWriter = fun(Link) -> is_written(Link) andalso identity(Link) =:= Own end,
    Folders = filelib:wildcard("/proc/[0-9]*/fd"),
    lists:any(fun(Folder) -> lists:any(IsWriter, links_in(Folder)) end, Folders)
        andalso throw_refused(running, "~ts still runs and records to ~ts: what is started beside it is no later"
                                       " incarnation, but a process of its own", [Name, Path]).

links_in(Folder) ->
    case file:list_dir(Folder) of
        {ok, Names} -> [filename:join(Folder, Name) || Name <- Names];
        {error, _} -> []
    end.

%% Whether a descriptor is open for writing, by the rights of its link.
is_written(Link) ->
    case file:read_link_info(Link) of
        {ok, Info} -> element(8, Info) band 8#200 =/= 0; % the mode of a #file_info{}, whose file OTP has apart
        {error, _} -> false
    end.

%% The device and the number of a file, by the same.
identity(Path) ->
    case file:read_file_info(Path) of
        {ok, Info} -> {element(10, Info), element(12, Info)};
        {error, Reason} -> {error, Reason, Path}
    end.

joined(Token, #stream{name = Name} = Stream) ->
    try
        write_line([Token, "{\"process\":\"", Name, "\"}\n"], Stream)
    catch
        throw:Failure -> closed(Stream), throw(Failure)
    end.

%% A connection to an address, where nobody may listen yet.
connected(Address, Until) ->
    {Domain, Protocol, End} = end_of(Address),
    {ok, Socket} = socket:open(Domain, stream, Protocol),
    case connected_now(Socket, End) of
        ok ->
            Protocol =:= tcp andalso (ok = socket:setopt(Socket, {tcp, nodelay}, true)),
            Socket;
        {error, Reason} ->
            socket:close(Socket),
            ComesLater = Reason =:= econnrefused orelse Reason =:= enoent,
            IsLate = not ComesLater orelse erlang:monotonic_time(millisecond) >= Until,
            IsLate andalso throw({failed, Reason, none}),
            timer:sleep(?PAUSE_MILLISECONDS),
            connected(Address, Until)
    end.

%% What a socket is opened for and connected to. A name is looked up for IPv4 first.
end_of({local, Path}) ->
    {local, default, #{family => local, path => Path}};
end_of({Host, Port}) when tuple_size(Host) =:= 4 ->
    {inet, tcp, #{family => inet, addr => Host, port => Port}};
end_of({Host, Port}) when tuple_size(Host) =:= 8 ->
    {inet6, tcp, #{family => inet6, addr => Host, port => Port, flowinfo => 0, scope_id => 0}};
end_of({Name, Port}) ->
    case {inet:getaddr(Name, inet), inet:getaddr(Name, inet6)} of
        {{ok, Address}, _} -> end_of({Address, Port});
        {_, {ok, Address}} -> end_of({Address, Port});
        {{error, Reason}, _} -> throw({failed, Reason, none})
    end.

%% A connection to a port that nobody has bound can come to be with itself.
connected_now(Socket, #{family := local} = End) ->
    socket:connect(Socket, End);
connected_now(Socket, End) ->
    case socket:connect(Socket, End) of
        ok ->
            case socket:sockname(Socket) =:= socket:peername(Socket) of
                true -> {error, econnrefused};
                false -> ok
            end;
        Error -> Error
    end.

%% The stream, if it is open.
ready(#stream{state = open} = Stream) -> Stream;
ready(#stream{state = closed, name = Name}) -> throw_refused(ended, "the recording of ~ts has ended", [Name]);
ready(#stream{name = Name}) -> throw_refused(broken, "an earlier line of ~ts could not be written", [Name]).

%% The stream, if it is open and may have one more event.
with_room(Stream) ->
    #stream{events = Events, kept = Kept, limits = Limits, name = Name} = ready(Stream),
    #limits{events = Most, is_long = IsLong} = Limits,
    Advice = if IsLong -> ""; true -> "; record fewer, " ?AS_A_LONG_RUN end,
    Events >= Most - Kept
        andalso throw_refused(events, "~ts has ~b events, and no process may have more than ~b, of which the last one"
                                      " of a strand is its end~ts", [Name, Events, Most, Advice]),
    Stream.

%% Writes a send with an id that is made.
sent(Settings, #stream{made = Made, ids = Ids, name = Name} = Stream) ->
    Number = free_number(Made + 1, Name, Ids),
    Id = id(Name, Number),
    Sent = put_line(send, Id, Settings, Stream),
    {Id, Sent#stream{made = Number}}.

free_number(Number, Name, Ids) ->
    case maps:is_key(id(Name, Number), Ids) of
        true -> free_number(Number + 1, Name, Ids);
        false -> Number
    end.

%% Checks an event and writes its line.
put_line(Kind, Id, Given, #stream{name = Name, ids = Ids, names = Names, events = Events} = Stream) ->
    maps:is_key(Id, Ids) andalso throw_refused(id_twice, "~ts has sent or received ~ts before", [Name, Id]),
    Settings = settings_of(Given),
    All = lists:foldl(fun({Variable, _}, Added) -> Added#{Variable => []} end, Names, Settings),
    maps:size(All) > ?VARIABLE_LIMIT
        andalso throw_refused(variables, "~ts has at most ~b variables", [Name, ?VARIABLE_LIMIT]),
    Set = [["\"", Variable, "\":", integer_to_binary(value_of(Variable, Value))] || {Variable, Value} <- Settings],
    Fields = [["\"", atom_to_list(Kind), "\":", quoted(Id)] || Kind =/= event]
        ++ [["\"set\":{", lists:join($,, Set), "}"] || Set =/= []],
    Written = write_line(["{", lists:join($,, Fields), "}\n"], Stream),
    Written#stream{events = Events + 1, names = All, ids = if Id =:= none -> Ids; true -> Ids#{Id => []} end}.

put_end(Stream) ->
    write_line("{\"end\":true}\n", Stream).

%% Hands the line to the system. If that fails, nothing more is written later.
write_line(Line, #stream{out = Out} = Stream) ->
    %% With the limits above no line has over 1,400 bytes, and no stream over 14,000,000: monitor takes more. A line of
    %% a long recording has at most 7,200.
    Done = case Out of
        {file, File} -> file:write(File, Line);
        {socket, Socket} -> socket:send(Socket, iolist_to_binary(Line))
    end,
    case Done of
        ok -> Stream;
        {error, {Reason, _Rest}} -> throw({failed, Reason, Stream#stream{state = broken}});
        {error, Reason} -> throw({failed, Reason, Stream#stream{state = broken}})
    end.

closed(#stream{state = closed} = Stream) -> Stream;
closed(#stream{out = {file, File}} = Stream) -> _ = file:close(File), Stream#stream{state = closed};
closed(#stream{out = {socket, Socket}} = Stream) -> _ = socket:close(Socket), Stream#stream{state = closed}.

%% The text as JSON has it between quotes: as short as it can be.
quoted(Text) ->
    [$", [escaped(Byte) || <<Byte>> <= Text], $"].

escaped($") -> "\\\"";
escaped($\\) -> "\\\\";
escaped($\b) -> "\\b";
escaped($\f) -> "\\f";
escaped($\n) -> "\\n";
escaped($\r) -> "\\r";
escaped($\t) -> "\\t";
escaped(Byte) when Byte < 16#20 -> io_lib:format("\\u~4.16.0b", [Byte]);
escaped(Byte) -> Byte.

%%% What a name, a value and an id may be.

checked_name(Word, Name) ->
    try
        name_of(Word, Name)
    catch
        throw:Refusal -> answered(Refusal)
    end.

checked_settings(Settings) ->
    try
        [{Name, value_of(Name, Value)} || {Name, Value} <- settings_of(Settings)]
    catch
        throw:Refusal -> answered(Refusal)
    end.

%% The settings as a list, with names that variables can have, each once.
settings_of(Settings) when is_map(Settings) ->
    lists:sort(settings_of(maps:to_list(Settings)));
settings_of(Settings) when is_list(Settings) ->
    Named = [{name_of(variable_name, Name), Value} || {Name, Value} <- Settings],
    Names = lists:usort([Name || {Name, _} <- Named]),
    length(Names) =:= length(Settings)
        orelse throw_refused(variable_name, "a variable stands twice, or what is no pair, in ~tP", [Settings, 20]),
    Named;
settings_of(Settings) ->
    throw_refused(variable_name, "settings are a map or a list of pairs, and not ~tP", [Settings, 20]).

name_of(Word, Name) when is_atom(Name) ->
    name_of(Word, atom_to_binary(Name));
name_of(Word, Name) ->
    is_name(Name)
        orelse throw_refused(Word, "~tP is no name of a ~ts: letters, digits and _, at most ~b, none of them a digit"
            " at first, and none of and, false, not, or, true", [Name, 20, what(Word), ?NAME_BYTE_LIMIT]),
    Name.

what(process_name) -> "process";
what(variable_name) -> "variable".

is_name(Name) ->
    is_binary(Name) andalso byte_size(Name) =< ?NAME_BYTE_LIMIT
        andalso re:run(Name, "\\A[A-Za-z_][A-Za-z0-9_]*\\z", [{capture, none}]) =:= match
        andalso not lists:member(Name, [<<"and">>, <<"or">>, <<"not">>, <<"true">>, <<"false">>]).

value_of(_, true) -> 1;
value_of(_, false) -> 0;
value_of(_, Value) when is_integer(Value), Value >= ?LEAST_VALUE, Value =< ?GREATEST_VALUE -> Value;
value_of(Name, Value) -> throw_refused(value, "~ts must be a whole number of 64 bits, and is ~tP", [Name, Value, 20]).

checked_id(Id, #stream{limits = #limits{id_bytes = Most}}) ->
    case is_binary(Id) orelse is_list(Id) andalso unicode:characters_to_binary(Id) of
        true -> checked_bytes(Id, unicode:characters_to_binary(Id), Most);
        Bytes -> checked_bytes(Id, Bytes, Most)
    end.

checked_bytes(_, Bytes, Most) when is_binary(Bytes), byte_size(Bytes) >= 1, byte_size(Bytes) =< Most ->
    Bytes;
checked_bytes(Id, _, Most) ->
    throw_refused(id, "the id of a message is a text of 1 to ~b bytes of UTF-8, and not ~tP", [Most, Id, 20]).

throw_refused(Word, Format, Values) ->
    throw({refused, Word, text(Format, Values)}).

refuse(Word, Format, Values) ->
    error({not_recorded, Word, text(Format, Values)}).

text(Format, Values) ->
    unicode:characters_to_binary(io_lib:format(Format, Values)).
