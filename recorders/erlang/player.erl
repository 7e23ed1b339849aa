%% Makes the calls that it is told on its standard input, by the recorder for Erlang: see recorders/cases/README.md.
-module(player).
-export([main/0]).

%% The process that is recorded, and its recorder and those of its strands by their names.
-record(played, {process = none, recorders = #{}}).

%% The text of the last refusal is kept in the dictionary of the process.

main() ->
    ok = io:setopts([binary, {encoding, unicode}]),
    play(#played{}).

play(Played) ->
    case io:get_line("") of
        eof -> erlang:halt(0);
        Line ->
            [Call | Words] = binary:split(string:trim(Line, trailing, "\n"), <<" ">>, [global]),
            {Answer, Next} = answer(Call, Words, Played),
            say(Answer),
            play(Next)
    end.

say(Answer) ->
    io:put_chars([Answer, "\n"]).

answer(Call, Words, Played) ->
    try make(Call, Words, Played) of
        #played{} = Next -> {"recorded", Next};
        ok -> {"recorded", Played};
        Given -> {["recorded ", Given], Played}
    catch
        throw:cannot -> {"cannot", Played};
        error:{failed, _} -> {"failed", Played};
        error:{not_recorded, Word, Text} ->
            put(refusal, Text),
            {["refused ", string:replace(atom_to_list(Word), "_", "-", all)], Played}
    end.

make(<<"file">>, [Process, Path], _) ->
    begun(Process, monitor_recorder:to_file(text(Process), text(Path)));
make(<<"port">>, [Process, Port, Seconds], _) ->
    Milliseconds = round(1000 * number(Seconds)),
    begun(Process, monitor_recorder:to_port(text(Process), binary_to_integer(Port), Milliseconds));
make(<<"token-port">>, [Process, Port, Seconds, Token], _) ->
    Milliseconds = round(1000 * number(Seconds)),
    Options = [{token, text(Token)}],
    begun(Process, monitor_recorder:to_port(text(Process), binary_to_integer(Port), Milliseconds, Options));
make(<<"again">>, [Process, Path], _) ->
    begun(Process, monitor_recorder:to_file(text(Process), text(Path), [again]));
make(<<"long">>, [Process, Path], _) ->
    begun(Process, monitor_recorder:to_file(text(Process), text(Path), [long]));
make(<<"long-at">>, [Process, Place], _) ->
    true = os:putenv("MONITOR_TO", binary_to_list(text(Place))),
    begun(Process, monitor_recorder:from_environment(text(Process), [long]));
make(<<"said">>, [], _) -> get(refusal);
make(<<"place">>, [Process, Place], _) ->
    true = os:putenv("MONITOR_TO", binary_to_list(text(Place))),
    begun(Process, monitor_recorder:from_environment(text(Process)));
make(<<"again-at">>, [Process, Place], _) ->
    true = os:putenv("MONITOR_TO", binary_to_list(text(Place))),
    begun(Process, monitor_recorder:from_environment(text(Process), [again]));
make(<<"close">>, [], #played{process = none}) -> ok;
make(Call, _, _) when Call =:= <<"send-text">>; Call =:= <<"lock">>; Call =:= <<"unlock">>; Call =:= <<"put">>;
                      Call =:= <<"take">>; Call =:= <<"locked">>; Call =:= <<"unlocked">>; Call =:= <<"noted">>;
                      Call =:= <<"replaced">>; Call =:= <<"note">>; Call =:= <<"signals">>;
                      Call =:= <<"noted-again">> ->
    throw(cannot);
make(<<"in">>, [Name, Call | Words], #played{process = Process} = Played) ->
    case make(Call, Words, Played#played{process = Name}) of
        #played{} = Next -> Next#played{process = Process};
        Given -> Given
    end;
make(<<"strand">>, [Name], #played{recorders = Recorders} = Played) ->
    Strand = monitor_recorder:strand(recorder(Played), text(Name)),
    Played#played{recorders = Recorders#{Name => Strand}};
make(<<"join">>, [Name | Settings], #played{recorders = Recorders} = Played) ->
    monitor_recorder:join(recorder(Played), maps:get(Name, Recorders), settings(Settings));
make(Call, Words, Played) ->
    record(Call, Words, recorder(Played)).

begun(Process, Recorder) ->
    #played{process = Process, recorders = #{Process => Recorder}}.

recorder(#played{process = Process, recorders = Recorders}) ->
    maps:get(Process, Recorders).

record(<<"event">>, [], Recorder) -> monitor_recorder:event(Recorder);
record(<<"event">>, Settings, Recorder) -> monitor_recorder:event(Recorder, settings(Settings));
record(<<"send">>, [], Recorder) -> monitor_recorder:send(Recorder);
record(<<"send">>, Settings, Recorder) -> monitor_recorder:send(Recorder, settings(Settings));
record(<<"send-as">>, [Id | Settings], Recorder) ->
    monitor_recorder:send_as(Recorder, text(Id), settings(Settings));
record(<<"receive">>, [Id | Settings], Recorder) ->
    monitor_recorder:recv(Recorder, text(Id), settings(Settings));
record(<<"events">>, [], Recorder) -> integer_to_list(monitor_recorder:events(Recorder));
record(<<"end">>, [], Recorder) -> monitor_recorder:close(Recorder);
record(<<"close">>, [], Recorder) -> monitor_recorder:abandon(Recorder);
record(<<"threads">>, [Count, Turns], Recorder) ->
    Total = spawn_link(fun() -> count(Recorder, 0) end),
    run(binary_to_integer(Count), fun(Number) -> take_turns(Recorder, Total, Number, binary_to_integer(Turns)) end);
record(<<"flood">>, [Count], Recorder) ->
    run(binary_to_integer(Count), fun(_) -> send_all(Recorder) end);
record(<<"strands">>, [Count, Turns], Recorder) ->
    Strands = [monitor_recorder:strand(Recorder, <<"strand", (integer_to_binary(Number - 1))/binary>>)
               || Number <- lists:seq(1, binary_to_integer(Count))],
    run(length(Strands), fun(Number) -> take_strand(lists:nth(Number + 1, Strands), binary_to_integer(Turns)) end),
    lists:foreach(fun(Strand) -> monitor_recorder:join(Recorder, Strand) end, Strands).

%% Holds the number that all share, so that it changes and is recorded at once.
count(Recorder, Total) ->
    receive
        {add, From} ->
            monitor_recorder:event(Recorder, #{total => Total + 1}),
            From ! {added, Total + 1},
            count(Recorder, Total + 1)
    end.

take_turns(Recorder, Total, Number, Turns) ->
    Text = integer_to_binary(Number),
    lists:foreach(fun(Turn) ->
        Id = monitor_recorder:send(Recorder, [{<<"x", Text/binary>>, Turn}]),
        [_, Made] = binary:split(Id, <<"-">>),
        monitor_recorder:event(Recorder, [{<<"y", Text/binary>>, binary_to_integer(Made)}]),
        monitor_recorder:recv(Recorder, ["m", Text, "-", integer_to_binary(Turn)]),
        Total ! {add, self()},
        receive {added, _} -> ok end
    end, lists:seq(0, Turns - 1)).

take_strand(Strand, Turns) ->
    lists:foreach(fun(Turn) -> monitor_recorder:event(Strand, #{x => Turn}) end, lists:seq(0, Turns - 1)),
    monitor_recorder:close(Strand).

send_all(Recorder) ->
    try monitor_recorder:send(Recorder) of
        Id -> say(["sent ", Id]), send_all(Recorder)
    catch
        error:{not_recorded, _, _} -> ok
    end.

%% Runs so many processes to their ends.
run(Count, Work) ->
    Running = [spawn_monitor(fun() -> Work(Number) end) || Number <- lists:seq(0, Count - 1)],
    [receive {'DOWN', Monitor, process, Pid, normal} -> ok end || {Pid, Monitor} <- Running],
    ok.

settings(Words) ->
    lists:map(fun(Word) ->
        [Value | Name] = lists:reverse(binary:split(Word, <<"=">>, [global])),
        {text(iolist_to_binary(lists:join($=, lists:reverse(Name)))), value(Value)}
    end, Words).

value(<<"true">>) -> true;
value(<<"false">>) -> false;
value(<<"null">>) -> null;
value(<<$", _/binary>> = Text) -> Text;
value(Text) -> number(Text).

number(Text) ->
    try
        binary_to_integer(Text)
    catch
        error:badarg -> try binary_to_float(Text) catch error:badarg -> throw(cannot) end
    end.

%% The text for which a word stands: % and two digits are a byte, and % alone is no text at all.
text(<<"%">>) -> <<>>;
text(Word) -> unquoted(Word, <<>>).

unquoted(<<$%, Digits:2/binary, Rest/binary>>, Read) ->
    unquoted(Rest, <<Read/binary, (binary_to_integer(Digits, 16))>>);
unquoted(<<Byte, Rest/binary>>, Read) ->
    unquoted(Rest, <<Read/binary, Byte>>);
unquoted(<<>>, Read) ->
    Read.
