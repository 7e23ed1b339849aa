%% Tests of what the cases can't say: of processes that are recorded by the runtime, and of what is Erlang's own. Each
%% test is given an empty folder.
-module(test_monitor_recorder).
-export([main/0, answer_calls/0, passing/2]).

main() ->
    Folder = os:getenv("FOLDER"),
    Wrong = [Test || Test <- tests(), not passes(Test, filename:join(Folder, Test))],
    io:format("erlang: ~b tests, ~b wrong~n", [length(tests()), length(Wrong)]),
    halt(min(length(Wrong), 1)).

tests() ->
    ["takes_out_of_order", "equal_messages", "a_message_from_outside", "a_relay_that_is_not_recorded",
     "what_a_process_sends_to_itself", "a_call_of_a_gen_server", "names_and_ways_to_send", "an_exit",
     "a_join_of_what_has_not_exited", "a_child",
     "a_process_that_is_added_later", "recordings_one_after_the_other", "stopped_at_work",
     "refusals_of_trace", "settings_that_are_refused", "too_many_variables", "too_many_events",
     "a_long_recording", "where_the_environment_leads", "another_tracer",
     "where_nothing_is_recorded", "a_lease", "places", "an_owner_that_exits", "names_texts_and_values"].

passes(Test, Folder) ->
    {Pid, Monitor} = spawn_monitor(fun() ->
        ok = filelib:ensure_dir(filename:join(Folder, "any")),
        true = os:putenv("MONITOR_TO", Folder),
        test(Test, Folder)
    end),
    receive
        {'DOWN', Monitor, process, Pid, normal} -> true;
        {'DOWN', Monitor, process, Pid, Reason} ->
            io:format("erlang: ~ts: ~tp~n", [Test, Reason]),
            catch monitor_recorder:stop(),
            false
    after 60000 ->
        io:format("erlang: ~ts hangs~n", [Test]),
        halt(1)
    end.

%% A process that makes the calls which it is told, each once it is told the next.
worker() ->
    spawn(fun() -> answer_calls() end).

answer_calls() ->
    receive
        {make, From, Call} -> From ! {made, self(), Call()}, answer_calls()
    end.

make(Worker, Call) ->
    Worker ! {make, self(), Call},
    receive {made, Worker, Given} -> Given after 10000 -> error({no_answer, Worker}) end.

%% The lines of a stream but for its first one.
lines(Folder, Name) ->
    {ok, Text} = file:read_file(filename:join(Folder, Name ++ ".stream")),
    [First | Lines] = string:split(string:trim(Text, trailing, "\n"), "\n", all),
    see(First, iolist_to_binary(["{\"process\":\"", Name, "\"}"])),
    Lines.

see(Text, Text) -> ok;
see(Text, Wanted) -> error({there_is, Text, and_not, Wanted}).

take(Message) ->
    receive Message -> ok after 10000 -> error({not_there, Message}) end.

%% A receipt is where a process takes the message, and not where it arrives; what it hasn't taken it hasn't received.
test("takes_out_of_order", Folder) ->
    {A, B} = {worker(), worker()},
    ok = monitor_recorder:trace(#{a => A, b => B}),
    make(A, fun() -> [B ! Message || Message <- [first, second, third]] end),
    make(B, fun() -> take(third), monitor_recorder:set(#{x => 1}), take(first) end),
    ok = monitor_recorder:stop(),
    [First, _, Third, End] = lines(Folder, "a"),
    see(lines(Folder, "b"), [received(Third), <<"{\"set\":{\"x\":1}}">>, received(First), End]);

%% Each of equal messages is that of its own send, also of several senders.
test("equal_messages", Folder) ->
    {A, B, C} = {worker(), worker(), worker()},
    ok = monitor_recorder:trace(#{a => A, b => B, c => C}),
    [make(Sender, fun() -> C ! same end) || Sender <- [A, B, A, A, B]],
    make(C, fun() -> [take(same) || _ <- lists:seq(1, 4)] end),
    ok = monitor_recorder:stop(),
    [A1, A2, A3, End] = lines(Folder, "a"),
    [B1, _, End] = lines(Folder, "b"),
    see(lines(Folder, "c"), [received(Line) || Line <- [A1, B1, A2, A3]] ++ [End]);

%% A message without a token takes the process's own away: its next send has one again, and its ids don't come twice.
test("a_message_from_outside", Folder) ->
    {A, B} = {worker(), worker()},
    ok = monitor_recorder:trace(#{a => A, b => B}),
    make(A, fun() -> B ! one, B ! two end),
    _ = seq_trace:set_token([]),
    A ! plain,
    make(A, fun() -> take(plain), [] = seq_trace:get_token(), B ! three end),
    make(B, fun() -> [take(Message) || Message <- [one, two, three]] end),
    ok = monitor_recorder:stop(),
    [_, _, _, End] = Lines = lines(Folder, "a"),
    4 = length(lists:usort(Lines)),
    see(lines(Folder, "b"), [received(Line) || Line <- Lines, Line =/= End] ++ [End]);

%% A token goes on through a process that isn't recorded: what that sends is no message of who gave it the token.
test("a_relay_that_is_not_recorded", Folder) ->
    {A, Relay, B} = {worker(), worker(), worker()},
    ok = monitor_recorder:trace(#{a => A, b => B}),
    register(relay, Relay),
    make(A, fun() -> relay ! one, B ! two end),
    make(Relay, fun() -> take(one), B ! one, B ! one end),
    make(B, fun() -> [take(Message) || Message <- [one, one, two]] end),
    unregister(relay),
    ok = monitor_recorder:stop(),
    [Two, End] = lines(Folder, "a"),
    see(lines(Folder, "b"), [received(Two), End]);

test("what_a_process_sends_to_itself", Folder) ->
    A = worker(),
    ok = monitor_recorder:trace(#{a => A}),
    make(A, fun() -> self() ! mine, take(mine), erlang:send_after(1, self(), tick), take(tick) end),
    ok = monitor_recorder:stop(),
    see(lines(Folder, "a"), [<<"{\"end\":true}">>]);

%% Calls, casts and answers, which may come by an alias.
test("a_call_of_a_gen_server", Folder) ->
    {ok, Lease} = lease:start_link(ask),
    {A, B} = {worker(), worker()},
    ok = monitor_recorder:trace(#{lease => lease, a => A, b => B}),
    [make(Worker, fun() -> ok = lease:acquire(), ok = lease:release() end) || Worker <- [A, B, A]],
    make(A, fun() -> gen_server:cast(lease, any) end),
    _ = sys:get_state(Lease),
    ok = monitor_recorder:stop(),
    unlink(Lease),
    gen_server:stop(Lease),
    <<"session 3 processes 27 events 13 messages\n", _/binary>> = report(Folder, ["a", "b", "lease"], "a.x == 1");

test("names_and_ways_to_send", Folder) ->
    {A, B} = {worker(), worker()},
    ok = monitor_recorder:trace(#{a => A, b => B}),
    register(bee, B),
    make(A, fun() ->
        bee ! one,
        {bee, node()} ! two,
        erlang:send(B, three, [noconnect, nosuspend]),
        erlang:send_nosuspend(B, four)
    end),
    make(B, fun() -> [take(Message) || Message <- [one, two, three, four]] end),
    unregister(bee),
    ok = monitor_recorder:stop(),
    Lines = lines(Folder, "a"),
    5 = length(Lines),
    see(lines(Folder, "b"), [received(Line) || Line <- Lines]);

%% A process that exits has an end line, whatever the reason, and a last message for whoever has learned of it.
test("an_exit", Folder) ->
    {A, B, C} = {worker(), worker(), worker()},
    ok = monitor_recorder:trace(#{a => A, b => B, c => C}),
    make(B, fun() -> process_flag(trap_exit, true), link(A), monitor(process, A) end),
    make(A, fun() -> monitor_recorder:set([{x, 1}]), B ! last end),
    make(C, fun() -> exit(A, kill) end),
    make(B, fun() ->
        receive {'DOWN', _, process, A, killed} -> ok end,
        receive {'EXIT', A, killed} -> ok end,
        take(last),
        monitor_recorder:join(a)
    end),
    ok = monitor_recorder:stop(),
    [Set, Last, Exit, End] = lines(Folder, "a"),
    see(Set, <<"{\"set\":{\"x\":1}}">>),
    see(Exit, <<"{\"send\":\"a-exit\"}">>),
    see(lines(Folder, "b"), [received(Last), received(Exit), End]);

test("a_join_of_what_has_not_exited", _) ->
    {A, B} = {worker(), worker()},
    ok = monitor_recorder:trace(#{a => A, b => B}),
    make(A, fun() -> monitor_recorder:join(b) end),
    {not_recorded, broken, [{<<"a">>, {not_ended, <<"b">>}}]} = raised(fun() -> monitor_recorder:stop() end);

%% A child comes after what its parent did before it was started, and not after what came later.
test("a_child", Folder) ->
    A = worker(),
    ok = monitor_recorder:trace(#{a => A}),
    make(A, fun() ->
        monitor_recorder:set([{x, 1}]),
        {Child, Monitor} = spawn_monitor(fun() -> ok = monitor_recorder:trace(#{child => self()}) end),
        monitor_recorder:set([{x, 2}]),
        receive {'DOWN', Monitor, process, Child, normal} -> ok end
    end),
    ok = monitor_recorder:stop(),
    see(lines(Folder, "a"), [<<"{\"set\":{\"x\":1}}">>, <<"{\"send\":\"a-spawn-1\"}">>, <<"{\"set\":{\"x\":2}}">>,
                             <<"{\"end\":true}">>]),
    see(lines(Folder, "child"), [<<"{\"recv\":\"a-spawn-1\"}">>, <<"{\"send\":\"child-exit\"}">>,
                                 <<"{\"end\":true}">>]);

%% What was sent to a process before it was recorded is no message of the recording, though it is taken later.
test("a_process_that_is_added_later", Folder) ->
    {A, B} = {worker(), worker()},
    ok = monitor_recorder:trace(#{a => A}),
    make(A, fun() -> B ! early end),
    ok = monitor_recorder:trace(#{b => B}),
    make(A, fun() -> B ! late end),
    make(B, fun() -> take(early), take(late) end),
    ok = monitor_recorder:stop(),
    [Late, End] = lines(Folder, "a"),
    see(lines(Folder, "b"), [received(Late), End]);

%% What is under way when a recording stops isn't received in the next one.
test("recordings_one_after_the_other", Folder) ->
    {A, B} = {worker(), worker()},
    ok = monitor_recorder:trace(#{a => A, b => B}, filename:join(Folder, "first")),
    make(A, fun() -> B ! old end),
    ok = monitor_recorder:stop(),
    ok = monitor_recorder:trace(#{a => A, b => B}, filename:join(Folder, "second")),
    make(A, fun() -> B ! new end),
    make(B, fun() -> take(old), take(new) end),
    ok = monitor_recorder:stop(),
    [_, End] = lines(filename:join(Folder, "first"), "a"),
    see(lines(filename:join(Folder, "first"), "b"), [End]),
    [New, End] = lines(filename:join(Folder, "second"), "a"),
    see(lines(filename:join(Folder, "second"), "b"), [received(New), End]);

%% Whatever stands in the streams when a recording stops, each receipt has its send.
test("stopped_at_work", Folder) ->
    lists:foreach(fun(Turn) ->
        In = filename:join(Folder, integer_to_list(Turn)),
        Names = ["w" ++ integer_to_list(Number) || Number <- lists:seq(1, 6)],
        Workers = [spawn(?MODULE, passing, [Turn, none]) || _ <- Names],
        ok = monitor_recorder:trace(lists:zip([list_to_atom(Name) || Name <- Names], Workers), In),
        [Worker ! {all, Workers} || Worker <- Workers],
        timer:sleep(20 * Turn),
        ok = monitor_recorder:stop(),
        [exit(Worker, kill) || Worker <- Workers],
        <<"session 6 processes ", _/binary>> = report(In, Names, "false", 1)
    end, lists:seq(1, 4));

test("refusals_of_trace", Folder) ->
    {A, Dead} = {worker(), spawn(fun() -> ok end)},
    refused(process_name, fun() -> monitor_recorder:trace([{'1a', A}]) end),
    refused(process, fun() -> monitor_recorder:trace([{a, no_such_process}]) end),
    refused(process, fun() -> monitor_recorder:trace([{a, Dead}]) end),
    refused(place, fun() -> monitor_recorder:trace([{a, A}], "") end),
    refused(place, fun() -> monitor_recorder:trace([{a, A}], ":0") end),
    ok = monitor_recorder:trace([{a, A}]),
    refused(process, fun() -> monitor_recorder:trace([{b, A}]) end),
    refused(name_twice, fun() -> monitor_recorder:trace([{a, self()}]) end),
    ok = file:write_file(filename:join(Folder, "b.stream"), ""),
    {failed, eexist} = raised(fun() -> monitor_recorder:trace([{b, self()}]) end),
    More = [{list_to_atom("x" ++ integer_to_list(Number)), worker()} || Number <- lists:seq(1, 15)],
    ok = monitor_recorder:trace(More),
    refused(processes, fun() -> monitor_recorder:trace([{c, self()}]) end),
    ok = monitor_recorder:stop(),
    false = filelib:is_regular(filename:join(Folder, "c.stream"));

test("settings_that_are_refused", Folder) ->
    A = worker(),
    ok = monitor_recorder:trace([{a, A}]),
    refused(value, fun() -> make(A, fun() -> raised(fun() -> monitor_recorder:set(#{x => 1.5}) end) end) end),
    refused(variable_name, fun() -> make(A, fun() -> raised(fun() -> monitor_recorder:set([{x, 1}, 7]) end) end) end),
    refused(process, fun() -> monitor_recorder:set(#{x => 1}) end),
    ok = monitor_recorder:stop(),
    see(lines(Folder, "a"), [<<"{\"end\":true}">>]);

%% What is found out too late for the call is said at the end, and the stream has no end line.
test("too_many_variables", Folder) ->
    {A, B} = {worker(), worker()},
    ok = monitor_recorder:trace([{a, A}, {b, B}]),
    make(A, fun() -> [monitor_recorder:set([{<<"x", Letter>>, 1}]) || Letter <- lists:seq($a, $z)] end),
    {not_recorded, broken, [{<<"a">>, {refused, variables, _}}]} = raised(fun() -> monitor_recorder:stop() end),
    16 = length(lines(Folder, "a")),
    see(lines(Folder, "b"), [<<"{\"end\":true}">>]);

test("too_many_events", Folder) ->
    A = worker(),
    ok = monitor_recorder:trace([{a, A}]),
    make(A, fun() -> [monitor_recorder:set([{x, Turn}]) || Turn <- lists:seq(1, 10001)], ok end),
    {not_recorded, broken, [{<<"a">>, {refused, events, _}}]} = raised(fun() -> monitor_recorder:stop() end),
    10000 = length(lines(Folder, "a"));

test("a_long_recording", Folder) ->
    A = worker(),
    ok = monitor_recorder:trace([{a, A}], Folder, [long]),
    make(A, fun() -> [monitor_recorder:set([{x, Turn}]) || Turn <- lists:seq(1, 10001)], ok end),
    ok = monitor_recorder:stop(),
    10002 = length(lines(Folder, "a")),
    refused(long, fun() -> monitor_recorder:trace([{a, worker()}], ":7411", [long]) end),
    ok = monitor_recorder:stop(),
    badarg = raised(fun() -> monitor_recorder:to_file(left, filename:join(Folder, "left.stream"), [longer]) end);

%% What the system says names the place.
test("where_the_environment_leads", _) ->
    true = os:putenv("MONITOR_TO", "/dev/null/none"),
    try
        monitor_recorder:from_environment(left)
    catch
        error:{failed, enotdir} = Reason:Stack ->
            #{general := <<"MONITOR_TO is /dev/null/none">>} = monitor_recorder:format_error(Reason, Stack)
    end;

test("another_tracer", _) ->
    seq_trace:set_system_tracer(self()),
    refused(taken, fun() -> monitor_recorder:trace([{a, worker()}]) end),
    seq_trace:set_system_tracer(false),
    A = worker(),
    erlang:trace(A, true, [send, {tracer, self()}]),
    refused(taken, fun() -> monitor_recorder:trace([{a, A}]) end),
    ok = monitor_recorder:stop();

test("where_nothing_is_recorded", _) ->
    ok = monitor_recorder:stop(),
    ok = monitor_recorder:set(#{x => 1}),
    refused(value, fun() -> monitor_recorder:set(#{x => much}) end);

%% The example of the page: what didn't happen in the run is possible, but not in the mended one.
test("a_lease", Folder) ->
    [begin
         In = filename:join(Folder, Way),
         true = os:putenv("MONITOR_TO", In),
         ok = lease:run(Way),
         Report = report(In, ["lock", "a", "b"], "a.inside == 1 and b.inside == 1"),
         [_, Answer | _] = binary:split(Report, <<"\n">>, [global]),
         see(Answer, Wanted)
     end || {Way, Wanted} <- [{take, <<"one possibly yes 4,3,3">>}, {ask, <<"one possibly no">>}]];

test("places", Folder) ->
    true = os:putenv("MONITOR_TO", filename:join(Folder, "new")),
    Left = monitor_recorder:from_environment(left),
    ok = monitor_recorder:close(Left),
    see(lines(filename:join(Folder, "new"), "left"), [<<"{\"end\":true}">>]),
    {failed, eexist} = raised(fun() -> monitor_recorder:from_environment(left) end),
    true = os:putenv("MONITOR_TO", ""),
    refused(place, fun() -> monitor_recorder:from_environment(left) end),
    refused(place, fun() -> monitor_recorder:to_place(left, ":65535") end),
    ok = file:write_file(filename:join(Folder, "file"), ""),
    {failed, Reason} = raised(fun() -> monitor_recorder:to_place(left, filename:join(Folder, "file")) end),
    true = lists:member(Reason, [eexist, enotdir]),
    {ok, Listener} = gen_tcp:listen(0, [binary, {active, false}, {ip, {127, 0, 0, 1}}, {packet, line}]),
    {ok, Port} = inet:port(Listener),
    Right = monitor_recorder:to_place(right, "localhost:" ++ integer_to_list(Port)),
    {ok, Connection} = gen_tcp:accept(Listener),
    {ok, <<"{\"process\":\"right\"}\n">>} = gen_tcp:recv(Connection, 0),
    ok = monitor_recorder:close(Right),
    {ok, <<"{\"end\":true}\n">>} = gen_tcp:recv(Connection, 0),
    Token = [{token, "a token"}],
    Third = monitor_recorder:to_place(third, ":" ++ integer_to_list(Port), Token),
    {ok, Another} = gen_tcp:accept(Listener),
    [{ok, Line} = gen_tcp:recv(Another, 0) || Line <- [<<"a token\n">>, <<"{\"process\":\"third\"}\n">>]],
    ok = monitor_recorder:close(Third),
    ok = monitor_recorder:close(monitor_recorder:to_place(right, filename:join(Folder, "new"), Token)),
    [refused(token, fun() -> monitor_recorder:to_place(left, ":1", [{token, None}]) end)
     || None <- ["a\n", <<"a\r">>, [0], lists:duplicate(1025, $x), <<255>>]],
    badarg = raised(fun() -> monitor_recorder:to_file(left, filename:join(Folder, "left.stream"), Token) end),
    A = worker(),
    ok = monitor_recorder:trace([{a, A}], ":" ++ integer_to_list(Port), Token),
    {ok, Traced} = gen_tcp:accept(Listener),
    [{ok, Line} = gen_tcp:recv(Traced, 0) || Line <- [<<"a token\n">>, <<"{\"process\":\"a\"}\n">>]],
    ok = monitor_recorder:stop(),
    gen_tcp:close(Listener);

test("an_owner_that_exits", Folder) ->
    Self = self(),
    {Pid, Monitor} = spawn_monitor(fun() ->
        Self ! {recorder, monitor_recorder:to_file(left, filename:join(Folder, "left.stream"))},
        take(go_on)
    end),
    receive {recorder, Left} -> ok end,
    <<"left-1">> = monitor_recorder:send(Left),
    Pid ! go_on,
    receive {'DOWN', Monitor, process, Pid, normal} -> ok end,
    see_ended(Left),
    ok = monitor_recorder:close(Left),
    see(lines(Folder, "left"), [<<"{\"send\":\"left-1\"}">>]);

test("names_texts_and_values", Folder) ->
    Left = monitor_recorder:to_file(<<"left">>, filename:join(Folder, "left.stream")),
    monitor_recorder:event(Left, #{z => 1, <<"a">> => true, m => false}),
    monitor_recorder:event(Left, [{z, 1}, {<<"a">>, 2}]),
    monitor_recorder:send_as(Left, "m" ++ [16#e9]),
    refused(variable_name, fun() -> monitor_recorder:event(Left, [{z, 1}, {<<"z">>, 2}]) end),
    refused(variable_name, fun() -> monitor_recorder:send(Left, <<"mine">>) end),
    refused(variable_name, fun() -> monitor_recorder:send(Left, "mine") end),
    refused(id, fun() -> monitor_recorder:recv(Left, mine) end),
    refused(id, fun() -> monitor_recorder:recv(Left, <<16#ff>>) end),
    ok = monitor_recorder:close(Left),
    see(lines(Folder, "left"), [<<"{\"set\":{\"a\":1,\"m\":0,\"z\":1}}">>, <<"{\"set\":{\"z\":1,\"a\":2}}">>,
                                <<"{\"send\":\"m", 16#c3, 16#a9, "\"}">>, <<"{\"end\":true}">>]).

%% The line that receives what this line sends; the end line stays as it is.
received(Line) ->
    iolist_to_binary(string:replace(Line, "\"send\":", "\"recv\":")).

%% Sends to any of all as long as it lives, and takes what has come.
passing(Seed, none) ->
    rand:seed(exsss, Seed),
    receive {all, Workers} -> passing(Seed, Workers) end;
passing(Seed, Workers) ->
    lists:nth(rand:uniform(length(Workers)), Workers) ! any,
    timer:sleep(1),
    receive any -> ok after 0 -> ok end,
    passing(Seed, Workers).

%% Sees that the recorder takes no more, once its process has noticed it.
see_ended(Recorder) ->
    case raised(fun() -> monitor_recorder:event(Recorder) end) of
        {not_recorded, ended, _} -> ok;
        ok -> timer:sleep(10), see_ended(Recorder)
    end.

refused(Word, Call) ->
    case raised(Call) of
        {not_recorded, Word, Text} when is_binary(Text) -> ok;
        Other -> error({not_refused, Word, Other})
    end.

raised(Call) ->
    try Call() catch error:Reason -> Reason end.

%% What the program says of the streams, if it is there; otherwise there is nothing to be compared.
report(Folder, Names, Predicate) ->
    report(Folder, Names, Predicate, 4096).

report(Folder, Names, Predicate, Width) ->
    Processes = lists:join(",", [["{\"name\":\"", Name, "\",\"vars\":{\"x\":0,\"inside\":0}}"] || Name <- Names]),
    Document = ["{\"processes\":[", Processes, "],\"predicates\":[{\"name\":\"one\",\"text\":\"", Predicate, "\"}],",
                "\"width\":", integer_to_list(Width), "}"],
    Path = filename:join(Folder, "session.json"),
    ok = file:write_file(Path, Document),
    Streams = [[" ", filename:join(Folder, Name ++ ".stream")] || Name <- Names],
    list_to_binary(os:cmd(lists:flatten([os:getenv("MONITOR"), " judge ", Path, Streams]))).
