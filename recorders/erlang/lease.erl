%% A lock that is lent to one process after the other, as a gen_server. Whoever has it for longer than the lease, while
%% another one waits, is to give it back: `take' gives it to the next one at once, which is wrong, since the holder may
%% still be at work, and `ask' waits for the holder to release it.
-module(lease).
-behaviour(gen_server).
-export([start_link/1, acquire/0, release/0, run/1]).
-export([init/1, handle_call/3, handle_cast/2, handle_info/2]).

-define(LEASE_MILLISECONDS, 50).

start_link(Way) -> gen_server:start_link({local, ?MODULE}, ?MODULE, Way, []).

acquire() -> gen_server:call(?MODULE, acquire, infinity).

release() -> gen_server:call(?MODULE, release, infinity).

init(Way) -> {ok, {Way, none, []}}.

handle_call(acquire, {Pid, _}, {Way, none, []}) ->
    {reply, ok, {Way, Pid, []}};
handle_call(acquire, From, {Way, Holder, Waiting}) ->
    erlang:send_after(?LEASE_MILLISECONDS, self(), {expired, Holder}),
    {noreply, {Way, Holder, Waiting ++ [From]}};
handle_call(release, {Holder, _}, {Way, Holder, Waiting}) ->
    {reply, ok, to_next(Way, Waiting)};
handle_call(release, _, State) ->
    {reply, ok, State}.

handle_info({expired, Holder}, {take, Holder, Waiting}) ->
    {noreply, to_next(take, Waiting)};
handle_info({expired, Holder}, {ask, Holder, _} = State) ->
    Holder ! give_back,
    {noreply, State};
handle_info({expired, _}, State) ->
    {noreply, State}.

handle_cast(_, State) -> {noreply, State}.

to_next(Way, []) -> {Way, none, []};
to_next(Way, [{Pid, _} = From | Waiting]) ->
    gen_server:reply(From, ok),
    {Way, Pid, Waiting}.

%% What a worker does: it keeps the lock after its work, until it is asked for it or told to go on.
work(Boss) ->
    receive begin_now -> acquire() end,
    monitor_recorder:set(#{inside => 1}),
    monitor_recorder:set(#{inside => 0}),
    Boss ! {done, self()},
    receive give_back -> ok; go_on -> ok end,
    release().

%% Two workers, one long after the other, and their recording, to where MONITOR_TO says.
run(Way) ->
    {ok, _} = start_link(Way),
    Boss = self(),
    [A, B] = [spawn(fun() -> work(Boss) end) || _ <- [a, b]],
    ok = monitor_recorder:trace([{lock, ?MODULE}, {a, A}, {b, B}]),
    [begin Worker ! begin_now, receive {done, Worker} -> ok end end || Worker <- [A, B]],
    [see_gone(Worker) || Worker <- [A, B]],
    ok = monitor_recorder:stop(),
    gen_server:stop(?MODULE).

see_gone(Worker) ->
    Monitor = monitor(process, Worker),
    Worker ! go_on,
    receive {'DOWN', Monitor, process, Worker, _} -> ok end.
