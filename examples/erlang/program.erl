%% Several processes in a ring, on several schedulers. Each makes and keeps what the heap of Erlang can have, and sends terms to the next one.
-module(program).
-export([run/2]).

%% Starts so many processes, each of so many rounds, and returns how many messages they received and how many entries they kept.
run(Processes, Rounds) ->
    Parent = self(),
    Pids = [spawn_link(fun() -> worker(Parent, N, Rounds) end) || N <- lists:seq(1, Processes)],
    [Pid ! {next, Next} || {Pid, Next} <- lists:zip(Pids, tl(Pids) ++ [hd(Pids)])],
    Results = [receive {done, Pid, Received, Kept} -> {Received, Kept} end || Pid <- Pids],
    {lists:sum([Received || {Received, _} <- Results]), lists:sum([Kept || {_, Kept} <- Results])}.

worker(Parent, N, Rounds) ->
    Next = receive {next, Pid} -> Pid end,
    put(name, {worker, N, make_ref()}),
    put(list, lists:seq(1, N)),
    {Received, Kept} = loop(Rounds, N, Next, [], <<"seed">>, 0),
    Parent ! {done, self(), Received, length(Kept)},
    receive stop -> ok after 0 -> ok end.

loop(0, _, Next, Kept, _, Received) ->
    Next ! last,
    {drain(Received), Kept};
loop(Round, N, Next, Kept, Binary, Received) ->
    Entry = entry(Round, Binary),
    Next ! {term, Round, Entry},
    %% Some messages stay in the queue for a while, so that collections meet them there.
    Taken = case Round rem 8 of 0 -> take(0); _ -> 0 end,
    put({entry, Round rem 7}, Entry),
    case Round rem 300 of 0 -> erlang:garbage_collect(); _ -> ok end,
    NextKept = case Round rem 60 of 0 -> []; _ -> [Entry | Kept] end,
    loop(Round - 1, N, Next, NextKept, grown(Binary, Round), Received + Taken).

%% A binary that grows in place, and begins anew when it is large.
grown(Binary, _) when byte_size(Binary) > 5000 -> <<"again">>;
grown(Binary, Round) -> <<Binary/binary, Round:16, (list_to_binary(lists:seq(0, Round rem 40)))/binary>>.

take(Count) ->
    receive
        {term, Round, {_, _, Map, _, _, _, _, _, _, _}} when map_size(Map) > 0, Round > 0 -> take(Count + 1)
    after 0 -> Count
    end.

drain(Count) ->
    receive
        last -> Count + take(0);
        {term, _, _} -> drain(Count + 1)
    end.

%% Tuples, lists, floats, large integers of both signs, small and large maps, funs, references, and binaries: on the heap, off it, parts of either, and match
%% contexts that live on while the parts are made.
entry(Round, Binary) ->
    Pair = {Round, float(Round)},
    List = [Round, Pair, Pair],
    Map = #{a => Pair, b => List, Round => {List, List}},
    Large = maps:from_list([{I, {I, Round}} || I <- lists:seq(1, 40 + Round rem 5)]),
    Fun = fun(X) -> {X, Pair, List} end,
    <<Head:3/binary, Short:7/binary, _/binary>> = <<Binary/binary, "0123456789">>,
    Heap = list_to_binary([lists:seq(65, 65 + Round rem 26)]),
    %% A binary that was appended to is a small part of one that is larger.
    Appended = <<Short/binary, Round:16>>,
    Again = <<Appended/binary, Round:8>>,
    Parts = parts(<<"one two three four five six seven ", Short/binary, Heap/binary>>, []),
    {Pair, Fun, Map, Large, Head, Parts, [Short, Heap, Appended, Again | List], make_ref(), {Round bsl 70, -(Round bsl 70)}, Fun(Round)}.

parts(<<" ", Rest/binary>>, Kept) ->
    [binary_part(Rest, 0, byte_size(Rest) div 2) | parts(Rest, [{Rest, byte_size(Rest)} | Kept])];
parts(<<_, Rest/binary>>, Kept) -> parts(Rest, Kept);
parts(<<>>, Kept) -> Kept.
