%% Judges the gatekeeper by requests that the outside codec writes: each reply, read by that codec, has
%% to be what the values of its request call for. Ends with `N passed, M failed`.
-module(judge_requests).
-export([main/0]).

-define(ROUNDS, 20).
-define(REQUESTS_OF_A_ROUND, 10).
-define(LONGEST_DATAGRAM, 4096).
-define(DIFFERENCES_SHOWN, 10).

main() ->
    Gatekeeper = os:getenv("GATEKEEPER"),
    Stories = list_to_integer(os:getenv("STORIES")),
    Results = lists:append([story(Gatekeeper, Seed) || Seed <- lists:seq(1, Stories)]),
    Differences = [Text || {_, Text} <- Results, Text =/= ok],
    [io:format("~s~n", [Text]) || Text <- lists:sublist(Differences, ?DIFFERENCES_SHOWN)],
    [io:format("  ~5b ~s~n", [Count, What]) || {What, Count} <- counts([What || {What, _} <- Results])],
    Compared = length([What || {What, _} <- Results, is_reply(What)]),
    Failed = length(Differences),
    io:format("~b requests written, ~b replies compared, ~b differences~n", [length(Results), Compared, Failed]),
    io:format("~b passed, ~b failed~n", [length(Results) - Failed, Failed]),
    halt(case Failed =:= 0 andalso Compared > 0 of true -> 0; false -> 1 end).

counts(Kinds) ->
    maps:to_list(lists:foldl(fun(Kind, Sum) -> maps:update_with(Kind, fun(N) -> N + 1 end, 1, Sum) end, #{}, Kinds)).

is_reply(What) -> string:find(What, "ignored") =:= nomatch andalso string:find(What, "silent") =:= nomatch.

%% The comparisons of a story. Each round draws its requests from the zone as it is after the rounds
%% before, whose identifiers are known by then; the gatekeeper is run over all rounds so far. A story ends
%% with the first difference, since nothing is known of the zone from there on.
story(Gatekeeper, Seed) ->
    rand:seed(exsss, Seed),
    Later = Seed rem 2 =:= 0,
    Module = case Later of true -> 'H225Later'; false -> 'H225' end,
    Settings = story:settings(),
    Sets = story:sets(),
    Rounds = chunks(seq_nums(?ROUNDS * ?REQUESTS_OF_A_ROUND)),
    Round = fun(Numbers, {Written, Zone, _}) ->
        Requests = story:requests(Numbers, Zone, Sets, Later),
        Sum = Written ++ [{Request, encoded(Module, Request)} || Request <- Requests],
        {After, Compared} = compared(Sum, Gatekeeper, Settings),
        {Sum, After, Compared}
    end,
    {_, _, Results} = told(Round, {[], zone:new(Settings), []}, Rounds),
    Places = lists:seq(1, length(Results)),
    [{What, located(Seed, Place, Result)} || {Place, {What, Result}} <- lists:zip(Places, Results)].

told(_, Sum, []) -> Sum;
told(Round, Sum = {_, _, Results}, [Numbers | Rest]) ->
    case lists:all(fun({_, Result}) -> Result =:= ok end, Results) of
        true -> told(Round, Round(Numbers, Sum), Rest);
        false -> Sum
    end.

located(_, _, ok) -> ok;
located(Seed, Place, Text) -> io_lib:format("story ~b, event ~b: ~s", [Seed, Place, Text]).

%% Different numbers from 1 to 65535, with both ends among them.
seq_nums(Count) ->
    Drawn = lists:usort([1, 255, 256, 257, 65535 | [values:number(1, 65535) || _ <- lists:seq(1, 3 * Count)]]),
    Mixed = [Number || {_, Number} <- lists:sort([{rand:uniform(), Number} || Number <- Drawn])],
    lists:sublist([1, 65535 | lists:subtract(Mixed, [1, 65535])], Count).

chunks([]) -> [];
chunks(Numbers) ->
    {Chunk, Rest} = lists:split(?REQUESTS_OF_A_ROUND, Numbers),
    [Chunk | chunks(Rest)].

encoded(Module, Request) ->
    {ok, Octets} = Module:encode('RasMessage', Request),
    iolist_to_binary(Octets).

%% The zone after these requests, and a comparison for each: {What, ok} or {What, Text}.
compared(Written, Gatekeeper, Settings) ->
    Outcomes = replay:run(Gatekeeper, Settings, [Octets || {_, Octets} <- Written]),
    lists:foldl(
        fun({{Request, Octets}, Outcome}, {Zone, Results}) ->
            Read = read(Outcome),
            {Expected, After} = expected(Request, Octets, identifier_in(Read), Zone),
            {After, Results ++ [{what(Request, Expected), difference(Request, Octets, Expected, Read)}]}
        end, {zone:new(Settings), []}, lists:zip(Written, Outcomes)).

expected(_, Octets, _, Zone) when byte_size(Octets) > ?LONGEST_DATAGRAM -> {{ignored, "too-long"}, Zone};
expected(Request, _, Handed, Zone) -> zone:answer(Request, Handed, Zone).

%% What came of a datagram, with its reply read by the outside codec. The codec has to write what it read
%% as the same octets: there is one shortest encoding, and no additions follow the last that is there.
read({served, Octets}) ->
    case 'H225':decode('RasMessage', Octets) of
        {ok, Message} ->
            case 'H225':encode('RasMessage', Message) of
                {ok, Octets} -> {reply, Message};
                Other -> {reply_of_other_octets, binary:encode_hex(Octets), Message, Other}
            end;
        {error, Fault} -> {unreadable_reply, binary:encode_hex(Octets), Fault}
    end;
read(Outcome) -> Outcome.

identifier_in({reply, {registrationConfirm, #{endpointIdentifier := Identifier}}}) -> Identifier;
identifier_in(_) -> none.

what({Kind, _}, {reply, {Reply, #{rejectReason := {Reason, _}}}}) -> io_lib:format("~s: ~s ~s", [Kind, Reply, Reason]);
what({Kind, _}, {reply, {Reply, _}}) -> io_lib:format("~s: ~s", [Kind, Reply]);
what({Kind, _}, {ignored, Why}) -> io_lib:format("~s: ignored ~s", [Kind, Why]);
what({Kind, _}, silent) -> io_lib:format("~s: silent", [Kind]).

difference(_, _, Expected, Expected) -> ok;
difference(Request, Octets, Expected, Read) ->
    io_lib:format("~n  octets   ~s~n  request  ~p~n  expected ~p~n  answered ~p",
                  [binary:encode_hex(Octets), Request, Expected, Read]).
