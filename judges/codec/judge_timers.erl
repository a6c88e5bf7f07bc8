%% Judges what the gatekeeper sends by itself or tells of its timers: requestInProgress of a call whose pool
%% asks to wait, and InfoRequests to an endpoint in a call that is silent. Each zone has other settings, and
%% its requests are written by the outside codec. Ends with `N passed, M failed`.
-module(judge_timers).
-export([main/0]).

-define(SENDER, "10.9.8.7:1719").
%% In milliseconds. Kept replies stay for so long, so that a turn finds nothing else to do.
-define(LONGEST, 3600000).

main() ->
    Zones = 2 * list_to_integer(os:getenv("STORIES")),
    Results = lists:append([zone(Seed) || Seed <- lists:seq(1, Zones)]),
    Faults = [Result || Result <- Results, Result =/= ok],
    [io:format("~s~n", [Fault]) || Fault <- lists:sublist(Faults, 10)],
    io:format("~b replies compared in ~b zones~n", [length(Results), Zones]),
    io:format("~b passed, ~b failed~n", [length(Results) - length(Faults), length(Faults)]),
    halt(case Faults =:= [] andalso Results =/= [] of true -> 0; false -> 1 end).

%% The comparisons of one zone: of each line that has something sent, with where to and what.
zone(Seed) ->
    rand:seed(exsss, Seed),
    {Settings, Events, Expected} = (values:one_of([fun waiting/1, fun silence/1]))(settings()),
    Pool = io_lib:format("pool paced 1000000 ~b~n", [maps:get(burst, Settings)]),
    Script = [replay:zone_lines(Settings), Pool, lists:join("\n", Events), "\n"],
    Lines = replay:lines(os:getenv("GATEKEEPER"), Script),
    Sent = [sent(Line) || Line <- lists:nthtail(3, Lines)],
    [compared(Seed, One, Other) || {One, Other} <- padded(Expected, Sent)].

settings() ->
    maps:merge(story:settings(),
               #{limit => 1000000000000, call_limit => 4294967295, endpoints => 10, calls => 10,
                 time_to_live => 3600000, delay => values:number(2, 65535), silence => values:number(2, 3000000),
                 ask_wait => values:number(2, 100000), window => ?LONGEST, burst => values:number(1, 100000)}).

%% Two endpoints, the first of which calls the second with all that the pool lends before its next turn.
call(#{burst := Burst}) ->
    Signal = [values:ip_address(), values:ip_address()],
    Ras = values:ip_address(),
    Before = [Address || Address = {Kind, _} <- [values:address(false), values:address(false)], Kind =/= ipAddress],
    Events = [registration(1, hd(Signal), Before ++ [Ras], "1"),
              registration(2, lists:last(Signal), [values:ip_address()], "2"),
              admission(3, <<1:128>>, Burst)],
    {Events, Ras}.

registration(Number, Signal, Ras, Digits) ->
    datagram(registrationRequest, #{requestSeqNum => Number, callSignalAddress => [Signal], rasAddress => Ras,
                                    terminalAlias => [{dialledDigits, Digits}]}).

%% The first endpoint has the first identifier of a new zone.
admission(Number, Call, Units) ->
    datagram(admissionRequest, #{requestSeqNum => Number, endpointIdentifier => "0001", conferenceID => Call,
                                 destinationInfo => [{dialledDigits, "2"}], bandWidth => Units, answerCall => false}).

datagram(Kind, Handed) ->
    {ok, Octets} = 'H225':encode('RasMessage', requests:request(Kind, Handed, false)),
    replay:event(Octets).

turn(Moment) -> io_lib:format("turn ~b", [Moment]).

%% A second call has to wait. It is served again after each delay, three times without another setting, and
%% told the same, until it is refused at the last.
waiting(Drawn = #{delay := Delay}) ->
    Settings = Drawn#{silence := ?LONGEST},
    {Events, _} = call(Settings),
    Number = values:number(4, 65535),
    Told = {?SENDER, {requestInProgress, #{requestSeqNum => Number, delay => Delay}}},
    Refused = {?SENDER, {admissionReject, #{requestSeqNum => Number, rejectReason => {requestDenied, 'NULL'}}}},
    Turns = [turn(Times * Delay - Before) || Times <- [1, 2, 3], Before <- [1, 0]],
    {Settings, Events ++ [admission(Number, <<2:128>>, values:number(1, 4294967295)) | Turns],
     [Told, none, Told, none, Told, none, Refused]}.

%% Nothing is heard of the first endpoint: it is asked at its RAS address, and once more.
silence(Settings = #{silence := Silence, ask_wait := Wait}) ->
    {Events, Ras} = call(Settings),
    Turns = [turn(Moment) || Moment <- [Silence - 1, Silence, Silence + Wait - 1, Silence + Wait]],
    {Settings, Events ++ Turns, [none, interrogation(1, Ras), none, interrogation(2, Ras)]}.

interrogation(Number, Ras) ->
    {lists:flatten(replay:address(Ras)),
     {infoRequest, #{requestSeqNum => Number, callReferenceValue => 0, callIdentifier => #{guid => <<0:128>>}}}}.

%% What a line says is sent, and where to; none if nothing is.
sent(Line) ->
    case string:split(Line, " > ") of
        [_] -> none;
        [_, Sent] ->
            [Address, Digits] = string:lexemes(Sent, " "),
            Octets = binary:decode_hex(list_to_binary(Digits)),
            {Address, element(2, 'H225':decode('RasMessage', Octets))}
    end.

padded(Expected, Sent) when length(Expected) =:= length(Sent) -> lists:zip(Expected, Sent);
padded(Expected, Sent) -> [{Expected, Sent}].

compared(_, Same, Same) -> ok;
compared(Seed, Expected, Sent) -> io_lib:format("zone ~b: expected ~p~n  sent ~p", [Seed, Expected, Sent]).
