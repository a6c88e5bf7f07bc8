%% Judges the octets of each reply of the examples by the outside codec: it has to write the values that it
%% reads as the same octets. So a reply is the shortest encoding, with zeros between its parts and no more
%% presence bits than it needs: the lists of additions in the module's replies end with the last one that the
%% gatekeeper writes. Ends with `N passed, M failed`.
-module(judge_octets).
-export([main/0]).

main() ->
    Scripts = filelib:wildcard(filename:join(os:getenv("EXAMPLES"), "*.script")),
    Replies = lists:append([replies(Script) || Script <- Scripts]),
    Faults = [{Place, Octets, Written} || {Place, Octets} <- Replies, (Written = written_again(Octets)) =/= Octets],
    [io:format("~s: ~s is written as ~p~n", [Place, Octets, Written]) || {Place, Octets, Written} <- Faults],
    io:format("~b replies read and written again~n", [length(Replies)]),
    io:format("~b passed, ~b failed~n", [length(Replies) - length(Faults), length(Faults)]),
    halt(case Faults =:= [] andalso Replies =/= [] of true -> 0; false -> 1 end).

%% The replies of an example, each with its place and its octets in hexadecimal.
replies(Script) ->
    Lines = string:lexemes(os:cmd(os:getenv("GATEKEEPER") ++ " replay < " ++ Script), "\n"),
    Name = filename:basename(Script, ".script"),
    [{[Name, ", event ", hd(string:lexemes(Line, " "))], list_to_binary(lists:last(string:lexemes(Line, " ")))}
     || Line <- Lines, string:find(Line, " > ") =/= nomatch].

%% What the codec writes of what it reads, in hexadecimal, or what it reports instead.
written_again(Digits) ->
    maybe_hex(case 'H225':decode('RasMessage', binary:decode_hex(Digits)) of
                  {ok, Value} -> 'H225':encode('RasMessage', Value);
                  Fault -> Fault
              end).

maybe_hex({ok, Octets}) -> binary:encode_hex(Octets);
maybe_hex(Fault) -> Fault.
