%% Runs `replay` of the gatekeeper over datagrams.
-module(replay).
-export([run/3, lines/2, zone_lines/1, address/1, event/1]).

%% What comes of each datagram: {served, Octets}, silent, {ignored, Why}, or the line if it is another.
run(Gatekeeper, Settings, Datagrams) ->
    Pool = io_lib:format("pool fixed ~b~n", [maps:get(pool, Settings)]),
    Lines = lines(Gatekeeper, [zone_lines(Settings), Pool | [[event(Datagram), $\n] || Datagram <- Datagrams]]),
    case length(Lines) =:= length(Datagrams) of
        true -> [outcome(Number, Line) || {Number, Line} <- lists:zip(lists:seq(1, length(Lines)), Lines)];
        false -> error({another_number_of_lines, length(Datagrams), Lines})
    end.

%% The lines that are printed for a script.
lines(Gatekeeper, Script) ->
    Path = filename:join(os:getenv("JUDGES_FOLDER"), "requests.script"),
    ok = file:write_file(Path, Script),
    string:lexemes(os:cmd(Gatekeeper ++ " replay < " ++ Path), "\n").

%% The lines that set up a zone, but for its pools.
zone_lines(Settings = #{name := Name, address := Address}) ->
    Keys = [limit, call_limit, time_to_live, endpoints, calls, delay, silence, ask_wait, window],
    [["zone ", Name, " ", address(Address), "\nset kept 65536\nset pool_turn 86400000\n"],
     [io_lib:format("set ~s ~b~n", [Key, maps:get(Key, Settings)]) || Key <- Keys, maps:is_key(Key, Settings)]].

address({ipAddress, #{ip := <<A, B, C, D>>, port := Port}}) ->
    io_lib:format("~b.~b.~b.~b:~b", [A, B, C, D, Port]).

%% All come from one address, since a reply goes back to where its datagram came from.
event(Octets) -> ["at 0 from 10.9.8.7:1719 ", binary:encode_hex(Octets)].

outcome(Number, Line) ->
    Start = integer_to_list(Number) ++ " ",
    case string:prefix(Line, Start) of
        nomatch -> {unexpected, Line};
        Note -> note(Note)
    end.

note("served") -> silent;
note("ignored " ++ Why) -> {ignored, Why};
note(Note) ->
    case re:run(Note, "^served( lent \\d+| refused)? > 10\\.9\\.8\\.7:1719 ([0-9A-F]+)$", [{capture, [2], list}]) of
        {match, [Digits]} -> {served, binary:decode_hex(list_to_binary(Digits))};
        nomatch -> {unexpected, Note}
    end.
