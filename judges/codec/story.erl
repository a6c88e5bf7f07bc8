%% A story: the settings of a zone, and rounds of requests to it. The values that answers depend on are
%% drawn from small sets, so that requests meet the endpoints, aliases and calls of earlier ones.
-module(story).
-export([settings/0, sets/0, requests/4]).
-import(values, [number/2, chance/1, one_of/1, list_of/3, octets/2, text/2, ip_address/0, address/1]).

settings() ->
    #{name => list_of(1, one_of([2, 12, 128]), fun() -> one_of("abcdefghijklmnopqrstuvwxyzABCXYZ0123456789-_") end),
      address => ip_address(), limit => one_of([3000, 100000, 1000000000000]), pool => one_of([2500, 1000000000000]),
      call_limit => one_of([1000, 20000, 20000, 4294967295]), time_to_live => one_of([60, 3600, 4294967295]),
      endpoints => one_of([3, 20000]), calls => one_of([2, 20000])}.

%% What the requests of a story share.
sets() ->
    Names = [{dialledDigits, values:digits(one_of([3, 20, 128]))} || _ <- lists:seq(1, 4)]
        ++ [{'h323-ID', text(1, one_of([3, 20, 256]))} || _ <- lists:seq(1, 4)],
    #{addresses => list_of(5, 5, fun values:ip_address/0), ras_addresses => list_of(5, 5, fun values:ip_address/0),
      aliases => [{dialledDigits, "101"}, {'h323-ID', "101"} | Names],
      calls => [<<0:128>> | list_of(4, 4, fun() -> octets(16, 16) end)]}.

%% The requests of a round. `Numbers` has the requestSeqNum of each.
requests(Numbers, Zone, Sets, Later) ->
    [requests:request(Kind, Handed#{requestSeqNum => Number}, Later) ||
        Number <- Numbers, {Kind, Handed} <- [drawn(one_of(kinds()), Zone, Sets, Later)]].

kinds() ->
    [gatekeeperRequest, registrationRequest, registrationRequest, registrationRequest, registrationRequest,
     registrationRequest, unregistrationRequest,
     admissionRequest, admissionRequest, admissionRequest, admissionRequest, bandwidthRequest, bandwidthRequest,
     disengageRequest, disengageRequest, infoRequestResponse, other].

%% A kind of message, with the components that its answer depends on.
drawn(gatekeeperRequest, Zone, _, _) -> {gatekeeperRequest, with_name(Zone, #{})};
drawn(registrationRequest, Zone, Sets, Later) ->
    Base = #{callSignalAddress => addresses(addresses, Sets, Later),
             rasAddress => addresses(ras_addresses, Sets, Later)},
    Named = with_name(Zone, drawn_or_not(terminalAlias, fun() -> aliases(Sets, Later) end, Base)),
    Lived = drawn_or_not(timeToLive, fun() -> number(1, 4294967295) end, Named),
    {registrationRequest, kept_alive(Zone, Lived)};
drawn(unregistrationRequest, Zone, Sets, Later) ->
    Base = #{callSignalAddress => addresses(addresses, Sets, Later)},
    {unregistrationRequest, drawn_or_not(endpointIdentifier, fun() -> identifier(Zone) end, Base)};
drawn(admissionRequest, Zone, Sets, Later) ->
    Base = (of_call(Zone, Sets, Later))#{bandWidth => units(Zone), answerCall => chance(5)},
    Called = drawn_or_not(destinationInfo, fun() -> aliases(Sets, Later) end, Base),
    {admissionRequest, drawn_or_not(destCallSignalAddress, fun() -> address(Later) end, Called)};
drawn(bandwidthRequest, Zone, Sets, Later) ->
    {bandwidthRequest, (of_call(Zone, Sets, Later))#{bandWidth => units(Zone)}};
drawn(disengageRequest, Zone, Sets, Later) -> {disengageRequest, of_call(Zone, Sets, Later)};
drawn(infoRequestResponse, Zone, _, _) -> {infoRequestResponse, #{endpointIdentifier => identifier(Zone)}};
drawn(other, _, _, _) ->
    {one_of([locationRequest, unknownMessageResponse, disengageConfirm, requestInProgress]), #{}}.

drawn_or_not(Key, Draw, Components) -> values:optional(Key, Draw, Components).

%% With the zone's name, another one like it, or none.
with_name(#{settings := #{name := Name}}, Components) ->
    case rand:uniform(20) of
        1 -> Components#{gatekeeperIdentifier => text(1, 128)};
        2 -> Components#{gatekeeperIdentifier => values:altered(Name)};
        Drawn when Drawn < 10 -> Components#{gatekeeperIdentifier => Name};
        _ -> Components
    end.

kept_alive(Zone, Components) ->
    case rand:uniform(5) of
        1 -> drawn_or_not(endpointIdentifier, fun() -> identifier(Zone) end, Components#{keepAlive => true});
        2 -> Components#{keepAlive => false, endpointIdentifier => identifier(Zone)};
        _ -> Components
    end.

%% The identifier of a registered endpoint, seldom one that isn't.
identifier(#{registered := Registered}) ->
    case maps:keys(Registered) of
        [] -> text(1, 128);
        Known ->
            case rand:uniform(20) of
                1 -> text(1, 128);
                2 -> values:altered(one_of(Known));
                _ -> one_of(Known)
            end
    end.

%% Addresses of any kind, and mostly one of the set among them.
addresses(Key, Sets, Later) ->
    Before = list_of(0, one_of([1, 1, 3]), fun() -> other_address(Later) end),
    case chance(10) of
        true -> Before;
        false -> Before ++ [one_of(maps:get(Key, Sets)) | list_of(0, 1, fun() -> address(Later) end)]
    end.

other_address(Later) ->
    case address(Later) of
        {ipAddress, _} -> other_address(Later);
        Other -> Other
    end.

%% Some aliases: of the set, of any kind, and seldom many.
aliases(Sets, Later) ->
    Shared = maps:get(aliases, Sets),
    One = fun() -> one_of([one_of(Shared), one_of(Shared), values:alias_address(Later)]) end,
    case rand:uniform(30) of
        1 -> [{dialledDigits, integer_to_list(N)} || N <- lists:seq(1, number(30, 35))];
        2 -> list_of(1, 12, fun() -> {'h323-ID', text(250, 256)} end);
        _ -> list_of(0, 4, One)
    end.

%% An endpoint and a call: by its conferenceID, or by a callIdentifier, which may be all zero.
of_call(Zone, #{calls := Keys}, Later) ->
    {Identifier, Key} = one_of([{identifier(Zone), one_of(Keys)}, leg(Zone, Keys)]),
    case one_of([conference, identifier, none]) of
        conference -> #{endpointIdentifier => Identifier, conferenceID => Key};
        identifier -> named_call(Identifier, one_of(Keys), Key, Later);
        none -> named_call(Identifier, Key, <<0:128>>, Later)
    end.

named_call(Identifier, Conference, Guid, Later) ->
    #{endpointIdentifier => Identifier, conferenceID => Conference,
      callIdentifier => values:later(Later, #{guid => Guid})}.

%% An endpoint and a call in which it takes part, if there is a call.
leg(Zone = #{calls := Calls}, Keys) ->
    case [{Identifier, Key} || {Key, #{legs := Legs}} <- maps:to_list(Calls), Identifier <- maps:keys(Legs)] of
        [] -> {identifier(Zone), one_of(Keys)};
        Known -> one_of(Known)
    end.

%% Bandwidth: sometimes all that the zone or its pool has left, or one unit more.
units(Zone) ->
    Left = min(zone:units_left(Zone), zone:pool_left(Zone)),
    one_of([0, number(1, 3000), number(1, 30000), number(0, 4294967295), min(Left, 4294967295),
            min(Left, 4294967295), min(Left + 1, 4294967295)]).
