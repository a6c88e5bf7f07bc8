%% What the tables of docs/PROFILE.md call for: the answer to a request, from the values that were
%% written into it, and the zone after it. The zone has one fixed pool, and no time passes.
-module(zone).
-export([new/1, answer/3, units_left/1, pool_left/1]).

-define(PROTOCOL, {0, 0, 8, 2250, 0, 2}).
-define(MOST_ALIASES, 32).

new(Settings) -> #{settings => Settings, registered => #{}, calls => #{}}.

%% What comes of a request: {{reply, Message}, Zone}, {silent, Zone} or {{ignored, Why}, Zone}. If an
%% identifier is handed out, it is the one given.
answer({gatekeeperRequest, Request}, _, Zone) -> {discovery(Request, Zone), Zone};
answer({registrationRequest, Request}, Handed, Zone) -> registration(Request, Handed, Zone);
answer({unregistrationRequest, Request}, _, Zone) -> unregistration(Request, Zone);
answer({admissionRequest, Request}, _, Zone) -> admission(Request, Zone);
answer({bandwidthRequest, Request}, _, Zone) -> bandwidth(Request, Zone);
answer({disengageRequest, Request}, _, Zone) -> disengaging(Request, Zone);
answer({infoRequestResponse, Request}, _, Zone) ->
    case registered(Request, Zone) of
        none -> {{ignored, "unknown-endpoint"}, Zone};
        _ -> {silent, Zone}
    end;
answer(_, _, Zone) -> {{ignored, "not-served"}, Zone}.

%% A reply of this kind to a request.
reply(Kind, Request, Components) ->
    {reply, {Kind, Components#{requestSeqNum => maps:get(requestSeqNum, Request)}}}.

reject(Kind, Request, Reason) -> reply(Kind, Request, #{rejectReason => {Reason, 'NULL'}}).

setting(Key, #{settings := Settings}) -> maps:get(Key, Settings).

%% Discovery

discovery(Request, Zone) ->
    case names_another(Request, Zone) of
        true -> reply(gatekeeperReject, Request, #{protocolIdentifier => ?PROTOCOL,
                                                   rejectReason => {terminalExcluded, 'NULL'}});
        false -> reply(gatekeeperConfirm, Request, #{protocolIdentifier => ?PROTOCOL,
                                                     gatekeeperIdentifier => setting(name, Zone),
                                                     rasAddress => setting(address, Zone)})
    end.

names_another(Request, Zone) ->
    Name = setting(name, Zone),
    maps:get(gatekeeperIdentifier, Request, Name) =/= Name.

%% Registration

registration(Request, Handed, Zone) ->
    case registration_fault(Request, Zone) of
        none -> registered_anew(Request, Handed, Zone);
        keep_alive ->
            Identifier = maps:get(endpointIdentifier, Request),
            {registration_confirm(Request, Identifier, registered(Request, Zone), Zone), Zone};
        Reason ->
            {reply(registrationReject, Request, #{protocolIdentifier => ?PROTOCOL, rejectReason => Reason}), Zone}
    end.

%% The first case of the table that applies: a reason to reject, keep_alive or none.
registration_fault(Request, Zone) ->
    Cases = [{fun names_another/2, {discoveryRequired, 'NULL'}},
             {fun is_lost/2, {fullRegistrationRequired, 'NULL'}},
             {fun(_, _) -> is_keep_alive(Request) end, keep_alive},
             {fun(_, _) -> signal_address(Request) =:= none end, {invalidCallSignalAddress, 'NULL'}},
             {fun(_, _) -> ras_address(Request) =:= none end, {invalidRASAddress, 'NULL'}},
             {fun(_, _) -> length(aliases(Request)) > ?MOST_ALIASES end, {resourceUnavailable, 'NULL'}},
             {fun(_, _) -> held_by_others(Request, Zone) =/= [] end, {duplicateAlias, held_by_others(Request, Zone)}},
             {fun is_without_room/2, {resourceUnavailable, 'NULL'}}],
    hd([Result || {Applies, Result} <- Cases, Applies(Request, Zone)] ++ [none]).

is_keep_alive(Request) -> maps:get(keepAlive, Request, false).

%% A keep-alive of no registered endpoint, or with another RAS address than the registered one.
is_lost(Request, Zone) ->
    is_keep_alive(Request) andalso
        case registered(Request, Zone) of
            none -> true;
            #{ras := Address} -> not lists:member(ras_address(Request), [none, Address])
        end.

is_without_room(Request, Zone = #{registered := Registered}) ->
    by_address(signal_address(Request), Zone) =:= none andalso map_size(Registered) >= setting(endpoints, Zone).

registered_anew(Request, Handed, Zone = #{registered := Registered}) ->
    Identifier = case by_address(signal_address(Request), Zone) of
                     none when is_map_key(Handed, Registered) -> {belongs_to_another, Handed};
                     none -> Handed;
                     Known -> Known
                 end,
    Entry = #{signal => signal_address(Request), ras => ras_address(Request), aliases => aliases(Request)},
    {registration_confirm(Request, Identifier, Entry, Zone), Zone#{registered := Registered#{Identifier => Entry}}}.

registration_confirm(Request, Identifier, #{signal := Address, aliases := Aliases}, Zone) ->
    Most = setting(time_to_live, Zone),
    Components = #{protocolIdentifier => ?PROTOCOL, callSignalAddress => [Address],
                   gatekeeperIdentifier => setting(name, Zone), endpointIdentifier => Identifier,
                   timeToLive => min(maps:get(timeToLive, Request, Most), Most), willRespondToIRR => false},
    case Aliases of
        [] -> reply(registrationConfirm, Request, Components);
        _ -> reply(registrationConfirm, Request, Components#{terminalAlias => Aliases})
    end.

held_by_others(Request, Zone) ->
    Own = by_address(signal_address(Request), Zone),
    [Alias || Alias <- aliases(Request), not lists:member(by_alias(Alias, Zone), [none, Own])].

%% Unregistration

unregistration(Request, Zone = #{registered := Registered}) ->
    Identifier = case Request of
                     #{endpointIdentifier := Named} -> Named;
                     _ -> by_address(signal_address(Request), Zone)
                 end,
    case {maps:is_key(Identifier, Registered), is_in_a_call(Identifier, Zone)} of
        {false, _} -> {reject(unregistrationReject, Request, notCurrentlyRegistered), Zone};
        {true, true} -> {reject(unregistrationReject, Request, callInProgress), Zone};
        {true, false} ->
            {reply(unregistrationConfirm, Request, #{}), Zone#{registered := maps:remove(Identifier, Registered)}}
    end.

is_in_a_call(Identifier, #{calls := Calls}) ->
    lists:any(fun(#{legs := Legs}) -> maps:is_key(Identifier, Legs) end, maps:values(Calls)).

%% Admission

admission(Request, Zone) ->
    case registered(Request, Zone) of
        none -> {reject(admissionReject, Request, invalidEndpointIdentifier), Zone};
        Endpoint -> admission_of(Request, Endpoint, call_of(Request, Zone), Zone)
    end.

admission_of(Request, Endpoint, Call, Zone) ->
    Told = called_address(Request, Endpoint, Zone),
    case {leg(Request, Call), Told, Call} of
        {{leg, Address}, _, _} -> {admission_confirm(Request, joined_units(Request, Call), Address), Zone};
        {none, none, _} -> {reject(admissionReject, Request, calledPartyNotRegistered), Zone};
        {none, _, none} -> opening(Request, Told, Zone);
        {none, _, #{legs := Legs}} when map_size(Legs) =:= 1 ->
            {admission_confirm(Request, joined_units(Request, Call), Told),
             with_call(Request, Call#{legs := Legs#{maps:get(endpointIdentifier, Request) => Told}}, Zone)};
        _ -> {reject(admissionReject, Request, resourceUnavailable), Zone}
    end.

opening(Request, Told, Zone = #{calls := Calls}) ->
    Wanted = wanted(Request, Zone),
    Left = units_left(Zone),
    case map_size(Calls) >= setting(calls, Zone) of
        true -> {reject(admissionReject, Request, resourceUnavailable), Zone};
        false when Wanted > 0, Left =:= 0 -> {reject(admissionReject, Request, requestDenied), Zone};
        false ->
            Units = min(Wanted, Left),
            case Units =< pool_left(Zone) of
                false -> {reject(admissionReject, Request, requestDenied), Zone};
                true ->
                    Legs = #{maps:get(endpointIdentifier, Request) => Told},
                    {admission_confirm(Request, Units, Told),
                     with_call(Request, #{units => Units, legs => Legs}, Zone)}
            end
    end.

%% The address of who is called, or none.
called_address(#{answerCall := true}, #{signal := Address}, _) -> Address;
called_address(Request, _, Zone = #{registered := Registered}) ->
    Aliases = maps:get(destinationInfo, Request, []),
    case [Found || Alias <- Aliases, (Found = by_alias(Alias, Zone)) =/= none] of
        [First | _] -> maps:get(signal, maps:get(First, Registered));
        [] -> first_ip_address([maps:get(destCallSignalAddress, Request, none)])
    end.

joined_units(#{bandWidth := Asked}, #{units := Units}) -> min(Asked, Units).

admission_confirm(Request, Units, Address) ->
    Names = [setup, callProceeding, connect, alerting, information, releaseComplete, facility, progress, empty],
    reply(admissionConfirm, Request, #{bandWidth => Units, callModel => {direct, 'NULL'},
                                       destCallSignalAddress => Address, willRespondToIRR => false,
                                       uuiesRequested => maps:from_list([{Name, false} || Name <- Names])}).

%% Bandwidth and disengaging

bandwidth(Request, Zone) ->
    Call = call_of(Request, Zone),
    case {registered(Request, Zone), leg(Request, Call)} of
        {none, _} -> {bandwidth_reject(Request, notBound, 0), Zone};
        {_, none} -> {bandwidth_reject(Request, invalidConferenceID, 0), Zone};
        _ -> resizing(Request, Call, Zone)
    end.

resizing(Request, Call = #{units := Units}, Zone) ->
    Wanted = wanted(Request, Zone),
    More = min(Wanted - Units, units_left(Zone)),
    case Wanted =< Units orelse (More > 0 andalso More =< pool_left(Zone)) of
        true ->
            {reply(bandwidthConfirm, Request, #{bandWidth => Units + More}),
             with_call(Request, Call#{units := Units + More}, Zone)};
        false -> {bandwidth_reject(Request, insufficientResources, Units), Zone}
    end.

bandwidth_reject(Request, Reason, Allowed) ->
    reply(bandwidthReject, Request, #{rejectReason => {Reason, 'NULL'}, allowedBandWidth => Allowed}).

disengaging(Request = #{endpointIdentifier := Identifier}, Zone) ->
    Call = call_of(Request, Zone),
    case {registered(Request, Zone), leg(Request, Call)} of
        {none, _} -> {reject(disengageReject, Request, notRegistered), Zone};
        {_, none} -> {reject(disengageReject, Request, requestToDropOther), Zone};
        _ ->
            #{legs := Legs} = Call,
            {reply(disengageConfirm, Request, #{}),
             with_call(Request, Call#{legs := maps:remove(Identifier, Legs)}, Zone)}
    end.

%% Look-ups

first_ip_address(Addresses) -> hd([Address || Address = {ipAddress, _} <- Addresses] ++ [none]).

signal_address(#{callSignalAddress := Addresses}) -> first_ip_address(Addresses).

ras_address(#{rasAddress := Addresses}) -> first_ip_address(Addresses).

%% The dialled digits and h323-IDs of a request, each once.
aliases(Request) ->
    Kept = [Alias || Alias = {Kind, _} <- maps:get(terminalAlias, Request, []),
                     lists:member(Kind, [dialledDigits, 'h323-ID'])],
    lists:foldr(fun(Alias, Sum) -> [Alias | lists:delete(Alias, Sum)] end, [], Kept).

registered(Request, #{registered := Registered}) ->
    maps:get(maps:get(endpointIdentifier, Request, none), Registered, none).

by_address(Address, #{registered := Registered}) ->
    hd([Identifier || {Identifier, #{signal := Known}} <- maps:to_list(Registered), Known =:= Address] ++ [none]).

by_alias(Alias, #{registered := Registered}) ->
    Holders = [Identifier || {Identifier, #{aliases := Known}} <- maps:to_list(Registered), lists:member(Alias, Known)],
    hd(Holders ++ [none]).

%% The key of a request's call: its callIdentifier, if that is there and not all zero, else its conferenceID.
key(#{callIdentifier := #{guid := Guid}}) when Guid =/= <<0:128>> -> Guid;
key(#{conferenceID := Conference}) -> Conference.

call_of(Request, #{calls := Calls}) -> maps:get(key(Request), Calls, none).

%% The leg of a request's endpoint in a call, with the address that it was told.
leg(#{endpointIdentifier := Identifier}, #{legs := Legs}) when is_map_key(Identifier, Legs) ->
    {leg, maps:get(Identifier, Legs)};
leg(_, _) -> none.

%% The zone with a request's call as given; a call without a leg is over.
with_call(Request, #{legs := Legs}, Zone = #{calls := Calls}) when map_size(Legs) =:= 0 ->
    Zone#{calls := maps:remove(key(Request), Calls)};
with_call(Request, Call, Zone = #{calls := Calls}) -> Zone#{calls := Calls#{key(Request) => Call}}.

%% What is asked for, but no more than one call may have.
wanted(#{bandWidth := Asked}, Zone) -> min(Asked, setting(call_limit, Zone)).

in_use(#{calls := Calls}) -> lists:sum([Units || #{units := Units} <- maps:values(Calls)]).

units_left(Zone) -> setting(limit, Zone) - in_use(Zone).

pool_left(Zone) -> setting(pool, Zone) - in_use(Zone).
