%% Requests. What an answer depends on is handed in; everything else of the request is drawn, so that
%% it has to be read past.
-module(requests).
-export([request/3]).
-import(values, [number/2, list_of/3, octets/2, text/2, object/0, optional/3, later/2, address/1, alias_address/1]).

%% The RasMessage of a kind with the components that are handed in.
request(Kind, Handed, Later) ->
    Drawn = lists:foldl(fun({Key, Draw}, Sum) -> optional(Key, Draw, Sum) end, required(Kind, Later),
                        choosable(Kind, Later)),
    {Kind, maps:merge(later(Later, Drawn), Handed)}.

flag() -> values:chance(2).

list(Draw) -> fun() -> list_of(0, 3, Draw) end.

%% Components that have to be there.
required(gatekeeperRequest, Later) ->
    #{protocolIdentifier => object(), rasAddress => address(Later), endpointType => values:endpoint_type(Later)};
required(registrationRequest, Later) ->
    #{protocolIdentifier => object(), discoveryComplete => flag(), terminalType => values:endpoint_type(Later),
      endpointVendor => values:vendor(Later)};
required(unregistrationRequest, _) -> #{};
required(admissionRequest, Later) ->
    #{callType => values:call_type(Later), srcInfo => list_of(0, 3, fun() -> alias_address(Later) end),
      callReferenceValue => number(0, 65535), activeMC => flag()};
required(bandwidthRequest, _) -> #{callReferenceValue => number(0, 65535)};
required(disengageRequest, Later) ->
    #{callReferenceValue => number(0, 65535), disengageReason => values:disengage_reason(Later)};
required(infoRequestResponse, Later) ->
    #{endpointType => values:endpoint_type(Later), rasAddress => address(Later),
      callSignalAddress => list_of(0, 2, fun() -> address(Later) end)};
required(locationRequest, Later) ->
    #{destinationInfo => list_of(1, 2, fun() -> alias_address(Later) end), replyAddress => address(Later)};
required(unknownMessageResponse, _) -> #{};
required(disengageConfirm, _) -> #{};
required(requestInProgress, _) -> #{delay => number(1, 65535)}.

%% Components that may be there, of the root and behind the extension marker.
choosable(Kind, Later) -> non_standard(Kind, Later) ++ own(Kind, Later).

non_standard(unknownMessageResponse, _) -> [];
non_standard(_, Later) -> [{nonStandardData, fun() -> values:non_standard(Later) end}].

own(gatekeeperRequest, Later) ->
    [{callServices, fun() -> values:qseries(Later) end}, {endpointAlias, list(fun() -> alias_address(Later) end)},
     {tokens, list(fun() -> values:token(Later) end)}];
own(registrationRequest, Later) ->
    [{alternateEndpoints, list(fun() -> values:endpoint(Later) end)},
     {tokens, list(fun() -> values:token(Later) end)}, {cryptoTokens, list(fun values:crypto_token/0)},
     {integrityCheckValue, fun values:icv/0},
     {willSupplyUUIEs, fun flag/0}];
own(unregistrationRequest, Later) ->
    [{endpointAlias, list(fun() -> alias_address(Later) end)},
     {alternateEndpoints, list(fun() -> values:endpoint(Later) end)},
     {gatekeeperIdentifier, fun() -> text(1, 128) end}];
own(admissionRequest, Later) ->
    [{callModel, fun() -> values:call_model(Later) end}, {destExtraCallInfo, list(fun() -> alias_address(Later) end)},
     {srcCallSignalAddress, fun() -> address(Later) end}, {callServices, fun() -> values:qseries(Later) end},
     {canMapAlias, fun flag/0}, {srcAlternatives, list(fun() -> values:endpoint(Later) end)},
     {gatekeeperIdentifier, fun() -> text(1, 128) end}];
own(bandwidthRequest, Later) ->
    [{callType, fun() -> values:call_type(Later) end}, {gatekeeperIdentifier, fun() -> text(1, 128) end}];
own(disengageRequest, _) -> [{gatekeeperIdentifier, fun() -> text(1, 128) end}];
own(infoRequestResponse, Later) ->
    [{endpointAlias, list(fun() -> alias_address(Later) end)}, {perCallInfo, list(fun() -> call_info(Later) end)}];
own(_, _) -> [].

%% What an endpoint tells of one of its calls.
call_info(Later) ->
    Channel = later(Later, optional(sendAddress, fun() -> address(Later) end, #{})),
    later(Later, #{callReferenceValue => number(0, 65535), conferenceID => octets(16, 16), h245 => Channel,
                   callSignaling => Channel, callType => values:call_type(Later),
                   bandWidth => number(0, 4294967295), callModel => values:call_model(Later)}).
