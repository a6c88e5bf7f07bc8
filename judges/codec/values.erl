%% Random values of the types that messages share. What is drawn follows from the seed alone.
%% `Later` says whether additions are drawn that only the module of a later version has.
-module(values).
-export([number/2, chance/1, one_of/1, list_of/3, octets/2, text/2, altered/1, digits/1, object/0, optional/3,
         later/2, ip_address/0, address/1, alias_address/1, non_standard/1, vendor/1, endpoint_type/1, qseries/1,
         call_type/1, call_model/1, disengage_reason/1, endpoint/1, token/1, crypto_token/0, icv/0]).

%% A number of a range: often one at an end, or beside a power of 256, where encodings change.
number(Low, High) ->
    Corners = [N || N <- [Low, Low + 1, 126, 127, 128, 254, 255, 256, 257, 65534, 65535, 65536, 16777215,
                          16777216, High - 1, High], N >= Low, N =< High],
    case chance(3) of
        true -> one_of(Corners);
        false -> Low + rand:uniform(High - Low + 1) - 1
    end.

%% True once in so many times.
chance(Times) -> rand:uniform(Times) =:= 1.

one_of(List) -> lists:nth(rand:uniform(length(List)), List).

list_of(Low, High, Draw) -> [Draw() || _ <- lists:seq(1, number(Low, High))].

octets(Low, High) -> list_to_binary(list_of(Low, High, fun() -> number(0, 255) end)).

%% A BMPString: each character is any 16-bit code.
text(Low, High) -> list_of(Low, High, fun() -> character(one_of([number(0, 65535), number($a, $z)])) end).

%% A character as the codec has it: a number below 256, else its four octets.
character(Code) when Code < 256 -> Code;
character(Code) -> {0, 0, Code div 256, Code rem 256}.

code({0, 0, High, Low}) -> High * 256 + Low;
code(Code) -> Code.

%% A text with one character altered.
altered(Text) ->
    {Before, [Character | Behind]} = lists:split(rand:uniform(length(Text)) - 1, Text),
    Before ++ [character((code(Character) + one_of([1, 256])) rem 65536) | Behind].

digits(High) -> list_of(1, High, fun() -> one_of("0123456789#*,") end).

object() -> one_of([{0, 0, 8, 2250, 0, number(1, 7)}, {1, 3, 6, 1, 4, 1, number(0, 70000)}, {2, 100, number(0, 300)}]).

flag() -> chance(2).

%% The components, with one more in half of the cases.
optional(Key, Draw, Components) ->
    case flag() of
        true -> Components#{Key => Draw()};
        false -> Components
    end.

%% The components, with some that only a later version has.
later(false, Components) -> Components;
later(true, Components) ->
    case chance(3) of
        false -> Components;
        true ->
            Draws = [{laterNumber, fun() -> number(0, 4294967295) end}, {laterNothing, fun() -> 'NULL' end},
                     {laterOctets, fun() -> octets(0, one_of([3, 20, 130])) end},
                     {laterAddress, fun ip_address/0}, {laterFlag, fun flag/0}],
            lists:foldl(fun({Key, Draw}, Sum) -> optional(Key, Draw, Sum) end, Components, Draws)
    end.

%% An alternative of these, or one that only a later version has.
alternative(Later, Draws) ->
    case Later andalso chance(4) of
        true -> one_of([{laterNothing, 'NULL'}, {laterOctets, octets(0, one_of([5, 140]))},
                        {laterNumber, number(0, 100000)}]);
        false -> (one_of(Draws))()
    end.

named(Later, Names) -> alternative(Later, [fun() -> {Name, 'NULL'} end || Name <- Names]).

ip_address() -> {ipAddress, #{ip => octets(4, 4), port => number(0, 65535)}}.

%% An address of any kind.
address(Later) ->
    alternative(Later,
      [fun ip_address/0,
       fun() -> {ipSourceRoute, later(Later, #{ip => octets(4, 4), port => number(0, 65535),
                                              route => list_of(0, 3, fun() -> octets(4, 4) end),
                                              routing => named(Later, [strict, loose])})} end,
       fun() -> {ipxAddress, #{node => octets(6, 6), netnum => octets(4, 4), port => octets(2, 2)}} end,
       fun() -> {ip6Address, later(Later, #{ip => octets(16, 16), port => number(0, 65535)})} end,
       fun() -> {netBios, octets(16, 16)} end,
       fun() -> {nsap, octets(1, 20)} end,
       fun() -> {nonStandardAddress, non_standard(Later)} end]).

%% An alias of any kind. Those behind the extension marker are written, too.
alias_address(Later) ->
    alternative(Later,
      [fun() -> {dialledDigits, digits(one_of([4, 12, 128]))} end,
       fun() -> {'h323-ID', text(1, one_of([4, 12, 256]))} end,
       fun() -> {'url-ID', list_of(1, 30, fun() -> number($a, $z) end)} end,
       fun() -> {'transport-ID', address(Later)} end,
       fun() -> {'email-ID', list_of(1, 30, fun() -> number($a, $z) end)} end]).

non_standard(Later) ->
    Identifier = alternative(Later, [fun() -> {object, object()} end, fun() -> {h221NonStandard, h221(Later)} end]),
    #{nonStandardIdentifier => Identifier, data => octets(0, one_of([4, 30, 140]))}.

h221(Later) ->
    later(Later, #{t35CountryCode => number(0, 255), t35Extension => number(0, 255),
                   manufacturerCode => number(0, 65535)}).

vendor(Later) ->
    Base = later(Later, #{vendor => h221(Later)}),
    Named = optional(productId, fun() -> octets(1, one_of([10, 256])) end, Base),
    optional(versionId, fun() -> octets(1, one_of([10, 256])) end, Named).

%% Components that hold nothing but data that isn't of the standard.
holder(Later) -> later(Later, optional(nonStandardData, fun() -> non_standard(Later) end, #{})).

endpoint_type(Later) ->
    Draws = [{nonStandardData, fun() -> non_standard(Later) end}, {vendor, fun() -> vendor(Later) end},
             {gatekeeper, fun() -> holder(Later) end}, {gateway, fun() -> gateway(Later) end},
             {mcu, fun() -> holder(Later) end}, {terminal, fun() -> holder(Later) end},
             {set, fun() -> <<(number(0, 4294967295)):32>> end}],
    Base = later(Later, #{mc => flag(), undefinedNode => flag()}),
    lists:foldl(fun({Key, Draw}, Sum) -> optional(Key, Draw, Sum) end, Base, Draws).

gateway(Later) ->
    optional(protocol, fun() -> list_of(0, 3, fun() -> protocol(Later) end) end, holder(Later)).

protocol(Later) ->
    Kinds = [h310, h320, h321, h322, h323, h324, voice, 't120-only'],
    alternative(Later, [fun() -> {nonStandardData, non_standard(Later)} end |
                        [fun() -> {Kind, caps(Later)} end || Kind <- Kinds]]).

caps(Later) ->
    Prefix = fun() -> later(Later, #{prefix => alias_address(Later)}) end,
    optional(supportedPrefixes, fun() -> list_of(0, 2, Prefix) end, holder(Later)).

qseries(Later) ->
    Names = [q932Full, q951Full, q952Full, q953Full, q955Full, q956Full, q957Full],
    Details = later(Later, #{conferenceCalling => flag(), threePartyService => flag()}),
    later(Later, maps:from_list([{q954Info, Details} | [{Name, flag()} || Name <- Names]])).

call_type(Later) -> named(Later, [pointToPoint, oneToN, nToOne, nToN]).

call_model(Later) -> named(Later, [direct, gatekeeperRouted]).

disengage_reason(Later) -> named(Later, [forcedDrop, normalDrop, undefinedReason]).

endpoint(Later) ->
    Addresses = fun() -> list_of(0, 2, fun() -> address(Later) end) end,
    later(Later, optional(rasAddress, Addresses, optional(callSignalAddress, Addresses, #{}))).

token(Later) -> later(Later, optional(random, fun() -> number(0, 100000) - 50000 end, #{tokenOID => object()})).

crypto_token() -> #{algorithmOID => object(), hash => octets(0, 20)}.

icv() -> #{algorithmOID => object(), icv => octets(1, 12)}.
