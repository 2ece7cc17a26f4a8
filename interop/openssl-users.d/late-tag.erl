%% Erlang/OTP, which sets the tag after the text:
%%
%%   crypto                                8 MB, equal, an empty message, and forged ones and one of another AAD, refused
%%   ssl CERT KEY FILE [VERSION SUITE]..   a file each way by each suite of TLS, between two ends that are both Erlang's `ssl`
%%   get PORT FILE VERSION SUITE           a file from a server of 127.0.0.1

main(["crypto"]) ->
    [crypto(Name, Length) || {Name, Length} <- [{aes_128_gcm, 16}, {aes_256_gcm, 32}]];
main(["ssl", _, _, _]) ->
    ok;
main(["ssl", Cert, Key, File, Version, Suite | More]) ->
    {Text, Options} = tls(File, Version, Suite),
    {ok, Listener} = ssl:listen(0, [{ip, {127, 0, 0, 1}}, {certfile, Cert}, {keyfile, Key} | Options]),
    {ok, {_, Port}} = ssl:sockname(Listener),
    spawn_link(fun() -> serve(Listener, byte_size(Text)) end),
    {ok, Stream} = ssl:connect("127.0.0.1", Port, Options),
    ok = ssl:send(Stream, Text),
    {ok, Text} = ssl:recv(Stream, byte_size(Text)),
    main(["ssl", Cert, Key, File | More]);
main(["get", Port, File, Version, Suite]) ->
    {Text, Options} = tls(File, Version, Suite),
    {ok, Stream} = ssl:connect("127.0.0.1", list_to_integer(Port), Options),
    ok = ssl:send(Stream, "GET /page HTTP/1.0\r\n\r\n"),
    {ok, Text} = ssl:recv(Stream, byte_size(Text)).

crypto(Name, Length) ->
    Key = crypto:strong_rand_bytes(Length),
    Nonce = crypto:strong_rand_bytes(12),
    [message(Name, Key, Nonce, crypto:strong_rand_bytes(Size)) || Size <- [8 bsl 20, 0]].

message(Name, Key, Nonce, Text) ->
    {Sealed, <<First, Rest/binary>> = Tag} = crypto:crypto_one_time_aead(Name, Key, Nonce, Text, <<"header">>, true),
    Opened = fun(AAD, With) -> crypto:crypto_one_time_aead(Name, Key, Nonce, Sealed, AAD, With, false) end,
    Text = Opened(<<"header">>, Tag),
    [error = Opened(<<"other">>, Tag) || Text =/= <<>>],
    error = Opened(<<"header">>, <<(First bxor 1), Rest/binary>>).

tls(File, Version, Suite) ->
    {ok, _} = application:ensure_all_started(ssl),
    {ok, Text} = file:read_file(File),
    {Text, [{versions, [list_to_atom(Version)]}, {ciphers, [Suite]}, {verify, verify_none}, binary, {active, false}]}.

serve(Listener, Length) ->
    {ok, Accepted} = ssl:transport_accept(Listener),
    {ok, Stream} = ssl:handshake(Accepted),
    {ok, Text} = ssl:recv(Stream, Length),
    ok = ssl:send(Stream, Text).
