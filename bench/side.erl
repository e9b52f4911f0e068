%% RabbitMQ's own parser and generator as a side of bench/measure.py, which takes the commands of driver.rs.
-module(side).
-export([main/0]).

main() ->
    io:setopts([{binary, true}]),
    io:put_chars("erlang.read erlang.write\n"),
    loop({<<>>, none}).

loop(State) ->
    case io:get_line("") of
        eof -> halt(0);
        Line -> loop(serve(string:lexemes(string:trim(Line), " "), State))
    end.

serve([<<"load">>, Path], _) ->
    {ok, Input} = file:read_file(Path),
    io:put_chars("ok\n"),
    {Input, read(Input)};
serve([<<"make">>, Lane, Path], {Input, Table}) ->
    io:format("~b~n", [make(Lane, Path, Input, Table)]),
    {Input, Table};
serve([<<"time">>, Lane, Times], {Input, Table}) ->
    Start = erlang:monotonic_time(nanosecond),
    repeat(Lane, binary_to_integer(Times), Input, Table),
    io:format("~b~n", [erlang:monotonic_time(nanosecond) - Start]),
    {Input, Table}.

make(_, _, _, none) -> -1;
make(<<"erlang.read">>, _, Input, _) -> byte_size(Input);
make(_, Path, _, Table) ->
    Written = write(Table),
    ok = file:write_file(Path, Written),
    byte_size(Written).

repeat(_, 0, _, _) -> ok;
repeat(<<"erlang.read">> = Lane, Times, Input, Table) -> read(Input), repeat(Lane, Times - 1, Input, Table);
repeat(Lane, Times, Input, Table) -> write(Table), repeat(Lane, Times - 1, Input, Table).

%% Reads table by table up to the end, and returns the last.
read(<<$F, Size:32, Body:Size/binary>>) -> rabbit_binary_parser:parse_table(Body);
read(<<$F, Size:32, Body:Size/binary, Rest/binary>>) -> rabbit_binary_parser:parse_table(Body), read(Rest);
read(_) -> none.

write(Table) ->
    Body = iolist_to_binary(rabbit_binary_generator:generate_table(Table)),
    <<$F, (byte_size(Body)):32, Body/binary>>.
