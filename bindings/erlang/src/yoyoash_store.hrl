%% The state of the server of a store, and what the replies that it waits for are for.

-type purpose() ::
    {caller, gen_server:from()}
    | {spawned, pid()}
    | {made, gen_server:from(), Owner :: non_neg_integer(), Heirs :: [pid()]}
    | {heir, Giver :: non_neg_integer(), Taker :: non_neg_integer()}
    | gift
    | {ended, pid(), non_neg_integer(), Asked :: [pid()]}
    | {messages, pid(), reading()}.
%% What follows after messages were read: the reply to a giver, or that a process that ended is forgotten.
-type reading() :: {gift, gen_server:from()} | {forget, pid(), non_neg_integer()} | none.

-record(store, {
    name :: atom(),
    known :: yoyoash_known:known(),
    requests :: yoyoash_requests:requests(),
    processes = yoyoash_processes:new() :: yoyoash_processes:processes(),
    %% The reply to a gift, until the gift is delivered.
    held = none :: binary() | none,
    %% The processes whose messages are in the store, since there was no memory to read them.
    undelivered = #{} :: #{pid() => true},
    %% How long a process keeps its tables after the connection to its node was lost, in milliseconds.
    grace = 0 :: non_neg_integer()
}).
