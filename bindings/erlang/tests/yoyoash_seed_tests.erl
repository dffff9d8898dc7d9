%% Tests that the seed that a store is given is that of its hash, in the program and in the library.
%%
%% A step of the hash gives 0 if the word is the hash before it, or one word that the seed determines. So tuples of these two
%% words have one hash under that seed, and a table keeps them in one bucket: to insert them takes quadratic time. Under
%% another seed it takes as long as that of other keys.
-module(yoyoash_seed_tests).
-include_lib("eunit/include/eunit.hrl").
-import(yoyoash_help, [backends/0]).

%% The words of a key: there are two to this power of keys.
-define(WORDS, 11).
-define(MASK, (1 bsl 64 - 1)).
%% How often times are measured again, since other programs use the machine.
-define(TRIES, 5).

seed_test_() ->
    [{lists:concat(["a given seed, ", Backend]), {timeout, 300, fun() -> given_seed(Backend) end}} || Backend <- backends()].

%% The keys are chosen for the seed 7. An option and the environment give it to a store.
given_seed(Backend) ->
    Keys = keys(7),
    ?assertEqual(1 bsl ?WORDS, length(lists:usort(Keys))),
    Slow = least_time(Backend, #{seed => 7}, Keys),
    [?assert(is_faster(Backend, Options, Keys, Slow, ?TRIES)) || Options <- [#{seed => 8}, #{seed => random}, #{}]],
    ok = application:set_env(yoyoash, seed, 7),
    FromEnvironment = least_time(Backend, #{}, Keys),
    ok = application:unset_env(yoyoash, seed),
    ?assert(is_faster(Backend, #{}, Keys, FromEnvironment, ?TRIES)).

is_faster(_Backend, _Options, _Keys, _Slow, 0) -> false;
is_faster(Backend, Options, Keys, Slow, Tries) ->
    3 * time(Backend, Options, Keys) < Slow orelse is_faster(Backend, Options, Keys, Slow, Tries - 1).

least_time(Backend, Options, Keys) -> lists:min([time(Backend, Options, Keys) || _ <- lists:seq(1, 3)]).

%% Returns the microseconds in which a store inserts a list of objects.
time(Backend, Options, Keys) ->
    {ok, _} = yoyoash:start(Options#{backend => Backend}),
    t = yoyoash:new(t, [named_table]),
    Objects = [{Key} || Key <- Keys],
    {Time, true} = timer:tc(fun() -> yoyoash:insert(t, Objects) end),
    ?assertEqual(length(Keys), yoyoash:info(t, size)),
    yoyoash:stop(),
    Time.

%% Returns tuples that have one hash under a seed.
keys(Seed) ->
    Factor = folded((Seed bxor 11400714819323198485) * 15111065706836454659),
    Other = signed(rotated(Factor, 64 - 27)),
    First = signed(mixed(Factor, mixed(Factor, Factor, 1 bsl 63 + 5), ?WORDS)),
    [list_to_tuple([chosen(N, Place, First, Other) || Place <- lists:seq(0, ?WORDS - 1)]) || N <- lists:seq(0, 1 bsl ?WORDS - 1)].

%% Returns the word that is the hash so far, which is 0 after the first word, or the other one.
chosen(N, Place, _First, Other) when (N bsr Place) band 1 =:= 1 -> Other;
chosen(_N, 0, First, _Other) -> First;
chosen(_N, _Place, _First, _Other) -> 0.

mixed(Factor, Hash, Word) -> folded((Hash bxor Word) * (Factor bxor rotated(Word, 27))).

folded(Product) -> (Product bsr 64) bxor (Product band ?MASK).

rotated(Word, Bits) -> ((Word bsl Bits) bor (Word bsr (64 - Bits))) band ?MASK.

signed(Word) when Word < 1 bsl 63 -> Word;
signed(Word) -> Word - (1 bsl 64).
