//! Tests of patterns and match specifications.
use yoyoash::spec::{any, bindings, object, var, Clause, Expr, Spec};
use yoyoash::{term, Atom, Options, Reason, Store, Table, Term};

fn table_of(objects: impl IntoIterator<Item = Term>) -> Table {
    let table = Store::new().unwrap().spawn().unwrap().new_table("t", Options::new()).unwrap();
    table.insert_all(objects).unwrap();
    table
}

/// Returns the value of an expression whose variables are these two.
fn value_of(expression: impl Into<Expr>, one: impl Into<Term>, two: impl Into<Term>) -> Term {
    let table = table_of([Term::from((0, one, two))]);
    let results = table.select(Clause::new((any(), var(1), var(2))).returns(expression)).unwrap();
    results.into_iter().next().unwrap()
}

#[test]
fn each_function_has_its_value() {
    let list = || term!([1, 2]);
    for (expression, one, two, value) in [
        (var(1).is_atom(), term!(:a), term!(0), term!(true)),
        (var(1).is_integer(), term!(7), term!(0), term!(true)),
        (var(1).is_list(), list(), term!(0), term!(true)),
        (var(1).is_tuple(), term!({}), term!(0), term!(true)),
        (var(1).is_binary(), term!("a"), term!(0), term!(true)),
        (var(1).is_pid(), Term::Pid(1), term!(0), term!(true)),
        (var(1).is_reference(), Term::Tid(1), term!(0), term!(true)),
        (var(1).and(var(2)), term!(true), term!(false), term!(false)),
        (var(1).or(var(2)), term!(true), term!(false), term!(true)),
        (var(1).xor(var(2)), term!(true), term!(true), term!(false)),
        (var(1).and_also(var(2).hd()), term!(false), term!([]), term!(false)),
        (var(1).or_else(var(2).hd()), term!(true), term!([]), term!(true)),
        (!var(1), term!(true), term!(0), term!(false)),
        (var(1).eq(var(2)), list(), list(), term!(true)),
        (var(1).ne(var(2)), list(), list(), term!(false)),
        (var(1).lt(var(2)), term!(1), term!(2), term!(true)),
        (var(1).le(var(2)), term!(2), term!(2), term!(true)),
        (var(1).gt(var(2)), term!(2), term!(2), term!(false)),
        (var(1).ge(var(2)), term!(2), term!(2), term!(true)),
        (var(1) + var(2), term!(7), term!(2), term!(9)),
        (var(1) - var(2), term!(7), term!(2), term!(5)),
        (var(1) * var(2), term!(7), term!(2), term!(14)),
        (var(1) / var(2), term!(-7), term!(2), term!(-3)),
        (var(1) % var(2), term!(-7), term!(2), term!(-1)),
        (9_u64 + var(1), term!(7), term!(0), term!(16)),
        (9_usize - var(1), term!(7), term!(0), term!(2)),
        (9 * var(1), term!(7), term!(0), term!(63)),
        (-9_i8 / var(1), term!(2), term!(0), term!(-4)),
        (-9_i128 % var(1), term!(2), term!(0), term!(-1)),
        (var(1).abs(), term!(-7), term!(0), term!(7)),
        (var(1).hd(), list(), term!(0), term!(1)),
        (var(1).tl(), list(), term!(0), term!([2])),
        (var(1).length(), list(), term!(0), term!(2)),
        (var(1).element(var(2)), term!({:a, :b}), term!(2), term!(:b)),
        (var(1).size(), term!("abc"), term!(0), term!(3)),
        (bindings(), term!(1), term!(2), term!([1, 2])),
        (object(), term!(1), term!(2), term!({0, 1, 2})),
    ] {
        assert_eq!(value_of(expression.clone(), one, two), value, "{expression}");
    }
}

#[test]
fn data_in_conditions_and_results_is_itself() {
    for data in
        [term!(:"$1"), term!(:"_"), term!({:hd, []}), term!([:"$_"]), term!({}), term!("$1"), term!(true), Term::Pid(1)]
    {
        assert_eq!(value_of(data.clone(), 1, 2), data);
        let table = table_of([term!({1, (data.clone())}), term!({2, :other})]);
        let same = Clause::new((var(1), var(2))).when(var(2).eq(data)).returns(var(1));
        assert_eq!(table.select(same).unwrap(), [term!(1)]);
    }
    assert_eq!(value_of((var(1), [var(2)], Atom::new("$1")), 1, 2), term!({1, [2], :"$1"}));
}

#[test]
fn the_first_clause_that_matches_counts() {
    let table = table_of((1..5).map(|key| (key, key * 10).into()));
    let small = Clause::new((var(1), any())).when(var(1).lt(3));
    assert_eq!(table.select_count(small.clone()).unwrap(), 2);
    assert_eq!(table.select_count(Clause::new((var(1), any())).when(var(1).gt(5 - var(1)))).unwrap(), 2);
    assert_eq!(table.select_count(Spec::from([small.clone().returns(false), Clause::new(any())])).unwrap(), 2);
    assert_eq!(table.select_delete(vec![small.clone().when(var(1).gt(1)), Clause::new((any(), 40))]).unwrap(), 2);
    assert_eq!(table.match_variables((var(0), var(1))).unwrap().len(), 2);
    table.match_delete((1, any())).unwrap();
    assert_eq!(table.match_object(any()).unwrap(), [term!({3, 30})]);
}

#[test]
fn malformed_specifications_are_refused() {
    let table = table_of([]);
    let unbound = Clause::new(any()).when(var(1).gt(1));
    assert_eq!(table.select(unbound).unwrap_err().reason(), Reason::NotASpecification);
    assert_eq!(table.select(vec![]).unwrap_err().reason(), Reason::NotASpecification);
    assert_eq!(table.match_object(7).unwrap_err().reason(), Reason::NotAPattern);
}
