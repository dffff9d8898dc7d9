# Each test has a store of its own, so tests run at the same time with tables of one name.
for name <- [ApplesTest, PearsTest] do
  defmodule name do
    use ExUnit.Case, async: true

    setup context do
      store = :"#{context.module}.Store"
      start_supervised!(:yoyoash.child_spec(%{name: store}))
      start_supervised!({Shop.Prices, store: store})
      %{store: store}
    end

    test "a store is empty first", %{store: store} do
      assert Shop.Prices.all(store) == []
      assert Shop.Prices.put(store, :apple, 30)
      assert Shop.Prices.all(store) == [apple: 30]
    end

    test "and in the next test again", %{store: store} do
      assert Shop.Prices.all(store) == []
      assert Shop.Prices.put(store, :pear, 20)
    end
  end
end
