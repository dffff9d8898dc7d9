# An application with a store of its own, `Shop.Store`. Its functions take the store, so that a test can bring another.
defmodule Shop do
  use Application

  def start(_type, _args) do
    Supervisor.start_link([:yoyoash.child_spec(%{name: Shop.Store}), Shop.Prices], strategy: :rest_for_one)
  end

  def show do
    kind = if :yoyoash_nif.is_loaded(), do: :nif, else: :port
    true = Shop.Prices.put(Shop.Store, :apple, 30)
    IO.puts("#{kind}: #{inspect(Shop.Prices.all(Shop.Store))}")
  end
end

# The owner of the table of prices.
defmodule Shop.Prices do
  use Agent

  def start_link(options), do: Agent.start_link(fn -> new(Keyword.get(options, :store, Shop.Store)) end)
  def put(store, name, price), do: :yoyoash.call(store, :insert, [:prices, {name, price}])
  def all(store), do: Enum.sort(:yoyoash.call(store, :tab2list, [:prices]))

  defp new(store), do: :yoyoash.call(store, :new, [:prices, [:named_table, :public]])
end
