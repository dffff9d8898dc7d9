# A registry {name, pid, port} of services, in Elixir. Its owner ends, and the heir gets the table and a message.
defmodule Services do
  # Runs the keeper: it makes the table, and is ended by a message. The table then goes to the heir.
  def keep(heir) do
    :services = :yoyoash.new(:services, [:named_table, :public, {:heir, heir, :take_over}])
    send(heir, {:kept_by, self()})
    receive do: (:stop -> :ok)
  end

  # Registers this process under a name, which is taken once.
  def register(name, port) do
    if :yoyoash.insert_new(:services, {name, self(), port}), do: :registered, else: :taken
  end

  # Returns the port of a service. A call on a table that is gone raises an ArgumentError.
  def find(name) do
    :yoyoash.lookup_element(:services, name, 3, :none)
  rescue
    ArgumentError -> :gone
  end
end

{:ok, _} = :yoyoash.start()
standby = self()
keeper = spawn(fn -> Services.keep(standby) end)
receive do: ({:kept_by, ^keeper} -> :ok)

for {name, port} <- [mail: 25, web: 80, mail: 2525] do
  IO.puts("#{name}: #{Services.register(name, port)}")
end

send(keeper, :stop)
receive do: ({:"ETS-TRANSFER", :services, ^keeper, :take_over} -> IO.puts("the heir got the registry"))
IO.puts("mail: #{Services.find(:mail)}, ftp: #{Services.find(:ftp)}")
true = :yoyoash.delete(:services)
IO.puts("after its end: #{Services.find(:mail)}")
:ok = :yoyoash.stop()
