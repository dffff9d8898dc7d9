# A project with the store, as docs/erlang-release.md shows it. YOYOASH is the folder of the package.
defmodule Shop.MixProject do
  use Mix.Project

  def project do
    [app: :shop, version: "1.0.0", elixir: "~> 1.14", deps: [{:yoyoash, path: System.fetch_env!("YOYOASH")}]]
  end

  def application, do: [mod: {Shop, []}]
end
