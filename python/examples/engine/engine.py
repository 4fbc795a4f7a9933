# %% [markdown]
# # An engine controller
#
# A knock control was added, and another task is late now. This notebook leads from the question to a mended model.
# Run it in `python/examples/engine`, cell by cell, or as a script. All times are in ticks, here microseconds.

# %%
from pathlib import Path

import matplotlib

if __name__ == "__main__" and "get_ipython" not in globals():
    matplotlib.use("Agg")

import chainlat
from chainlat.plots import plot_bounds, plot_margin, plot_responses, plot_sweep

FOLDER = Path(__file__).resolve().parent if "__file__" in globals() else Path.cwd()
ENGINE = FOLDER.parents[2] / "examples" / "engine" / "engine.toml"

# %% [markdown]
# ## Is it in time?

# %%
found = chainlat.verify(ENGINE)
print(found.sum)
verdicts = found.to_frame()
print(verdicts[verdicts.verdict != "met"].to_string(index=False))

# %% [markdown]
# ## Why is Monitor late?

# %%
reason = chainlat.why(ENGINE, "response", "Monitor")
print(reason.window)
for share in reason.shares:
    print(share)

# %% [markdown]
# No priorities on the core help, so a task has to move.

# %%
print(chainlat.order(ENGINE))
print(chainlat.explain(ENGINE).cores)

# %% [markdown]
# ## What would mend it?
#
# Move it below the gateway of the core that has the most time left. The comments of the file stay where they are.

# %%
model = chainlat.Model.load(ENGINE)
monitor = model.task("Monitor")
monitor.core, monitor.priority = "Comms", 2
mended = chainlat.verify(model)
assert mended.is_met
print(mended.sum)
plot_bounds(model)

# %% [markdown]
# ## Could offsets make the watchdog's answer faster?

# %%
frame = chainlat.sweep(
    model,
    {"offset ms20 {}": range(0, 20000, 4000), "offset ms10 {}": range(0, 10000, 2500)},
    workers=2,
    progress=False,
)
print(frame.sort_values("watchdog").head(3).to_string(index=False))
plot_sweep(frame, "offset ms20", "watchdog")

# %% [markdown]
# ## How much may it grow?

# %%
print(chainlat.margin(model).all)
plot_margin(model)

# %% [markdown]
# ## The worst case, as a picture and as a recording

# %%
run = chainlat.witness(model, "reaction", "request_to_watchdog")
picture = chainlat.draw(model, run, 23000, 67000)
plot_responses(chainlat.observe(model, run))
picture
