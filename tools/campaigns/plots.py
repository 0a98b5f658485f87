"""Draws columns of rows as SVG, by gnuplot or matplotlib.

Where several rows have one X, a curve is that of the medians, in a band from the least to the greatest. X alone is drawn as a
distribution.
"""

import csv
import dataclasses
import importlib.util
import pathlib
import shutil
import statistics
import subprocess
import typing

from campaigns.faults import PlanFault

TOOLS = ("gnuplot", "matplotlib")
NEITHER = "neither gnuplot nor matplotlib is installed (Debian: apt-get install gnuplot-nox, or python3-matplotlib)"
COLOURS = ("#1b6ca8", "#c8501e", "#2e8b57", "#7b3f98", "#8a6d1d", "#555555")
BARS = 30
LABELS = {
    "bus.tsl": "slot time tsl (bit times)",
    "bus.tid1": "idle time tid1 (bit times)",
    "bus.lag": "lag (bit times)",
    "bus.ttd": "cable delay ttd (bit times)",
    "bus.ttr": "target rotation time ttr (bit times)",
    "bus.gap": "GAP factor",
    "bus.retries": "retries",
    "load_per_mille": "load (per mille)",
    "rotation_least": "least rotation (bit times)",
    "rotation_mean": "mean rotation (bit times)",
    "rotation_greatest": "greatest rotation (bit times)",
    "tokens": "tokens",
    "repeats": "tokens and requests sent again",
    "unanswered": "requests without an answer",
    "claims": "claims of the token",
    "without_token": "longest time without a token (bit times)",
    "never_dead_bound": "its proved bound (bit times)",
    "rotation_bound": "proved bound of a settled ring (bit times)",
    "bound_percent": "longest time without a token (percent of its bound)",
}


@dataclasses.dataclass(frozen=True)
class Plot:
    rows: pathlib.Path
    x: str
    ys: tuple[str, ...]
    # A column that has a curve for each of its values.
    by: str
    title: str
    # The axes with a logarithmic scale: "", "x", "y" or "xy".
    log: str


@dataclasses.dataclass(frozen=True)
class Point:
    x: float
    median: float
    least: float
    greatest: float


@dataclasses.dataclass(frozen=True)
class Curve:
    label: str
    points: list[Point]

    @property
    def has_band(self) -> bool:
        return any(point.least < point.greatest for point in self.points)


@dataclasses.dataclass(frozen=True)
class Bar:
    middle: float
    count: int


def draw(plot: Plot, out: pathlib.Path, wanted: str | None) -> None:
    tools = [tool for tool in (TOOLS if wanted is None else (wanted,)) if is_there(tool)]
    if not tools:
        raise PlanFault(f"campaign: {NEITHER if wanted is None else f'{wanted} is not installed'}")
    table = rows_of(plot)
    if plot.ys:
        curves = [curve for y in plot.ys for curve in curves_of(table, plot, y)]
        (curves_by_gnuplot if tools[0] == "gnuplot" else curves_by_matplotlib)(plot, curves, out)
    else:
        bars = bars_of([float(row[plot.x]) for row in table if row[plot.x]])
        (bars_by_gnuplot if tools[0] == "gnuplot" else bars_by_matplotlib)(plot, bars, out)


def is_there(tool: str) -> bool:
    return shutil.which(tool) is not None if tool == "gnuplot" else importlib.util.find_spec(tool) is not None


def rows_of(plot: Plot) -> list[dict[str, str]]:
    """The rows, where X and all Y are columns of numbers."""
    try:
        with open(plot.rows, newline="") as file:
            table = list(csv.DictReader(file))
    except (OSError, UnicodeDecodeError) as fault:
        raise PlanFault(f"{plot.rows}:1: the rows cannot be read: {fault}; allowed: a file that `campaign run` wrote") from fault
    for column in (plot.x, *plot.ys, *([plot.by] if plot.by else [])):
        if not table or column not in table[0]:
            raise PlanFault(f"{plot.rows}:1: no column '{column}'; allowed: {', '.join(table[0]) if table else 'rows'}")
    for column in (plot.x, *plot.ys):
        for number, row in enumerate(table, 2):
            if row[column] and not is_number(row[column]):
                raise PlanFault(f"{plot.rows}:{number}: '{row[column]}' in column '{column}'; allowed: a number, or nothing")
    return table


def is_number(text: str) -> bool:
    try:
        float(text)
    except ValueError:
        return False
    return True


def curves_of(table: list[dict[str, str]], plot: Plot, y: str) -> list[Curve]:
    """The curve of a column, or those by the values of another column."""
    if not plot.by:
        return [curve_of(table, plot.x, y, label_of(y))]
    split: dict[str, list[dict[str, str]]] = {}
    for row in table:
        split.setdefault(row[plot.by], []).append(row)
    prefix = f"{label_of(y)}, " if len(plot.ys) > 1 else ""
    return [curve_of(split[value], plot.x, y, f"{prefix}{plot.by.removeprefix('bus.')} = {value}") for value in split]


def curve_of(table: list[dict[str, str]], x: str, y: str, label: str) -> Curve:
    found: dict[float, list[float]] = {}
    for row in table:
        if row[x] and row[y]:
            found.setdefault(float(row[x]), []).append(float(row[y]))
    points = [Point(at, statistics.median(values), min(values), max(values)) for at, values in sorted(found.items())]
    return Curve(label, points)


def label_of(column: str) -> str:
    return LABELS.get(column, column.replace("_", " "))


def bars_of(values: list[float]) -> list[Bar]:
    """How many values are in each of some stretches as wide."""
    if not values:
        return []
    least, width = min(values), (max(values) - min(values)) / BARS or 1
    counts = [0] * BARS
    for value in values:
        counts[min(int((value - least) / width), BARS - 1)] += 1
    return [Bar(least + (place + 0.5) * width, count) for place, count in enumerate(counts)]


def axis_of(plot: Plot) -> str:
    """The label of the Y axis: the column's, or the unit that all have."""
    labels = [label_of(y) for y in plot.ys]
    if len(labels) == 1:
        return labels[0]
    units = {label[label.rindex("(") + 1 : -1] if label.endswith(")") else "" for label in labels}
    return min(units) if len(units) == 1 else ""


def key_of(curve: Curve, axis: str) -> str:
    """The label of a curve in the key, without what stands at the axis."""
    return curve.label.replace(f" ({axis})", "")


def least_x(plot: Plot, xs: list[float]) -> str:
    """Where the X axis begins: at 0, if that is near."""
    return "0" if xs and "x" not in plot.log and 0 <= min(xs) < max(xs) / 4 else "*"


def scripted(plot: Plot, out: pathlib.Path, y_label: str, xs: list[float], lines: list[str]) -> None:
    """Has gnuplot draw by a script."""
    head = [
        'set terminal svg size 860,520 dynamic noenhanced font "DejaVu Sans,14" background "white"',
        f"set output {quoted(str(out))}",
        "set encoding utf8",
        "set border 3 linecolor '#888888'",
        "set grid linecolor '#dddddd' linewidth 1 linetype 1",
        "set tics nomirror textcolor '#333333'",
        "set format '%.0f'",
        "set key outside top center horizontal maxcols 2 width 2 samplen 2",
        "set style fill solid",
        f"set xlabel {quoted(label_of(plot.x))}",
        f"set ylabel {quoted(y_label)} offset -0.5",
        f"set xrange [{least_x(plot, xs)}:*] noextend",
        "set lmargin 11",
        "set rmargin 4",
        *([f"set title {quoted(plot.title)}"] if plot.title else []),
        *(f"set logscale {axis}" for axis in plot.log),
        *([] if "y" in plot.log else ["set yrange [0:*]"]),
    ]
    done = subprocess.run(["gnuplot"], input="\n".join(head + lines) + "\n", text=True, capture_output=True)
    if done.returncode:
        raise PlanFault(f"campaign: gnuplot failed: {done.stderr.strip()}")


def quoted(text: str) -> str:
    return "'" + text.replace("'", "''") + "'"


def curves_by_gnuplot(plot: Plot, curves: list[Curve], out: pathlib.Path) -> None:
    axis = axis_of(plot)
    lines, drawn = [], []
    for place, (curve, colour) in enumerate(zip(curves, COLOURS * len(curves))):
        lines += [f"$c{place} << E", *(f"{point.x} {point.median} {point.least} {point.greatest}" for point in curve.points), "E"]
        if curve.has_band:
            style = "with filledcurves fillstyle transparent solid 0.13 noborder"
            drawn.append(f"$c{place} using 1:3:4 {style} linecolor '{colour}' notitle")
    for place, (curve, colour) in enumerate(zip(curves, COLOURS * len(curves))):
        key = quoted(key_of(curve, axis) if len(curves) > 1 else "")
        style = "with linespoints linewidth 2 pointtype 7 pointsize 0.5"
        drawn.append(f"$c{place} using 1:2 {style} linecolor '{colour}' title {key}")
    xs = [point.x for curve in curves for point in curve.points]
    scripted(plot, out, axis, xs, [*lines, "plot " + ", ".join(drawn)])


def bars_by_gnuplot(plot: Plot, bars: list[Bar], out: pathlib.Path) -> None:
    data = ["$bars << E", *(f"{bar.middle} {bar.count}" for bar in bars), "E"]
    boxes = f"plot $bars using 1:2 with boxes linecolor '{COLOURS[0]}' notitle"
    scripted(plot, out, "runs", [bar.middle for bar in bars], [*data, "set boxwidth 0.9 relative", boxes])


def curves_by_matplotlib(plot: Plot, curves: list[Curve], out: pathlib.Path) -> None:
    axis = axis_of(plot)

    def on(axes: typing.Any) -> None:
        for curve, colour in zip(curves, COLOURS * len(curves)):
            xs = [point.x for point in curve.points]
            axes.plot(xs, [point.median for point in curve.points], "o-", markersize=3, color=colour, label=key_of(curve, axis))
            if curve.has_band:
                least, greatest = [point.least for point in curve.points], [point.greatest for point in curve.points]
                axes.fill_between(xs, least, greatest, color=colour, alpha=0.13, linewidth=0)
        if len(curves) > 1:
            axes.legend(loc="lower center", bbox_to_anchor=(0.5, 1), ncols=2, frameon=False)

    by_matplotlib(plot, axis, on, out)


def bars_by_matplotlib(plot: Plot, bars: list[Bar], out: pathlib.Path) -> None:
    width = bars[1].middle - bars[0].middle if bars else 1

    def on(axes: typing.Any) -> None:
        axes.bar([bar.middle for bar in bars], [bar.count for bar in bars], width=0.9 * width, color=COLOURS[0])

    by_matplotlib(plot, "runs", on, out)


def by_matplotlib(plot: Plot, y_label: str, on: typing.Callable[[typing.Any], None], out: pathlib.Path) -> None:
    """Has matplotlib draw; the picture has no date, so it is the same each time."""
    import matplotlib

    matplotlib.use("svg")
    matplotlib.rcParams["svg.hashsalt"] = "ringplay"
    from matplotlib import pyplot

    figure, axes = pyplot.subplots(figsize=(8.6, 5.2))
    on(axes)
    axes.set(xlabel=label_of(plot.x), ylabel=y_label, title=plot.title, **{f"{axis}scale": "log" for axis in plot.log})
    axes.grid(color="#dddddd")
    axes.spines[["top", "right"]].set_visible(False)
    if "y" not in plot.log:
        axes.set_ylim(bottom=0)
    figure.savefig(out, bbox_inches="tight", metadata={"Date": None})
