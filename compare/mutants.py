#!/usr/bin/env python3
"""Wrong models of document 01, each a small step from the right one, that the comparison must tell apart.

    mutants.py check JUDGE LIST             each must differ from a stored answer
    mutants.py choose JUDGE SEEDS > FILE    look for a seed that shows each, as lines of LIST/chosen.txt
    mutants.py choose JUDGE SEEDS WORDS     the same for those with these words in their names

Each line below changes one place of model.py; the changed model then stands in for a candidate. The program
ends with 1 if a change is not seen.
"""

import os
import subprocess
import sys
import tempfile

HERE = os.path.dirname(os.path.abspath(__file__))
sys.path.insert(0, HERE)
sys.dont_write_bytecode = True
from mutants_job import JOB_MUTANTS

# Name, then old and new text, once or more.
#
# Not among them, because no input shows them: a donor's new temperature for its old one (donors lie below and
# are refilled later); leaving out that a filled layer is full (nobody above takes from it); a surplus over the
# layers above the set point only (mixed layers are in order); and, while all layers are equal, going on to the
# next donor, or taking nothing from the feed, with a lack above 0 but wide-close to it, or dividing a filled
# layer's heat by the layer volume (layer volume, rest and lack share one grid of doubles, so a lack that closes
# is exactly 0 and a filled layer is exactly full).
MUTANTS = [
    ("offer not added to 0", "0.0 + heater.rated * tank.step_length", "heater.rated * tank.step_length"),
    ("energy grouped from the right", "tank.density * tank.specific_heat * share * (layers[i] - cold(feed, wanted))",
     "tank.density * (tank.specific_heat * (share * (layers[i] - cold(feed, wanted))))"),
    ("share's energy by the feed", "(layers[i] - cold(feed, wanted))", "(layers[i] - feed)"),
    ("share's energy by cold of the share", "(layers[i] - cold(feed, wanted))", "(layers[i] - cold(feed, share))"),
    ("rest's energy is nothing", "rest * (feed - cold(feed, rest))", "rest * 0.0"),
    ("rest's energy by cold of the event", "(feed - cold(feed, rest))", "(feed - cold(feed, wanted))"),
    ("rest only if not wide-close to 0", "if rest > 0.0:", "if rest > 0.0 and not wide(rest, 0.0):"),
    ("rest not counted in the volume drawn", "totals.drawn += rest", "pass"),
    ("weighted sum event by event", "    rest = wanted\n", "    rest = wanted\n    before, totals.weighted = totals.weighted, 0.0\n",
     "    return holds, energy, tank", "    totals.weighted = before + totals.weighted\n    return holds, energy, tank"),
    ("charges taken off one by one", "charged = [0.0] * tank.count", "charged = [()] * tank.count",
     "[a + b for a, b in zip(charged, done.charges)]", "[a + (b,) for a, b in zip(charged, done.charges)]",
     "loss - charged[i]", "__import__('functools').reduce(lambda x, y: x - y, charged[i], loss)"),
    ("cold's sums folded: feed x v / v", "div(sum2([feed * v]), sum2([v]))", "div(feed * v, v)"),
    ("a layer gives all only if smaller", "if holds[i] < rest or narrow(holds[i], rest):", "if holds[i] < rest:"),
    ("a layer gives all if wide-close", "narrow(holds[i], rest)", "wide(holds[i], rest)"),
    ("emptied layers give", "        if empty(holds[i]):\n            continue\n", ""),
    ("draw stops only at or below 0", "        if empty(rest):\n            break", "        if rest <= 0.0:\n            break"),
    ("volume used is the volume wanted", "tank.volume - sum2(holds)", "wanted"),
    ("volume used by a plain sum", "tank.volume - sum2(holds)", "tank.volume - sum(holds)"),
    ("energy runs through all events", "    energy = 0.0\n    for i in", "    energy = totals.energy\n    for i in",
     "        energy += event_energy", "        energy = totals.energy = event_energy", "    drawn = 0.0\n", "    drawn = 0.0\n    energy = 0.0\n"),
    ("the filling ends only at a lack at or below 0", "        if empty(lack):\n            break\n        heat", "        if lack <= 0.0:\n            break\n        heat"),
    ("entering at the feed", "entering = cold(feed, lack)", "entering = feed"),
    ("coldest without the layer's own", "coldest = layers[i]", "coldest = layers[i] if holds[i] > 0.0 else INF"),
    ("entering compared with the own layer only", "if layers[j] < coldest:", "if False:"),
    ("entering at least as warm", "if entering > coldest:", "if entering >= coldest:"),
    ("mixing only if the feed is warmer", "if entering > coldest:", "if feed > coldest:"),
    ("refill's heat from the feed first", "heat = holds[i] * layers[i]\n", "heat = 0.0 + holds[i] * layers[i]\n"),
    ("no mixing after an event", "        if mixing:", "        if False:"),
    ("mix strict inversions only", "layers[i] > layers[i + 1] or narrow(layers[i], layers[i + 1])", "layers[i] > layers[i + 1]"),
    ("mix wide-close pairs", "narrow(layers[i], layers[i + 1])", "wide(layers[i], layers[i + 1])"),
    ("mean of members only", "sum2(volumes[k] * layers[k] * group[k] for k in range(count))", "sum2(volumes[k] * layers[k] for k in range(count) if group[k])"),
    ("mean grouped from the right", "volumes[k] * layers[k] * group[k] for", "volumes[k] * (layers[k] * group[k]) for"),
    ("mean by plain sums", "sum2(volumes[k] * layers[k] * group[k] for k in range(count))", "sum(volumes[k] * layers[k] * group[k] for k in range(count))"),
    ("volume of a mean by a plain sum", "sum2(volumes[k] * group[k] for k in range(count))", "sum(volumes[k] * group[k] for k in range(count))"),
    ("mean summed from the top", "sum2(volumes[k] * layers[k] * group[k] for k in range(count))", "sum2(volumes[k] * layers[k] * group[k] for k in reversed(range(count)))"),
    ("mean without volumes", "sum2(volumes[k] * layers[k] * group[k] for k in range(count)),\n                    sum2(volumes[k] * group[k] for k in range(count)),",
     "sum2(layers[k] * group[k] for k in range(count)),\n                    sum2(group[k] for k in range(count)),"),
    ("rounds counted from 0", "return layers, rounds", "return layers, rounds - 1"),
    ("ordered strictly", "all(layers[i] <= layers[i + 1]", "all(layers[i] < layers[i + 1]"),
    ("switch-on below only", "begin[thermostat_layer] < lower or narrow(begin[thermostat_layer], lower)", "begin[thermostat_layer] < lower"),
    ("switch-on wide", "narrow(begin[thermostat_layer], lower)", "wide(begin[thermostat_layer], lower)"),
    ("switch-on by the heater's layer", "        begin[thermostat_layer] < lower or narrow(begin[thermostat_layer], lower)", "        begin[heater_layer] < lower or narrow(begin[heater_layer], lower)"),
    ("flag kept without an upper set point", "    if upper is None:\n        flag = False\n    elif", "    if False:\n        pass\n    elif upper is not None and"),
    ("gain grouped otherwise", "div(offers[i], heat_capacity)", "div(div(offers[i], tank.layer_volume), tank.density * tank.specific_heat)"),
    ("mixing only if on", "mixed, rounds = mix([tank.layer_volume] * count, heated)", "mixed, rounds = mix([tank.layer_volume] * count, heated) if flag else (heated, 1)"),
    ("h divided in turn", "(1000.0 * tank.standby) / (24.0 * 45.0)", "1000.0 * (tank.standby / (24.0 * 45.0))"),
    ("loss grouped h x (density x heat)", "(h * tank.density * tank.specific_heat)", "(h * (tank.density * tank.specific_heat))"),
    ("loss: layer share 1 / layers", "div(tank.layer_volume, tank.volume)", "(1.0 / count)"),
    ("loss grouped from the right", "            * (counted - tank.ambient)\n            * tank.step_length", "            * ((counted - tank.ambient)\n            * tank.step_length)"),
    ("charges taken off before the step length", "loss = max_of_2(0.0, loss - charged[i])", "loss = max_of_2(0.0, loss) - charged[i]"),
    ("loss at least 0.0, never -0.0", "max_of_2(0.0, loss - charged[i])", "(loss - charged[i] if loss - charged[i] > 0.0 else 0.0)"),
    ("charges not taken off", "loss - charged[i])", "loss)"),
    ("charges added without 0 first", "charged = [0.0] * tank.count", "charged = [-0.0] * tank.count"),
    ("warmed if above", "mixed[i] > begin[i] and not wide(mixed[i], begin[i])", "mixed[i] > begin[i]"),
    ("warmed narrow", "not wide(mixed[i], begin[i])", "not narrow(mixed[i], begin[i])"),
    ("warmed against the step's layers", "mixed[i] > begin[i] and not wide(mixed[i], begin[i])", "mixed[i] > tank.layers[i] and not wide(mixed[i], tank.layers[i])"),
    ("loss of a warmed layer at its own temperature", "min_of_2(mixed[i], upper) if warmed and upper is not None else mixed[i]", "mixed[i]"),
    ("all layers counted at the upper set point", "min_of_2(mixed[i], upper) if warmed and upper", "min_of_2(mixed[i], upper) if upper"),
    ("equal to upper: the first", "return first if first < second else second", "return first if first <= second else second"),
    ("equal maximum: the first", "return first if first > second else second", "return first if first >= second else second"),
    ("limit: any layer above", "if warmed and upper is not None and mixed[i] > upper and not wide(mixed[i], upper):", "if upper is not None and mixed[i] > upper and not wide(mixed[i], upper):"),
    ("limit: also when wide-close", "and mixed[i] > upper and not wide(mixed[i], upper):\n            after", "and mixed[i] > upper:\n            after"),
    ("limited layer loses too", "after.append(upper)", "after.append(upper - div(loss, heat_capacity))"),
    ("limited layer's loss not counted", "            after.append(upper)", "            after.append(upper)\n            losses[i] = 0.0"),
    ("drop grouped otherwise", "after.append(mixed[i] - div(loss, heat_capacity))", "after.append(div(heat_capacity * mixed[i] - loss, heat_capacity))"),
    ("surplus only if the heater's layer was warmed", "    if upper is not None and mixed[heater_layer] > upper and", "    if upper is not None and mixed[heater_layer] > begin[heater_layer] and mixed[heater_layer] > upper and"),
    ("surplus from the bottom", "for i in range(heater_layer, count):", "for i in range(count):"),
    ("surplus by Sum2", "surplus += heat_capacity * mixed[i] - losses[i] - heat_capacity * upper", "pass\n        surplus = sum2(heat_capacity * mixed[i] - losses[i] - heat_capacity * upper for i in range(heater_layer, count))"),
    ("surplus grouped otherwise", "heat_capacity * mixed[i] - losses[i] - heat_capacity * upper", "heat_capacity * (mixed[i] - upper) - losses[i]"),
    ("surplus: set point taken off first", "heat_capacity * mixed[i] - losses[i] - heat_capacity * upper", "heat_capacity * mixed[i] - heat_capacity * upper - losses[i]"),
    ("heat of a layer grouped otherwise", "heat_capacity * mixed[i] -", "tank.density * tank.specific_heat * (tank.layer_volume * mixed[i]) -"),
    ("input by a plain sum", "offered = sum2(offers)", "offered = offers[heater_layer]"),
    ("adjusted without a floor", "max_of_2(0.0, min_of_2(offered - surplus, offered))", "min_of_2(offered - surplus, offered)"),
    ("adjusted without a ceiling", "max_of_2(0.0, min_of_2(offered - surplus, offered))", "max_of_2(0.0, offered - surplus)"),
    ("supply of a figure wide-close to 0", "demand = 0.0 if wide(adjusted, 0.0) else adjusted", "demand = adjusted"),
    ("the report keeps the cleared figure", "    supplied = min_of_2", "    adjusted = demand\n    supplied = min_of_2"),
    ("supply 0 where off", "    supplied = min_of_2(demand, heater.rated * tank.step_length)", "    supplied = min_of_2(demand, heater.rated * tank.step_length) if flag else 0.0"),
    ("supply min the other way round", "min_of_2(demand, heater.rated * tank.step_length)", "min_of_2(heater.rated * tank.step_length, demand)"),
    ("switch-off above only", "after[thermostat_layer] > upper or narrow(after[thermostat_layer], upper)", "after[thermostat_layer] > upper"),
    ("switch-off wide", "narrow(after[thermostat_layer], upper)", "wide(after[thermostat_layer], upper)"),
    ("switch-off by the mixed layers", "after[thermostat_layer] > upper or narrow(after[thermostat_layer], upper)", "mixed[thermostat_layer] > upper or narrow(mixed[thermostat_layer], upper)"),
    ("switch-off by the heater's layer", "after[thermostat_layer] > upper or narrow(after[thermostat_layer], upper)", "after[heater_layer] > upper or narrow(after[heater_layer], upper)"),
    ("ties worked in reverse", "sorted(range(len(tank.heaters)), key=lambda i: tank.heaters[i].position)", "sorted(reversed(range(len(tank.heaters))), key=lambda i: tank.heaters[i].position)"),
    ("heaters in the given order", "sorted(range(len(tank.heaters)), key=lambda i: tank.heaters[i].position)", "list(range(len(tank.heaters)))"),
    ("losses by a plain sum", "sum2(losses), rounds", "sum(losses), rounds"),
    ("recoverable by heater", "        lost += done.losses", "        lost += done.losses * 0.75"),
    ("recoverable by Sum2", "    recoverable = lost * 0.75", "    recoverable = sum2(t.losses for t in turns) * 0.75"),
    ("average of nothing is the initial temperature", "average = layers[-1] if", "average = tank.initial if"),
    ("average of nothing narrow", "wide(totals.drawn, 0.0)", "narrow(totals.drawn, 0.0)"),
    ("average by the bottom layer", "average = layers[-1] if", "average = layers[0] if"),
    ("average of nothing after the heaters", "    recoverable = lost * 0.75", "    if wide(totals.drawn, 0.0):\n        average = layers[-1]\n    recoverable = lost * 0.75"),
    ("layers not carried to the next heater", "        layers = done.layers\n", "        last = done.layers\n"),
    ("10 not looked at after an event", "        if not all(map(finite, layers)) or not finite(energy) or not finite(used):\n            raise Refusal(10)", "        pass"),
    ("10 not looked at after a turn", "        if not all(map(finite, layers)) or not all(map(finite, figures)):\n            raise Refusal(10)", "        pass"),
    ("10 not looked at at the end", "    if not finite(average) or not finite(recoverable):\n        raise Refusal(10)", "    pass"),
    ("an infinity close to any", "    if abs(a) == INF or abs(b) == INF:\n        return False\n", ""),
    ("tolerance of the first", "1e-9 * max(abs(a), abs(b))", "1e-9 * abs(a)"),
    ("tolerance of the second", "1e-9 * max(abs(a), abs(b))", "1e-9 * abs(b)"),
    ("tolerance strict", "distance <= e or distance <= 1e-9", "distance < e or distance < 1e-9"),
    ("tolerance of the sum", "1e-9 * max(abs(a), abs(b))", "1e-9 * (abs(a) + abs(b)) * 0.5"),
]

# Quick ones first.
SHAPES = ["mix", "zeros", "near", "exact", "put", "range", "overflow", "hot-feed", "hysteresis", "day", "edges", "special", "tiny", "lid"]


def difference(judge, words, model):
    """What `judge` prints of the first difference, or nothing; a model that stops shows nothing."""
    command = [judge] + words + ["server", sys.executable, model, "serve"]
    if words[0] == "against":
        command = [judge, "against", "server"] + words[1:] + [sys.executable, model, "serve"]
    run = subprocess.run(command, stdout=subprocess.PIPE, stderr=subprocess.PIPE, text=True)
    if run.returncode == 1:
        return run.stdout.splitlines()[0]
    if run.returncode != 0:
        print("the judge or the model stopped: " + run.stderr, file=sys.stderr)
    return None


def main():
    mode, judge, where = sys.argv[1:4]
    chosen = [mutant for mutant in MUTANTS + JOB_MUTANTS if all(words in mutant[0] for words in sys.argv[4:])]
    source = open(os.path.join(HERE, "model.py")).read()
    unseen = 0
    for number, (name, *texts) in enumerate(chosen):
        wrong = source
        for old, new in zip(texts[::2], texts[1::2]):
            assert old in wrong, "not in model.py: " + name
            wrong = wrong.replace(old, new)
        with tempfile.NamedTemporaryFile("w", suffix=".py", delete=False) as changed:
            changed.write(wrong)
        seen = None
        if mode == "check":
            seen = difference(judge, ["list", "replay", where], changed.name)
        else:
            for shape in SHAPES:
                found = difference(judge, ["against", shape, "0", where], changed.name)
                if found:
                    seen = found.replace("first difference: shape ", "").replace(", seed", "")
                    print("%s %s" % (seen, name), flush=True)
                    break
        os.unlink(changed.name)
        if seen is None:
            unseen += 1
        print("%d of %d: %s: %s" % (number + 1, len(chosen), name, seen or "NOT SEEN"), file=sys.stderr, flush=True)
    print("%d changes, %d not seen" % (len(chosen), unseen), file=sys.stderr)
    sys.exit(1 if unseen else 0)


if __name__ == "__main__":
    main()
