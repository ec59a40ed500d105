"""What `why.py` says of a job of `circuit`: its gates, its outputs, and its layers beside those of a build. Unproved."""
import truth
from phrases import counted, words

MOST_LAYERS, MOST_GATES = 32, 256


def items(value):
    return list(value.items())


def sent_layer(case, layer):
    """A layer of the proof in a job."""
    return items(case.value.member("mode").member("check").member("layers"))[layer]


# ---- The circuit and its outputs

def misfit(case):
    told, layers = case.told, case.value.member("layers")
    if told["fault"] == "depth":
        case.say(f"At {case.at(layers.start)}, there are {counted(told['layers'], 'layer')}. A circuit has 1 to {MOST_LAYERS}.")
    elif told["fault"] == "width":
        gates = [*items(layers), case.value.member("inputs")]
        what = "input" if told["layer"] == len(gates) - 1 else "gate"
        case.say(f"At {case.at(gates[told['layer']].start)}, layer {told['layer']} has {counted(told['length'], what)}. Each layer, and the inputs below "
                 f"the last one, has 1, 2, 4 and so on up to {MOST_GATES}.")
    elif told["fault"] == "wire":
        below = case.job()["layers"][told["layer"] + 1:][:1] or [case.job()["inputs"]]
        gate = items(items(layers)[told["layer"]])[told["gate"]]
        case.say(f"At {case.at(gate.start)}, gate {told['gate']} of layer {told['layer']} is {gate.shown()}. Its places are counted from 0, and the layer "
                 f"below has {counted(len(below[0]), 'value')}.")
    else:
        case.say(f"At {case.at(case.value.member('outputs').start)}, there are {counted(told['actual'], 'output')}; layer 0 has "
                 f"{counted(told['expected'], 'gate')}, each with one output.")


def say_outputs(case, most=20):
    """A line for each false output, of many the first ones; whether all are true."""
    places, true = items(case.value.member("outputs")), truth.true_outputs(case.job())
    false = [(n, said, it) for n, (said, it) in enumerate(zip(case.job()["outputs"], true)) if said != it]
    for number, claimed, it in false[:most]:
        case.say(f"Output {number}, at {case.at(places[number].start)}, is false: it claims {claimed}, and {it} is the value of gate {number} of layer 0.")
    if len(false) > most:
        case.say(f"{len(false) - most} more outputs are false.")
    if false:
        case.say("./sumcheck --fill writes the job with true values.")
    return not false


# ---- Layers beside those of a build

def true_build(case):
    """A build of the true outputs under the same draws, or none where it finds no witness: under a script no draw goes by what is sent."""
    job = case.job() | {"outputs": truth.true_outputs(case.job()), "mode": "build"}
    status, told = truth.built("circuit", job if job["challenger"] == "hash" else job | {"bits": 0})
    return told["layers"] if status == 0 else None


def difference(case, layer, true):
    """What differs first in a layer of the proof from that of a build, if anything does."""
    place, sent = sent_layer(case, layer), case.job()["mode"]["check"]["layers"][layer]
    rounds = items(place.member("rounds"))
    for number, (values, it) in enumerate(zip(sent["rounds"], true["rounds"])):
        if values != it["values"]:
            return (f"Round {number} of layer {layer} is the first that differs: it sends {words(values)}, at {case.at(rounds[number].start)}, and a build of "
                    f"the true outputs under the same draws sends {words(it['values'])}.")
        witness = sent["witnesses"][number] if number < len(sent["witnesses"]) else None
        if "witness" in it and witness is not None and witness != it["witness"]:
            return (f"Up to round {number} of layer {layer} the values are those of a build; the witness there is {witness}, and {it['witness']} is the least "
                    "number that passes. After another witness the draws are others too, so what follows is not compared.")
    ends = [sent["left"], sent["right"]], [true["left"], true["right"]]
    if ends[0] != ends[1]:
        return (f"The rounds of layer {layer} are those of a build of the true outputs under the same draws; its left and right, at {case.at(place.start)}, are "
                f"{words(ends[0])}, and those of the build are {words(ends[1])}.")
    return None


def say_layers(case, true_outputs):
    """Compares the layers that were handed in with a build of the true outputs, where it has the same draws."""
    if case.job()["challenger"] == "hash" and not true_outputs:
        case.say("Under \"hash\" the draws go by the outputs, so that rounds of the true ones are others, and nothing is compared.")
        return
    built = true_build(case)
    if built is None:
        case.say("A build of this job finds a round without a witness, so nothing is compared.")
        return
    common = min(len(built), len(case.job()["mode"]["check"]["layers"]))
    found = next((it for it in (difference(case, layer, built[layer]) for layer in range(common)) if it), None)
    case.say(found or f"What can be compared of {counted(common, 'layer')} is as in a build of the true outputs under the same draws.")


def refuted(case):
    layer, last = case.told["layer"], len(case.job()["layers"])
    case.say(f"The claim on the inputs, {case.told['input']}, is not their weighted sum." if layer == last else
             f"What the rounds of layer {layer} leave is not what its gates make of its left and right.")
    true_outputs = say_outputs(case)
    case.say("Every output is true." if true_outputs else "So a proof is refuted unless a draw is lucky, whatever rounds it sends.")
    say_layers(case, true_outputs)


def lucky_draw(case):
    """The draw that a lucky verdict names."""
    told, layers = case.told["lucky"], case.told["layers"]
    if "round" in told:
        drawn = layers[told["layer"]]["rounds"][told["round"]]["challenge"]
        return f"the challenge of round {told['round']} of layer {told['layer']}, which is {drawn},"
    if told["layer"] == 0:
        return "the first draw, by whose powers the outputs are weighed,"
    return f"the merge challenge of layer {told['layer'] - 1}, which is {layers[told['layer'] - 1]['merge']},"


# ---- Proofs

PROOFS = {
    "layers": "A proof of this job has {expected} layers, as many as the circuit, and here are {actual}.",
    "rounds": "Layer {layer} of a proof of this job has {expected} rounds, two for each time that the values below can be halved, and here are {actual}.",
    "witnesses": "Layer {layer} of a proof of this job has {expected} witnesses, one for each round where bits is above 0, and here are {actual}.",
    "width": "Round {round} of layer {layer} sends {actual} of {expected} values, those of its polynomial at 0 and at 2.",
    "witness": "The witness of round {round} of layer {layer} does not pass the test of {bits} bits at what was shown before it: the outputs, and all "
               "that was sent and drawn so far.",
}


def proof_refused(case):
    told = case.told
    case.say(PROOFS[told["cause"]].format(**told))
    if told["cause"] != "layers":
        case.say(f"The layer stands at {case.at(sent_layer(case, told['layer']).start)}.")
    if told["cause"] != "width":
        say_layers(case, say_outputs(case))


def tests_before(case):
    """How many tests stand before that of a round without a witness."""
    job, told = case.job(), case.told
    below = [*map(len, job["layers"]), len(job["inputs"])][1:]
    return sum(2 * (count.bit_length() - 1) for count in below[:told["layer"]]) + told["round"]
