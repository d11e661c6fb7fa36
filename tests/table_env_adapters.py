"""The adapters of examples/ for Gymnasium and PettingZoo: played, and stand-ins for these packages with as much of them as the adapters
use, written from what the packages' pages say."""
import importlib
import random
import sys
import types

from measuring import want
from serving import TOP

PROGRAM = TOP / "crates/holdem_table/out/holdem_table"
L2, N3 = str(TOP / "examples/l2.game"), str(TOP / "examples/n3.game")
HANDS = 20


def legal(mask):
    return [place for place, it in enumerate(mask) if it]


def gymnasium_hands():
    """Hands of the adapter for one learner: rewards come at the end alone, and what isn't legal calls."""
    module, dice = importlib.import_module("table_gymnasium"), random.Random(1)
    env = module.TableEnv(L2, seed=3, program=PROGRAM)
    for number in range(HANDS):
        seen, info = env.reset()
        want(env.observation_space.contains(seen), f"{seen} isn't in the space")
        is_over, steps = False, 0
        while not is_over:
            want(env.table.seen.seat == 0, "it isn't the learner's turn")
            action = dice.choice(legal(info["action_mask"])) if number % 2 else dice.randrange(env.action_space.n)
            seen, reward, is_over, is_cut, info = env.step(action)
            want(not is_cut and (is_over or reward == 0.0), f"a reward of {reward} in the midst of a hand")
            want(env.observation_space.contains(seen), f"{seen} isn't in the space")
            steps += 1
        want(reward == env.table.payoffs[0] and steps >= 1, f"a reward of {reward}, and the payoff is {env.table.payoffs[0]}")
    first = [list(env.reset(seed=9)[0]) for _ in range(2)]
    want(first[0] == first[1], "the same seed deals other cards")
    env.close()


def pettingzoo_hands():
    """Hands of the adapter for all players: agents act in turn, and each is told its chips at the end."""
    module, dice = importlib.import_module("table_pettingzoo"), random.Random(1)
    env = module.TableAEC(N3, seed=3, program=PROGRAM)
    for _ in range(HANDS):
        env.reset()
        rewards, acted = {}, 0
        for agent in env.agent_iter():
            seen, reward, is_over, is_cut, _ = env.last()
            want(not is_cut and env.observation_space(agent).contains(seen), f"{seen} isn't in the space")
            blind = [env.observe(other) for other in env.agents if is_over or other != agent]
            want(not any(any(it["observation"]) or any(it["action_mask"]) for it in blind), "who isn't to act sees something")
            if is_over:
                rewards[agent] = reward
                env.step(None)
                continue
            want(env.possible_agents[env.table.seen.seat] == agent, f"{agent} acts out of turn")
            env.step(dice.choice(legal(seen["action_mask"])))
            acted += 1
        want(acted >= 2 and [rewards[agent] for agent in env.possible_agents] == env.table.payoffs, f"rewards {rewards}")
        want(sum(rewards.values()) == 0, f"rewards {rewards}")
    env.close()


class Box:
    def __init__(self, low, high, shape, dtype):
        self.low, self.high, self.shape = low, high, shape

    def contains(self, values):
        return (len(values),) == self.shape and all(self.low <= value <= self.high for value in values)


class MultiBinary:
    def __init__(self, n):
        self.n = n

    def contains(self, values):
        return len(values) == self.n and {*values} <= {0, 1}


class Dict:
    def __init__(self, spaces):
        self.spaces = spaces

    def contains(self, values):
        return {*values} == {*self.spaces} and all(space.contains(values[key]) for key, space in self.spaces.items())


class Discrete:
    def __init__(self, n):
        self.n = n


class Env:
    def reset(self, *, seed=None, options=None):
        pass


class AECEnv:
    """What the adapter has from PettingZoo: who is over leaves one after the other, and is told his sum of rewards before."""

    _skip_agent_selection = None

    def last(self, observe=True):
        agent = self.agent_selection
        seen = self.observe(agent) if observe else None
        return seen, self._cumulative_rewards[agent], self.terminations[agent], self.truncations[agent], self.infos[agent]

    def agent_iter(self):
        while self.agents:
            yield self.agent_selection

    def _accumulate_rewards(self):
        for agent, reward in self.rewards.items():
            self._cumulative_rewards[agent] += reward

    def _was_dead_step(self, action):
        want(action is None, "who is over acts")
        agent = self.agent_selection
        for of_agents in (self.terminations, self.truncations, self.rewards, self._cumulative_rewards, self.infos):
            del of_agents[agent]
        self.agents.remove(agent)
        over = [other for other in self.agents if self.terminations[other] or self.truncations[other]]
        if over:
            self._skip_agent_selection = self._skip_agent_selection or agent
            self.agent_selection = over[0]
        else:
            self.agent_selection, self._skip_agent_selection = self._skip_agent_selection or agent, None
        self.rewards = {other: 0 for other in self.rewards}


def stand_ins():
    """The modules, by their names."""
    spaces = types.SimpleNamespace(Box=Box, Discrete=Discrete, MultiBinary=MultiBinary, Dict=Dict)
    numpy = types.SimpleNamespace(float32=float, int8=int, array=lambda values, dtype: [dtype(it) for it in values])
    return {"gymnasium": types.SimpleNamespace(Env=Env, spaces=spaces), "numpy": numpy, "pettingzoo": types.SimpleNamespace(AECEnv=AECEnv)}


def over_stand_ins(test):
    """Runs a test with the stand-ins in the packages' places."""
    made = stand_ins()
    kept = {name: sys.modules.get(name) for name in [*made, "table_gymnasium", "table_pettingzoo"]}
    sys.modules.update(made)
    try:
        return test()
    finally:
        for name, module in kept.items():
            sys.modules.pop(name, None)
            if module is not None:
                sys.modules[name] = module
