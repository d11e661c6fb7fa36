"""The table as an AEC environment of PettingZoo: an agent at each seat, who act in turn.

    env = TableAEC("examples/n3.game", seed=1)
    env.reset()
    for agent in env.agent_iter():
        observation, reward, termination, truncation, info = env.last()
        env.step(None if termination else int(observation["action_mask"].argmax()))

An episode is a hand. An observation is {"observation": numbers, "action_mask": 1 for each legal one of table_env.ACTIONS}; what isn't
legal counts as check or call. Who isn't to act sees nothing: zeros. Rewards are the chips of the hand, at its end. It needs
pettingzoo, gymnasium and numpy.
"""
import gymnasium
import numpy
import pettingzoo

from table_env import ACTIONS, Table, vector

CALL = 1


class TableAEC(pettingzoo.AECEnv):
    metadata = {"name": "holdem_table_v0", "render_modes": [], "is_parallelizable": False}
    render_mode = None

    def __init__(self, path, seed=0, program=None):
        super().__init__()
        self.path, self.program, self.table = path, program, Table(path, seed, program)
        self.possible_agents = [f"seat{seat}" for seat in range(self.table.game.players)]
        self.size, choices = len(vector(self.table.reset(), self.table.game)), len(ACTIONS)
        numbers, mask = gymnasium.spaces.Box(0.0, 1.0, (self.size,), numpy.float32), gymnasium.spaces.MultiBinary(choices)
        seen = gymnasium.spaces.Dict({"observation": numbers, "action_mask": mask})
        self.observation_spaces = {agent: seen for agent in self.possible_agents}
        self.action_spaces = {agent: gymnasium.spaces.Discrete(choices) for agent in self.possible_agents}

    def observation_space(self, agent):
        return self.observation_spaces[agent]

    def action_space(self, agent):
        return self.action_spaces[agent]

    def of_all(self, value):
        return {agent: value for agent in self.agents}

    def reset(self, seed=None, options=None):
        if seed is not None:
            self.table.close()
            self.table = Table(self.path, seed, self.program)
        self.agents = [*self.possible_agents]
        self.rewards, self._cumulative_rewards = self.of_all(0.0), self.of_all(0.0)
        self.terminations, self.truncations = self.of_all(False), self.of_all(False)
        self.infos = {agent: {} for agent in self.agents}
        self.agent_selection = self.possible_agents[self.table.reset().seat]

    def observe(self, agent):
        seen, mask, numbers = self.table.seen, [0] * len(ACTIONS), [0.0] * self.size
        if seen is not None and self.possible_agents[seen.seat] == agent:
            mask, numbers = [action is not None for action in seen.actions], vector(seen, self.table.game)
        return {"observation": numpy.array(numbers, dtype=numpy.float32), "action_mask": numpy.array(mask, dtype=numpy.int8)}

    def step(self, action):
        if self.terminations[self.agent_selection]:
            return self._was_dead_step(action)
        self._cumulative_rewards[self.agent_selection] = 0.0
        seen = self.table.step(self.table.seen.actions[action] or self.table.seen.actions[CALL])
        if seen is not None:
            self.rewards, self.agent_selection = self.of_all(0.0), self.possible_agents[seen.seat]
        else:
            self.rewards = {agent: float(chips) for agent, chips in zip(self.possible_agents, self.table.payoffs)}
            self.terminations, self.agent_selection = self.of_all(True), self.agents[0]
        self._accumulate_rewards()

    def close(self):
        self.table.close()
