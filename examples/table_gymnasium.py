"""The table as an environment of Gymnasium: one learner at seat 0, other players at the other seats.

    env = TableEnv("examples/l2.game", seed=1)
    observation, info = env.reset()
    observation, reward, terminated, truncated, info = env.step(1)

An episode is a hand. Actions are the places of table_env.ACTIONS; info["action_mask"] has 1 for those that are legal. One that isn't
legal counts as check or call. The reward is what seat 0 won or lost in the hand, in chips, and 0 before its end. `others` is what
the other players do at what they see; by default they check or call. It needs gymnasium and numpy.
"""
import gymnasium
import numpy

from table_env import ACTIONS, Table, vector

CALL = 1
LEARNER = 0


class TableEnv(gymnasium.Env):
    metadata = {"render_modes": []}

    def __init__(self, path, seed=0, others=lambda seen: "c", program=None):
        self.path, self.others, self.program = path, others, program
        self.table = Table(path, seed, program)
        count = len(self.vector_of(self.table.reset()))
        self.observation_space = gymnasium.spaces.Box(0.0, 1.0, (count,), numpy.float32)
        self.action_space = gymnasium.spaces.Discrete(len(ACTIONS))

    def vector_of(self, seen):
        return numpy.array(vector(seen, self.table.game), dtype=numpy.float32)

    def reset(self, *, seed=None, options=None):
        """Deals a hand in which it comes to the learner's turn. A seed begins the decks anew."""
        super().reset(seed=seed)
        if seed is not None:
            self.table.close()
            self.table = Table(self.path, seed, self.program)
        seen = self.go_on(self.table.reset())
        while seen is None:
            seen = self.go_on(self.table.reset())
        return self.vector_of(seen), self.info(seen)

    def go_on(self, seen):
        """Lets the others act until it is the learner's turn; what he sees, None if the hand is over."""
        while seen is not None and seen.seat != LEARNER:
            seen = self.table.step(self.others(seen))
        return seen

    def info(self, seen):
        return {"action_mask": numpy.array([action is not None for action in seen.actions], dtype=numpy.int8)}

    def step(self, action):
        last = self.table.seen
        seen = self.go_on(self.table.step(last.actions[action] or last.actions[CALL]))
        if seen is None:
            return self.vector_of(last), float(self.table.payoffs[LEARNER]), True, False, self.info(last)
        return self.vector_of(seen), 0.0, False, False, self.info(seen)

    def close(self):
        self.table.close()
