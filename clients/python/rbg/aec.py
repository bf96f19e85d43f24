"""A game as an environment by the names of PettingZoo's AEC: agents act in turn.

>>> from rbg import Game
>>> with Game.load("crates/rbg_games/data/tictactoe.rbg") as game:
...     environment = Environment(game)
...     environment.reset(seed=1)
...     for agent in environment.agent_iter():
...         observation, reward, termination, truncation, info = environment.last()
...         mask = observation["action_mask"]
...         environment.step(None if termination else environment.action_space(agent).sample(mask))
...     print(sum(environment.rewards.values()), environment.agents, environment.num_actions > 9)
100.0 [] True
"""

import random
from typing import Any, Iterator, Optional, Sequence

from rbg.game import Game, State
from rbg.spiel import Actions, mask, planes


class Numbers:
    """The numbers of the moves that have been met, as a space by the names of Gymnasium."""

    def __init__(self, actions: Actions, chance: random.Random):
        self.actions, self.chance = actions, chance

    @property
    def n(self) -> int:
        """How many they are by now."""
        return len(self.actions)

    def contains(self, number: object) -> bool:
        return isinstance(number, int) and 0 <= number < self.n

    def sample(self, mask: Optional[Sequence[int]] = None) -> int:
        """One by chance; with a mask one of those at which there is a 1."""
        return self.chance.choice(range(self.n) if mask is None else [number for number, flag in enumerate(mask) if flag])


class Environment:
    """A game as agents meet it. The rewards come at the end: they are the scores.

    Moves are numbered as they are met. `num_actions` says how many there are by now, and each observation's
    `action_mask` is as long.
    """

    metadata: dict[str, Any] = {"name": "rbg", "render_modes": []}

    def __init__(self, game: Game):
        self.game, self.actions, self.chance = game, Actions(), random.Random()
        self.possible_agents = list(game.players)
        self.reset()

    def reset(self, seed: Optional[int] = None, options: Optional[dict[str, Any]] = None) -> None:
        """Begins a match. Chance chooses nothing but what `sample` of an action space returns."""
        if seed is not None:
            self.chance.seed(seed)
        self.state: State = self.game.state()
        self.agents = list(self.possible_agents)
        self.rewards = {agent: 0.0 for agent in self.agents}
        self.terminations = {agent: False for agent in self.agents}
        self.truncations = {agent: False for agent in self.agents}
        self.infos: dict[str, dict[str, Any]] = {agent: {} for agent in self.agents}
        self.agent_selection = self.agents[0]
        self.select()

    @property
    def num_actions(self) -> int:
        """How many moves have been met by now."""
        return len(self.actions)

    def action_space(self, agent: str) -> Numbers:
        """The numbers of the moves, the same ones for each agent."""
        return Numbers(self.actions, self.chance)

    @property
    def num_agents(self) -> int:
        return len(self.agents)

    @property
    def max_num_agents(self) -> int:
        return len(self.possible_agents)

    def select(self) -> None:
        """Gives the turn to whoever is to move; at the end each agent gets its reward."""
        if self.state.is_over:
            scores = self.state.scores or []
            self.rewards = {agent: float(score) for agent, score in zip(self.possible_agents, scores)}
            self.terminations = {agent: True for agent in self.agents}
        else:
            self.agent_selection = self.possible_agents[self.state.player - 1]

    def observe(self, agent: str) -> dict[str, Any]:
        """What an agent sees, and a 1 for each move that it may make."""
        is_mover = not self.state.is_over and agent == self.agent_selection
        numbers = [self.actions.number(move) for move in self.state.moves()] if is_mover else []
        return {"observation": planes(self.state), "action_mask": mask(numbers, len(self.actions))}

    def last(self, observe: bool = True) -> tuple[Optional[dict[str, Any]], float, bool, bool, dict[str, Any]]:
        """What the agent in turn sees, its reward, whether play is over or cut for it, and nothing more."""
        agent = self.agent_selection
        seen = self.observe(agent) if observe else None
        return seen, self.rewards[agent], self.terminations[agent], self.truncations[agent], self.infos[agent]

    def step(self, action: Optional[int]) -> None:
        """Makes the move of this number. An agent for which play is over gives none, and leaves."""
        if self.terminations[self.agent_selection]:
            if action is not None:
                raise ValueError("play is over: the action is None")
            self.agents.remove(self.agent_selection)
            if self.agents:
                self.agent_selection = self.agents[0]
            return
        if action is None:
            raise ValueError("a move is wanted")
        self.state.make(self.actions.moves[action])
        self.select()

    def agent_iter(self, max_iter: int = 2**63) -> Iterator[str]:
        """The agents, each in its turn, until all have left."""
        while self.agents and max_iter > 0:
            max_iter -= 1
            yield self.agent_selection

    def close(self) -> None:
        """Ends nothing: the game is closed by who opened it."""
