"""Play with the player's own commands, as docs/PLAYERS.md has it: at a prompt a line that begins with a `/` goes to the program."""
import copy

from machine import Machine

MOST_TURNS = 100
ANSWERS = {
    "undone": b"[undone]",
    "nothing": b"[nothing to undo]",
    "commands": b"[/undo takes the last line back, /quit ends play, /help tells this]",
    "no such": b"[no such command: /help tells which there are]",
}


class PromptedMachine(Machine):
    """A machine whose player may talk to the program. The steps of a budget are those from one prompt to the next."""

    def __init__(self, *given, **options):
        self.turns, self.commands = [], []
        super().__init__(*given, **options)

    def answer(self, need):
        """Answers a need. At a prompt commands are done until a line is for the story; "quit" where one ends play."""
        if not super().answer(need):
            return False
        while need == "line" and self.event.startswith(b"/"):
            done = self.obey(self.event[1:])
            self.event = None
            self.commands.append(done)
            if done == "quit":
                return "quit"
            self.give(ANSWERS[done] + b"\n\n>")
            if not super().answer(need):
                return False
        if need == "line":
            self.turns = [*self.turns, self.state()][-MOST_TURNS:]
        return True

    def renews(self, need):
        return need == "line"

    def obey(self, word):
        if word == b"quit":
            return "quit"
        if word == b"help":
            return "commands"
        if word != b"undo":
            return "no such"
        if not self.turns:
            return "nothing"
        self.memory, self.frames, self.place, self.mark, self.mode = self.turns.pop()
        return "undone"

    def state(self):
        return bytearray(self.memory), copy.deepcopy(self.frames), self.place, self.mark, self.mode
