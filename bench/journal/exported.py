"""The server's process, where the library itself writes and reads the journal."""

import library as ks
from served import Failed, Served


class Exported(Served):
    """The same over ks_server_replay, ks_server_noted and ks_journal_*: no line here knows the format."""

    def life(self, moment=0):
        return ks.Life(0, self.boot, self.uptime(), moment)

    def begun(self):
        return ks.begin(self.word, self.life())

    def woke(self, moment):
        return ks.wake(len(self.disk.kept), self.life(moment))

    def opened(self):
        self.server, told = ks.Server.replayed(self.disk.kept)
        if self.server is None:
            raise Failed(f"opens: the file is refused by {told}")
        self.count["torn"] += told.torn > 0
        if self.variant != "not_cut":
            self.disk.kept = self.disk.kept[: told.end]
        self.server.outs()
        silence, moment = ks.go_on(told, self.life())
        return (0, max(told.moment, moment - silence)) if self.variant == "no_silence" else (silence, moment)

    def kept(self, now):
        # What the library noted is what this process handed in and was not refused.
        turn = self.server.noted()
        outs, self.count["inputs"] = self.server.outs(), self.count["inputs"] + len(self.batch)
        if (turn is None) != (not self.batch) or (turn is not None and not turn.endswith(b"".join(self.batch))):
            raise Failed("noted: the library's turn is not what was handed in")
        self.batch = []
        return outs, None if turn is None else ks.frame(len(self.disk.kept), turn)
