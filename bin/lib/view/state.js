'use strict';
// What is shown: the round, the topic, one publication on it or all, the peer that is looked at and the neighbour whose
// score is, and what is drawn. Who draws something is called after each change with the state, and with the names of what
// changed.

class State {
  constructor(run) {
    this.run = run;
    this.listeners = [];
    this.round = run.first;
    this.topic = 0;
    this.publication = null;
    this.peer = run.only;
    this.other = null;
    this.gives = true;
    this.isWhole = false;
    this.filter = '';
    this.shown = { mesh: true, new: true, duplicates: true };
    this.isPlaying = false;
  }

  listen(listener) {
    this.listeners.push(listener);
  }

  set(changes) {
    const changed = new Set(Object.keys(changes).filter((key) => this[key] !== changes[key]));
    Object.assign(this, changes);
    if (changed.size) this.listeners.forEach((it) => it(this, changed));
  }

  // Has all drawn, as at the beginning.
  tell() {
    this.listeners.forEach((it) => it(this, new Set(Object.keys(this))));
  }

  // Goes to a round, or to the nearest one that the page has.
  go(round) {
    this.set({ round: Math.min(Math.max(round, this.run.first), this.run.last) });
  }

  // Looks at a peer; null where at none. The neighbour whose score is shown goes with it where it is none of this one's.
  choose(peer) {
    const keeps = peer !== null && this.other !== null && this.run.neighbours[peer].includes(this.other);
    this.set({ peer, other: keeps ? this.other : null });
  }

  // Looks at the score that the peer gives a neighbour, or that it has from it.
  look(peer, other, gives) {
    this.set({ peer, other, gives });
  }
}
