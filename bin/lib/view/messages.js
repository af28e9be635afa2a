'use strict';
// Which message is looked at, and how far it came.

const VERDICTS = { reject: 'validation rejects it', ignore: 'validation ignores it' };

class MessageChoice {
  constructor(run, words, state) {
    Object.assign(this, { run, words, state });
    this.choice = document.getElementById('message');
    this.choice.addEventListener('change', () => this.choose(+this.choice.value));
    state.listen((_, changed) => {
      if (changed.has('topic')) this.fill();
      if (['topic', 'publication', 'round'].some((key) => changed.has(key))) this.draw();
    });
  }

  // Looks at a publication, in the round in which it was published; at none where the number is -1.
  choose(number) {
    const publication = this.run.publications[number] || null;
    this.state.set({ publication, round: publication ? publication.round : this.state.round });
  }

  // The publications on the topic, each with how many of its subscribers it reached.
  fill() {
    const { run, words, state } = this;
    this.choice.replaceChildren(new Option('(all)', -1));
    this.lacking = 0;
    this.refused = 0;
    run.publications.forEach((it, number) => {
      if (it.topic !== state.topic) return;
      const { came, lacking } = run.reachOf(it, run.last);
      this.lacking += lacking.length > 0 && it.verdict === 'accept';
      this.refused += it.verdict !== 'accept';
      const more = it.publishers.length > 1 ? ` and ${it.publishers.length - 1} more` : '';
      const what = `round ${it.round}, ${words.peer(it.publishers[0])}${more}: ${words.message(it.item)}`;
      const verdict = VERDICTS[it.verdict] ? `, ${VERDICTS[it.verdict]}` : '';
      this.choice.add(new Option(`to ${came.length} of ${it.subscribers.length}: ${what}${verdict}`, number));
    });
  }

  draw() {
    const { run, state } = this;
    this.choice.value = state.publication ? run.publications.indexOf(state.publication) : -1;
    document.getElementById('reach').textContent = state.publication ? this.toldOfOne() : this.toldOfAll();
  }

  toldOfAll() {
    const { run, words } = this;
    if (run.only !== null) return `this page has only events of ${words.peer(run.only)}`;
    if (!run.hasPublications) return 'the scenario is no TOML 1.0, so this page has no list of messages';
    const count = this.choice.length - 1;
    if (!count) return 'none is published on this topic';
    const came = this.lacking ? `${this.lacking} did not come` : 'each came';
    const which = this.refused ? `, ${this.refused} not accepted; of the others ${came}` : `; ${came}`;
    if (this.refused === count) return `${several(count, 'message')}, none accepted by validation`;
    return `${several(count, 'message')}${which} to every subscriber by round ${run.last}`;
  }

  toldOfOne() {
    const { run, words, state } = this;
    const { publication, round } = state;
    if (round < publication.round) return `it is published in round ${publication.round}`;
    const now = run.reachOf(publication, round).came.length;
    const { came, lacking } = run.reachOf(publication, run.last);
    const end = now < came.length ? `, by round ${run.last} to ${came.length}` : '';
    const verdict = VERDICTS[publication.verdict] ? `; ${VERDICTS[publication.verdict]}` : '';
    const missing = lacking.length ? `; not to ${lacking.map((it) => words.peer(it)).join(', ')}` : '';
    return `came to ${now} of ${several(publication.subscribers.length, 'subscriber')} by now${end}${verdict}${missing}`;
  }
}
