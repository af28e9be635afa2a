'use strict';
// What happened, in words: the figures of the round, the events of a peer, the scores of its neighbours, and one in parts.

// How many events a list has at most.
const MOST_ROWS = 400;
const FIGURES = [
  ['delivered', 'delivered', 'deliveries to users, the publisher’s own among them'],
  ['new', 'new', 'messages of neighbours that were accepted, and delivered'],
  ['duplicates', 'duplicates', 'messages that were seen lately and had been accepted'],
  ['ignored', 'ignored', 'messages that validation ignores, their copies among them'],
  ['rejected', 'rejected', 'messages that validation rejects, their copies among them'],
  ['signed', 'signed', 'messages with an author, a number, a signature or a key, which is not allowed'],
  ['off_topic', 'off topic', 'messages on a topic that the peer was not subscribed to'],
  ['smallest_mesh', 'smallest', 'members of the smallest mesh, over all topics'],
  ['largest_mesh', 'largest', 'members of the largest mesh, over all topics'],
];
const FIGURE_GROUPS = [
  ['', 1],
  ['messages heard in this round, all topics', 6],
  ['mesh members', 2],
];

class FiguresPanel {
  constructor(run, words, state) {
    const table = d3.select('#figures');
    table.append('tr').selectAll('th').data(FIGURE_GROUPS).enter().append('th')
      .attr('colspan', (it) => it[1]).attr('class', 'group').text((it) => it[0]);
    const cells = (row, tag) => row.selectAll(tag).data(FIGURES).enter().append(tag);
    cells(table.append('tr'), 'th').text((it) => it[1]).attr('title', (it) => it[2]);
    const values = cells(table.append('tr'), 'td').attr('data-figure', (it) => it[0]);
    state.listen((it, changed) => {
      if (changed.has('round')) values.text(([key]) => run.figuresOf(it.round)[key] ?? '—');
    });
  }
}

class EventList {
  constructor(run, words, state) {
    Object.assign(this, { run, words, state });
    const choice = d3.select('#peer');
    choice.selectAll('option').data(['(all)', ...run.peers]).enter().append('option')
      .attr('value', (_, number) => number - 1).text((it) => it);
    choice.on('change', () => state.choose(+choice.node().value < 0 ? null : +choice.node().value));
    d3.select('#scope-round').on('change', () => state.set({ isWhole: false }));
    d3.select('#scope-run').on('change', () => state.set({ isWhole: true }));
    d3.select('#filter').on('input', () => state.set({ filter: d3.select('#filter').node().value.toLowerCase() }));
    state.listen((_, changed) => this.changed(changed));
  }

  changed(changed) {
    const { state } = this;
    d3.select('#peer').node().value = state.peer ?? -1;
    const isNew = ['peer', 'isWhole', 'filter'].some((key) => changed.has(key));
    if (isNew || (changed.has('round') && !state.isWhole)) {
      this.draw();
    } else if (changed.has('round')) {
      this.mark();
    }
  }

  // The events that are listed, as [round, event, words], up to one more than the most rows.
  *found() {
    const { run, words, state } = this;
    const rounds = state.isWhole ? d3.range(run.first, run.last + 1) : [state.round];
    const terms = state.filter.split(/\s+/).filter(Boolean).map((it) => this.termOf(it));
    for (const round of rounds) {
      for (const event of this.eventsOf(round)) {
        if ((state.peer === null || state.isWhole) && !terms.length && !words.isNotable(event)) continue;
        const said = words.sentence(event);
        const text = `${words.peer(event[0])} ${said}`.toLowerCase();
        if (terms.every((it) => it.test(text))) yield [round, event, said];
      }
    }
  }

  // The events of a round that may be listed: all, or those of the peer that is looked at, and after them those about it.
  eventsOf(round) {
    const { run, state } = this;
    const events = run.eventsOf(round);
    if (state.peer === null) return events;
    const isOwn = (it) => it[0] === state.peer;
    return [...events.filter(isOwn), ...events.filter((it) => !isOwn(it) && this.concerns(it))];
  }

  // Whether an event is of the peer that is looked at, or about it.
  concerns(event) {
    const { words, state } = this;
    return event[0] === state.peer || words.isAbout(event, state.peer);
  }

  // What a word finds: itself anywhere; but the name of a peer only as a word.
  termOf(word) {
    const plain = word.replace(/[.*+?^${}()|[\]\\]/g, '\\$&');
    const isName = this.run.peers.some((it) => it.toLowerCase() === word);
    return new RegExp(isName ? `(?<![\\w-])${plain}(?![\\w-])` : plain);
  }

  draw() {
    const { run, words, state } = this;
    const rows = [];
    let isCut = false;
    for (const it of this.found()) {
      isCut = rows.length === MOST_ROWS;
      if (isCut) break;
      rows.push(it);
    }
    const list = d3.select('#events').html('');
    const items = list.selectAll('li').data(rows).enter().append('li').classed('bad', (it) => words.isBad(it[1]));
    if (state.isWhole) {
      items.append('button').text((it) => it[0]).attr('title', (it) => `go to round ${it[0]}`)
        .on('click', (it) => state.go(it[0]));
    }
    items.filter((it) => it[1][0] !== state.peer).append('button').attr('class', 'who')
      .text((it) => words.peer(it[1][0])).attr('title', 'look at this peer').on('click', (it) => state.choose(it[1][0]));
    items.append('span').text((it) => it[2]);
    d3.select('#events-more span').text(this.remark(rows.length, isCut));
    list.node().scrollTop = 0;
    this.mark();
  }

  // The buttons lead to the nearest rounds with an event of the peer, or about it.
  setNearest() {
    const { state } = this;
    const rounds = state.peer === null ? [] : this.rounds();
    const before = rounds[d3.bisectLeft(rounds, state.round) - 1];
    const after = rounds[d3.bisectRight(rounds, state.round)];
    for (const [id, round, words] of [['before', before, `< round ${before}`], ['after', after, `round ${after} >`]]) {
      d3.select(`#${id}`).style('display', round === undefined ? 'none' : null).text(words)
        .on('click', () => state.go(round));
    }
  }

  // The rounds with an event of the peer that is looked at, or about it.
  rounds() {
    const { run, state } = this;
    if (this.concerned?.peer !== state.peer) {
      const all = d3.range(run.first, run.last + 1);
      const rounds = all.filter((round) => run.eventsOf(round).some((it) => this.concerns(it)));
      this.concerned = { peer: state.peer, rounds };
    }
    return this.concerned.rounds;
  }

  remark(count, isCut) {
    const { run, words, state } = this;
    const where = state.isWhole ? 'the run' : `round ${state.round}`;
    const isAll = state.peer !== null && !state.isWhole;
    if (isCut) return `only the first ${MOST_ROWS} events; words to look for leave fewer`;
    if (state.filter) return `${several(count, 'event')} of ${where} with these words`;
    if (run.only !== null && state.peer !== run.only) return `this page has only events of ${words.peer(run.only)}`;
    return `${several(count, 'event')} of ${where}${isAll ? '' : '; ordinary ones are left out'}`;
  }

  mark() {
    const { state } = this;
    this.setNearest();
    d3.select('#events').selectAll('li').classed('now', (it) => state.isWhole && it[0] === state.round);
  }
}

class ScorePanel {
  constructor(run, words, state) {
    Object.assign(this, { run, words, state });
    state.listen((_, changed) => {
      if (['round', 'peer', 'other', 'gives', 'topic'].some((key) => changed.has(key))) this.draw();
    });
  }

  draw() {
    this.drawNeighbours();
    this.drawParts();
  }

  drawNeighbours() {
    const { run, words, state } = this;
    const place = d3.select('#neighbours').html('');
    if (state.peer === null) {
      place.append('p').text('Click a peer for its events, and for the scores that it gives and has.');
      if (run.scores) this.drawLowest(place.append('table'));
      return;
    }
    const name = words.peer(state.peer);
    const table = place.append('table');
    const head = table.append('thead').append('tr');
    head.append('th').text('neighbour');
    head.append('th').attr('class', 'number').text(`${name} gives it`);
    head.append('th').attr('class', 'number').text(`it gives ${name}`);
    head.append('th').text('mesh')
      .attr('title', `whether ${name} has it in its mesh of the topic, and the other way round`);
    const members = new Set(run.linksOf(state.topic, state.round).flatMap((it) => (it.both
      ? [`${it.from} ${it.to}`, `${it.to} ${it.from}`] : [`${it.from} ${it.to}`])));
    const rows = table.append('tbody').selectAll('tr').data(run.neighbours[state.peer]).enter().append('tr')
      .attr('data-neighbour', (it) => run.peers[it]).classed('chosen', (it) => it === state.other);
    rows.append('td').append('button').text((it) => words.peer(it)).attr('title', 'this neighbour’s score in parts')
      .on('click', (it) => state.look(state.peer, it, true));
    this.addScore(rows, true);
    this.addScore(rows, false);
    rows.append('td').text((it) => this.relation(it, members));
  }

  // Each peer's lowest score, the lowest one first.
  drawLowest(table) {
    const { run, words, state } = this;
    const found = run.peers.map((_, peer) => ({ peer, lowest: run.lowestOf(peer, state.round) }))
      .filter((it) => it.lowest).sort((one, other) => one.lowest.score - other.lowest.score);
    const head = table.append('thead').append('tr');
    head.append('th').text('peer');
    head.append('th').attr('class', 'number').text(found.length ? 'lowest score' : 'there is no score yet');
    head.append('th').text(found.length ? 'by' : '');
    const rows = table.append('tbody').selectAll('tr').data(found).enter().append('tr');
    rows.append('td').append('button').text((it) => words.peer(it.peer)).on('click', (it) => state.choose(it.peer));
    const cells = rows.append('td').attr('class', 'number').append('button').attr('title', 'this score in parts')
      .on('click', (it) => state.look(it.peer, it.lowest.by, false));
    const classOf = (it) => run.classOf(it.lowest.score);
    cells.append('i').attr('class', (it) => `badge ${classOf(it).name}`).text((it) => classOf(it).mark);
    cells.append('span').text((it) => it.lowest.score.toFixed(2));
    rows.append('td').text((it) => words.peer(it.lowest.by));
  }

  addScore(rows, gives) {
    const { run, state } = this;
    const scoreOf = (it) => (gives ? run.scoreOf(state.peer, it, state.round) : run.scoreOf(it, state.peer, state.round));
    const cells = rows.append('td').attr('class', 'number').append('button').attr('title', 'this score in parts')
      .classed('shown', (it) => it === state.other && state.gives === gives)
      .on('click', (it) => state.look(state.peer, it, gives));
    cells.each(function set(it) {
      const score = scoreOf(it);
      const found = run.classOf(score ? score.body[0] : null);
      const cell = d3.select(this);
      cell.append('i').attr('class', `badge ${found.name}`).text(found.mark);
      cell.append('span').text(score ? score.body[0].toFixed(2) : '—');
    });
  }

  relation(other, members) {
    const { run, state } = this;
    if (run.hasLost(state.peer, other, state.round) || run.hasLost(other, state.peer, state.round)) return 'lost';
    const has = members.has(`${state.peer} ${other}`);
    const had = members.has(`${other} ${state.peer}`);
    if (has && had) return 'both';
    const name = this.words.peer(state.peer);
    return has ? `${name} has it` : had ? `it has ${name}` : '';
  }

  drawParts() {
    const { run, words, state } = this;
    const place = d3.select('#parts').html('');
    if (state.peer === null || state.other === null) {
      if (state.peer !== null) place.append('p').text('Click a neighbour, or a score, for its parts.');
      return;
    }
    const [from, to] = state.gives ? [state.peer, state.other] : [state.other, state.peer];
    const score = run.scoreOf(from, to, state.round);
    place.append('h2').text(`the score that ${words.peer(from)} gives ${words.peer(to)}`);
    if (!score) {
      place.append('p').text('There is none yet: scores are noted at heartbeats and decays.');
      return;
    }
    const [gossip, publish, graylist] = run.scores.thresholds;
    const its = run.classOf(score.body[0]);
    const below = its === CLASSES[0] ? '' : `, ${its.words}`;
    place.append('p').text(`${score.body[0]}${below}; first noted in round ${score.round} (${score.event}). `
      + `Thresholds: gossip ${gossip}, publish ${publish}, graylist ${graylist}.`);
    if (score.body.length > 1) this.addParts(place.append('table'), score.body);
    else place.append('p').text('This page has no parts of it: --peer left them out.');
  }

  addParts(table, body) {
    const [score, sum, capped] = body;
    const total = (name, weighed) => ({ name, weighed, isHead: true });
    const rows = body[9].flatMap((it) => [total(`topic ${this.words.topic(it[0])}`, it[1]), ...topicParts(it)]);
    rows.push(total('all topics', sum));
    if (capped !== sum) rows.push(total('all topics, capped', capped));
    rows.push(...otherParts(body), total('score', score));
    const head = table.append('thead').append('tr');
    ['part', 'counted', 'weighed'].forEach((it) => head.append('th').text(it));
    const lines = table.append('tbody').selectAll('tr').data(rows).enter().append('tr')
      .classed('head', (it) => it.isHead).classed('bad', (it) => it.weighed < 0)
      .classed('none', (it) => !it.isHead && !it.weighed && !it.counted);
    lines.append('td').text((it) => (it.code ? `${it.code} ${it.name}` : it.name));
    lines.append('td').attr('class', 'number').text((it) => it.counted ?? '');
    lines.append('td').attr('class', 'number').text((it) => it.weighed);
  }
}
