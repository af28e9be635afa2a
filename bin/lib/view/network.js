'use strict';
// The peers on a circle, the links of the topic's mesh between them, and the messages that came in the round.

const VIEW = { width: 560, height: 500 };

class Network {
  constructor(run, words, state) {
    Object.assign(this, { run, words, state });
    this.isLarge = run.count > 16;
    this.svg = d3.select('#circle').attr('viewBox', `0 0 ${VIEW.width} ${VIEW.height}`).classed('large', this.isLarge);
    this.disc = run.count > 40 ? 8 : run.count > 16 ? 11 : 15;
    this.places = run.peers.map((_, number) => this.placeOf(number));
    this.addHeads();
    this.links = this.svg.append('g');
    this.arrows = this.svg.append('g');
    this.addDiscs();
    this.addLegend();
    state.listen((it, changed) => {
      if (['round', 'topic', 'publication', 'peer', 'other', 'shown'].some((key) => changed.has(key))) this.draw();
    });
  }

  // Peer i of n is at i * 360 / n degrees from the top, clockwise.
  placeOf(number) {
    const angle = (number * 2 * Math.PI) / this.run.count;
    const longest = Math.max(...this.run.peers.map((it) => this.shortened(it).length));
    const radius = Math.min(VIEW.height / 2 - (this.isLarge ? 20 + 6.4 * longest : 34), VIEW.width / 2 - 40);
    return { angle, x: VIEW.width / 2 + radius * Math.sin(angle), y: VIEW.height / 2 - radius * Math.cos(angle) };
  }

  shortened(name) {
    return name.length > 14 ? `${name.slice(0, 13)}…` : name;
  }

  addHeads() {
    const names = ['fresh', 'duplicate', 'refused', 'unheard', 'one'];
    const heads = this.svg.append('defs').selectAll('marker').data(names).enter().append('marker');
    heads.attr('id', (it) => `head-${it}`).attr('viewBox', '0 0 8 8').attr('refX', 7).attr('refY', 4)
      .attr('markerWidth', 7).attr('markerHeight', 7).attr('markerUnits', 'userSpaceOnUse').attr('orient', 'auto')
      .append('path').attr('class', (it) => `head ${it}`).attr('d', 'M0,0L8,4L0,8z');
  }

  addDiscs() {
    this.discs = this.svg.append('g').selectAll('g').data(this.run.peers).enter().append('g');
    this.discs.attr('transform', (_, number) => `translate(${this.places[number].x},${this.places[number].y})`)
      .attr('role', 'button').attr('data-peer', (name) => name).on('click', (_, number) => this.click(number));
    this.discs.append('title');
    this.discs.append('circle').attr('class', 'ring').attr('r', this.disc + 4);
    this.discs.append('circle').attr('class', 'disc').attr('r', this.disc);
    // (inward and aside: the name stands outward, and most arrows come from the middle)
    const turn = Math.PI / 4;
    this.discs.append('circle').attr('class', 'reached').attr('r', Math.max(4, 0.4 * this.disc))
      .attr('cx', (_, number) => -this.disc * Math.sin(this.places[number].angle + turn))
      .attr('cy', (_, number) => this.disc * Math.cos(this.places[number].angle + turn));
    this.discs.append('text').attr('class', 'mark').attr('dy', '0.35em')
      .style('font-size', `${Math.round(this.disc * 1.2)}px`);
    const names = this.discs.append('text').attr('class', 'name').attr('dy', '0.35em');
    names.text((name) => this.shortened(name)).each((_, number) => this.setName(number));
  }

  // A name stands outward of its disc: level up to 16 peers, else along the radius.
  setName(number) {
    const name = d3.select(this.discs[0][number]).select('.name');
    const { angle } = this.places[number];
    const away = this.disc + 7;
    if (!this.isLarge) {
      const side = Math.sin(angle);
      name.attr('x', away * side).attr('y', -(away + 4) * Math.cos(angle))
        .attr('text-anchor', Math.abs(side) < 0.1 ? 'middle' : side > 0 ? 'start' : 'end');
      return;
    }
    const degrees = (angle * 180) / Math.PI;
    const isLeft = degrees > 180;
    name.attr('transform', `rotate(${isLeft ? degrees + 90 : degrees - 90}) translate(${isLeft ? -away : away},0)`)
      .attr('text-anchor', isLeft ? 'end' : 'start');
  }

  // A click looks at a peer; on a neighbour of the one that is looked at, with the shift key, at that one's score.
  click(number) {
    const { peer } = this.state;
    if (d3.event.shiftKey && peer !== null && this.run.neighbours[peer].includes(number)) {
      this.state.look(peer, number, true);
    } else {
      this.state.choose(peer === number ? null : number);
    }
  }

  addLegend() {
    let group = null;
    const begin = (words) => {
      group = d3.select('#legend').append('div').attr('class', 'group');
      group.append('b').text(words);
    };
    const item = (words, draw, title) => {
      const it = group.append('span').attr('class', 'item').attr('title', title || words);
      draw(it.append('svg').attr('width', 26).attr('height', 14));
      it.append('span').text(words);
    };
    begin('peers, by their lowest score:');
    CLASSES.forEach((it) => item(it.short, (svg) => {
      svg.append('circle').attr('class', `disc ${it.name}`).attr('cx', 13).attr('cy', 7).attr('r', 6);
      svg.append('text').attr('class', `mark ${it.name}`).attr('x', 13).attr('y', 10).text(it.mark);
    }, `the lowest score that a neighbour gives the peer is ${it.words}`));
    item('not subscribed', (svg) => {
      svg.append('circle').attr('class', 'disc fair off').attr('cx', 13).attr('cy', 7).attr('r', 6);
    }, 'the peer is not subscribed to the topic');
    item('has the message', (svg) => {
      svg.append('circle').attr('class', 'reached legend').attr('cx', 13).attr('cy', 7).attr('r', 4.5);
    }, 'the peer published the message that is chosen below, or it was delivered to it');
    this.addLines(item, begin);
  }

  addLines(item, begin) {
    const line = (name, marker) => (svg) => {
      const path = svg.append('path').attr('class', name).attr('d', 'M2,7H24');
      if (marker) path.attr('marker-end', `url(#head-${marker})`);
    };
    begin('meshes:');
    item('of both', line('link both'), 'each has the other in its mesh');
    item('one-sided', line('link one', 'one'), 'only the peer at the tail has the other one in its mesh');
    begin('messages heard in the round:');
    item('new', line('arrow fresh', 'fresh'), 'a message that was new to its receiver');
    item('duplicate', line('arrow duplicate', 'duplicate'), 'a message that had come before');
    item('refused', line('arrow refused', 'refused'), 'a message that was rejected or ignored');
    item('not heard', line('arrow unheard', 'unheard'), 'a message in an RPC that was not heard');
  }

  draw() {
    const { run, state } = this;
    this.drawLinks(run.linksOf(state.topic, state.round));
    this.drawArrows(run.wayOf(state.topic, state.round, state.publication));
    this.drawDiscs(run.subscribersOf(state.topic, state.round));
  }

  // Whether something between two peers is pale, since another peer is looked at.
  isPale(it) {
    const { peer } = this.state;
    return peer !== null && it.from !== peer && it.to !== peer;
  }

  drawLinks(links) {
    const { words, state } = this;
    const shown = state.shown.mesh ? links : [];
    const lines = this.links.selectAll('path').data(shown, (it) => `${it.from} ${it.to}`);
    lines.enter().append('path').append('title');
    lines.exit().remove();
    lines.attr('class', (it) => `link ${it.both ? 'both' : 'one'}${this.isPale(it) ? ' pale' : ''}`)
      .attr('d', (it) => this.path(it, 0)).attr('marker-end', (it) => (it.both ? null : 'url(#head-one)'));
    lines.select('title').text((it) => (it.both
      ? `${words.peer(it.from)} and ${words.peer(it.to)} have each other in their meshes`
      : `${words.peer(it.from)} has ${words.peer(it.to)} in its mesh, and not the other way round`));
    const both = links.filter((it) => it.both).length;
    const counts = d3.select('#counts').html('');
    counts.append('b').attr('data-figure', 'both').text(both);
    counts.append('span').text(' mesh links, ');
    counts.append('b').attr('data-figure', 'one').text(links.length - both);
    counts.append('span').text(` one-sided`);
  }

  // The path from a disc to another one, bent by a share of its length.
  path({ from, to }, bend) {
    const [one, other] = [this.places[from], this.places[to]];
    const [x, y] = [other.x - one.x, other.y - one.y];
    const length = Math.hypot(x, y) || 1;
    const gap = this.disc + 2;
    const middle = { x: (one.x + other.x) / 2 - y * bend, y: (one.y + other.y) / 2 + x * bend };
    const near = (place, share) => {
      const [dx, dy] = [middle.x - place.x, middle.y - place.y];
      const far = Math.hypot(dx, dy) || 1;
      return `${(place.x + (dx / far) * share).toFixed(1)},${(place.y + (dy / far) * share).toFixed(1)}`;
    };
    const reach = Math.min(gap, length / 2 - 1);
    return `M${near(one, reach)}Q${middle.x.toFixed(1)},${middle.y.toFixed(1)} ${near(other, reach)}`;
  }

  drawArrows(ways) {
    const { words, state } = this;
    const sort = (it) => (it.fresh ? 'fresh' : it.refused ? 'refused' : it.unheard ? 'unheard' : 'duplicate');
    const shown = ways.filter((it) => (sort(it) === 'duplicate' ? state.shown.duplicates : state.shown.new));
    const lines = this.arrows.selectAll('path').data(shown, (it) => `${it.from} ${it.to}`);
    lines.enter().append('path').append('title');
    lines.exit().remove();
    lines.attr('class', (it) => `arrow ${sort(it)}${this.isPale(it) ? ' pale' : ''}`)
      .attr('d', (it) => this.path(it, 0.09)).attr('marker-end', (it) => `url(#head-${sort(it)})`);
    const kinds = [['fresh', 'new'], ['duplicate', 'duplicate'], ['refused', 'refused'], ['unheard', 'not heard']];
    lines.select('title').text((it) => {
      const parts = kinds.filter(([key]) => it[key]).map(([key, name]) => `${it[key]} ${name}`);
      return `messages from ${words.peer(it.from)} to ${words.peer(it.to)}: ${parts.join(', ')}`;
    });
  }

  drawDiscs(subscribers) {
    const { run, state } = this;
    this.discs.each((name, number) => {
      const it = run.classAt(number, state.round);
      const isOn = subscribers.has(number);
      const lowest = run.lowestOf(number, state.round);
      const disc = d3.select(this.discs[0][number]);
      const isPale = state.peer !== null && state.peer !== number && !run.neighbours[state.peer].includes(number);
      disc.attr('class', `peer ${it.name}`)
        .classed({ off: !isOn, chosen: state.peer === number, other: state.other === number, pale: isPale })
        .classed('has', Boolean(state.publication) && state.publication.had.get(number) <= state.round);
      disc.attr('aria-label', `peer ${name}`).select('.mark').text(it.mark);
      disc.select('title').text(`${name}: ${lowest ? `lowest score ${lowest.score}, by ${run.peers[lowest.by]}` : it.words}`
        + `${isOn ? '' : '; not subscribed'}`);
    });
  }
}
